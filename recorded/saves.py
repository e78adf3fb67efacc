"""saves.py DRIVER CRATE: writes the calls of plans, saves and images that no answer of the Rust settles, and their answers, after those
that CRATE/stdin and CRATE/stdout have before the line MARK (rows.py). See README.md.

The bytes come from document.py, and the Rust's writers (DRIVER) must agree; none comes from the program under test."""

import sys

import document
from answers import answers
from document import TOP, cut, manager, message, slots_of
from images import images, lent_runs
from rows import MARK, NO_SECTIONS, PAGE, call, changed, counted, image_call, put_rows, says, text_of


# The saves whose blocks and messages the Rust must write too.
saves = []


def saved(page, start, lists):
    saves.append((page, start, lists))
    return document.saved(page, start, lists)


def save_call(page, start, place, k, image, answer):
    call(f"save {page} {start} {place} {k} {text_of(image)}", answer)


def lists_of(lists):
    for k, regions in enumerate(lists):
        call(f"new {k}", "ok")
        for addr, size in regions:
            call(f"free {k} {addr} {size}", "ok")


# One save, used throughout: page 16, message at 0, blocks from 256 on. Slots 0, 2 and 6 have two sections each.
START, PLACE = 256, 0
LISTS = [[(130, 40)], [(180, 20)], [(220, 30)]]
BLOCKS, MESSAGE = saved(PAGE, START, LISTS)
LEN = len(BLOCKS)
READ = counted({0: 2, 2: 2, 6: 2}, [(160, 10), (130, 14), (192, 8), (180, 12), (144, 16), (220, 30)])
# The image before it: an old message, and after the new blocks the manager that it names.
OLD = message(PAGE, 900, slots_of({0: START + LEN}))
OLD_MANAGER = manager([(130, 40)], START + LEN, 1)
IMAGE = OLD + bytes([0xAA]) * (START + LEN - 125) + OLD_MANAGER
READ_OLD = counted({0: 1}, [(130, 40)])


def plans():
    says('1. "Width: an offset size or length size is outside 1 to 8."')
    call("plan 0 4096 0 0 0 0", "err 1")
    call("plan 9 4096 0 1 5 1 0 0", "err 1")
    says('1 before 2, and 2 before 4: "Where several apply, the lowest number is given, unless a sequence of tests is stated."')
    call("plan 0 0 0 0 0 0", "err 1")
    call(f"plan 8 0 {TOP} 1 {TOP} 1 0 0", "err 2")
    says('2. "Page: a page size to cut or round by is 0." For no sections too: "each condition is exact".')
    call("plan 8 0 0 0 0 0", "err 2")
    call("plan 8 0 0 0 0 1 5 1", "err 2")
    says('4. "address plus length or base (not in reading or writing blocks, nor for a save\'s place) .. exceeds 2^64−1." Of all three runs.')
    call(f"plan 8 4096 0 1 {TOP} 1 0 0", "err 4")
    call(f"plan 8 4096 0 0 1 {TOP} 1 0", "err 4")
    call(f"plan 8 4096 0 0 0 1 {TOP} 5", "err 4")
    says('4. "a sum of section sizes .. exceeds 2^64−1", of one slot.')
    call(f"plan 8 {TOP} 0 2 0 {TOP - 1} 0 2 0 0", "err 4")
    call(f"plan 8 1 0 0 0 2 0 {TOP} 5 1", "err 4")
    says('4. "a planned address .. exceeds 2^64−1." The blocks of one section have 117 bytes.')
    call(f"plan 8 4096 {TOP - 116} 1 5 1 0 0", "err 4")
    undefined = " ".join([str(TOP)] * 11)
    call(f"plan 8 4096 {TOP - 117} 1 5 1 0 0", f"end {TOP} slots {TOP - 117} {undefined} blocks 1 {TOP - 117} {TOP - 35} 1 1 5 1")
    says('4 before 5, and 5 before 12: "Where several apply, the lowest number is given, unless a sequence of tests is stated."')
    call(f"plan 8 16 {TOP} 1 16 16 0 1 16 5", "err 4")
    call("plan 1 16 256 1 16 16 0 1 16 5", "err 5")
    says('5. "two slot 6 sections have one address." Empty unclassified sections are sections.')
    call("plan 8 16 0 1 16 16 1 16 16 0", "err 5")
    call("plan 8 16 0 0 0 2 7 1 7 2", "err 5")
    call("plan 8 16 0 0 0 2 7 0 7 0", "err 5")
    says('No 5 in slots 0 and 2: "two slot 6 sections have one address."')
    blocks, _ = saved(16, 0, [[(5, 1)], [], []])
    length = len(blocks) + 9
    call("plan 8 16 0 2 5 1 5 1 0 0", f"end {length} slots 0 {undefined} blocks 1 0 82 1 2 5 1 5 1")
    says('12. "Wide address: a written address doesn\'t fit the offset size."')
    call("plan 1 16 256 1 5 1 0 0", "err 12")
    call("plan 1 16 181 1 5 1 0 0", "err 12")
    call("plan 1 16 0 1 256 1 0 0", "err 12")
    call("plan 1 16 0 0 0 1 256 1", "err 12")
    says('12, since the FSSE would begin at 255; one byte before it does not. Document 02, P2: "a plan that begins a block there is 12", at 2^(8O)−1.')
    call("plan 1 16 180 1 5 1 0 0", "err 12")
    call("plan 1 16 179 1 5 1 0 0", f"end {179 + 75 + 10 + 9 + 2} slots 179 {undefined} blocks 1 179 254 1 1 5 1")
    says('No 12 for a start that has no block: "Non-empty slots get FSHD then FSSE, from `start` on".')
    call(f"plan 1 16 {TOP} 0 0 0", f"end {TOP} slots {TOP} {undefined} blocks 0")
    says('"A page multiple beyond 2^64−1 cuts nothing and lies outside it."')
    high = TOP - 4095
    call(f"plan 8 4096 0 1 {high} 100 0 0", f"end 117 slots 0 {undefined} blocks 1 0 82 1 1 {high} 100")
    says('14. "the result has more regions, sections, addresses or bytes than the lent memory holds." The run for sections holds 16,384.')
    call("plan 8 1 0 1 0 16000 1 20000 385 0", "err 14 16385 16384")
    call(f"plan 8 1 0 1 0 {2**60} 0 0", f"err 14 {2**60} 16384")
    says('4 before 14: 9 bytes for each of so many sections pass 2^64−1.')
    call(f"plan 8 1 0 1 0 {2**61} 0 0", "err 4")


def not_lists():
    says('3. "Not a list: a run of pairs has odd length, or a list\'s count passes its capacity, or a region has length 0 or ends above 2^64−1,')
    says('or does not begin after the previous region\'s end with a gap of at least one byte." `lend k count <numbers>` puts numbers into a run.')
    wrong = [
        "lend 0 4097 0",
        f"lend 0 {TOP} 0",
        "lend 0 1 2 5 0",
        f"lend 0 1 2 {TOP} 1",
        f"lend 0 1 2 1 {TOP}",
        "lend 0 2 4 100 10 110 10",
        "lend 0 2 4 100 10 109 10",
        "lend 0 2 4 100 10 50 10",
        "lend 0 3 6 100 10 200 10 300 0",
    ]
    for line in wrong:
        call(line, "ok")
        call("largest 0", "err 3")
    says('3 first of all, for length 0 and unit 0 too: "Where several apply, the lowest number is given, unless a sequence of tests is stated."')
    for name in ("free 0 5 5", "free 0 5 0", f"free 0 {TOP} 1", "free 0 100 1", "take 0 5 5", "take 0 5 0", f"take 0 {TOP} 1"):
        call(name, "err 3")
    for name in ("alloc 0 1", "alloc 0 0", "allocw 0 4 4", "allocw 0 3 4", "allocw 0 4 0", "trail 0 110", "largestw 0 4", "largestw 0 0"):
        call(name, "err 3")
    call("tstart 1000", "err 3")
    says('3, whichever list it is, and before 5: "Where several apply, the lowest number is given, unless a sequence of tests is stated."')
    call("lend 0 1 2 100 10", "ok")
    for k in (1, 2):
        call(f"lend {k} 1 2 100 0", "ok")
        call("tstart 1000", "err 3")
        call(f"lend {k} 1 2 100 10", "ok")
    says('5. "two lists (not runs of sections) given together share a byte".')
    call("tstart 1000", "err 5")
    says('No 3: a gap of one byte, a last byte below 2^64−1, and a full list. "Capacity is half the run."')
    call(f"lend 0 3 6 100 10 111 10 {TOP - 1} 1", "ok")
    call("largest 0", "10")
    call(f"trail 0 {TOP}", f"some {TOP - 1}")
    full = " ".join(f"{2 * i} 1" for i in range(4096))
    call(f"lend 0 4096 8192 {full}", "ok")
    call("largest 0", "1")
    call("free 0 9000 1", "err 14 4097 4096")


def cuts():
    lists_of(LISTS)
    says('"Non-empty slots get FSHD then FSSE, from `start` on, in order 0, 2, 6." The image before the save, and after k stores of L+126:')
    says('"0 to the persist byte; blocks ascending; message bytes but persist ascending; 1 to persist."')
    says('An image reads as before, then without sections, then with those of the plan: "0 to the persist byte" comes first, "1 to persist" last.')
    image_call(PLACE, IMAGE, READ_OLD)
    for k in (0, 1, 2, 83, LEN, LEN + 1, LEN + 2, LEN + 3, LEN + 4, LEN + 124, LEN + 125, LEN + 126):
        after = cut(IMAGE, START, PLACE, BLOCKS, MESSAGE, k)
        save_call(PAGE, START, PLACE, k, IMAGE, f"ok {LEN} {text_of(after)}")
        image_call(PLACE, after, READ_OLD if k == 0 else READ if k == LEN + 126 else NO_SECTIONS)
    whole = text_of(cut(IMAGE, START, PLACE, BLOCKS, MESSAGE, LEN + 126))
    says('"A step after the last changes nothing and says finished".')
    for k in (LEN + 127, 10**9, TOP):
        save_call(PAGE, START, PLACE, k, IMAGE, f"ok {LEN} {whole}")
    says('Over what a cut left, and over a finished save: "Message values: Page, persist, threshold 1, the page size, 0, `start`, slots".')
    for k in (1, 200, LEN + 100, LEN + 126):
        save_call(PAGE, START, PLACE, TOP, cut(IMAGE, START, PLACE, BLOCKS, MESSAGE, k), f"ok {LEN} {whole}")
    says('Any accepted message may stand there: "its 125 bytes, if in the image, must be an accepted message".')
    for strategy, persist in ((0, 0), (2, 1), (3, 255)):
        save_call(PAGE, START, PLACE, TOP, changed(IMAGE, 1, strategy, persist), f"ok {LEN} {whole}")
    says('The message after the blocks, and the image no longer than it.')
    image = bytes(START + LEN) + message(PAGE, 0, [])[:29].ljust(125, b"\7")
    after = cut(image, START, START + LEN, BLOCKS, MESSAGE, TOP)
    save_call(PAGE, START, START + LEN, TOP, image, f"ok {LEN} {text_of(after)}")
    image_call(START + LEN, after, READ)


def refused_saves():
    lists_of(LISTS)
    says('2. "Page: a page size to cut or round by is 0." Before 4, 8, 9 and 13: "the lowest number is given".')
    save_call(0, START, PLACE, 0, IMAGE, "err 2")
    save_call(0, TOP, TOP, 0, b"", "err 2")
    says('3. "Not a list". Before 4 and 13.')
    call("lend 2 1 2 220 0", "ok")
    save_call(PAGE, START, PLACE, 0, IMAGE, "err 3")
    save_call(PAGE, TOP, TOP, 0, b"", "err 3")
    call("lend 2 1 2 220 30", "ok")
    says('4. "a planned address .. exceeds 2^64−1." Before 8, 9 and 13.')
    save_call(PAGE, TOP - LEN + 1, PLACE, 0, IMAGE, "err 4")
    save_call(PAGE, TOP, PLACE, 0, changed(IMAGE, 0, 2, 4), "err 4")
    says('Planned addresses up to 2^64−1 are no 4, but the blocks leave the image: 13.')
    save_call(PAGE, TOP - LEN, PLACE, 0, IMAGE, "err 13")
    says('4. "a sum of section sizes .. exceeds 2^64−1." Before 5: both lists have all bytes.')
    call(f"lend 0 1 2 0 {TOP}", "ok")
    call(f"lend 1 1 2 0 {TOP}", "ok")
    save_call(2**63, START, PLACE, 0, IMAGE, "err 4")
    says('5. "two lists (not runs of sections) given together share a byte". Before 8, 9, 13 and 14. Lists that touch do not.')
    call("lend 0 1 2 130 40", "ok")
    call("lend 1 1 2 169 20", "ok")
    save_call(PAGE, START, PLACE, 0, IMAGE, "err 5")
    save_call(PAGE, START, PLACE, 0, changed(IMAGE, 0, 2, 4), "err 5")
    save_call(PAGE, START, TOP, 0, b"", "err 5")
    touching = [[(130, 40)], [(170, 20)], [(220, 30)]]
    call("lend 1 1 2 170 20", "ok")
    blocks, text = saved(PAGE, START, touching)
    save_call(PAGE, START, PLACE, TOP, IMAGE, f"ok {len(blocks)} {text_of(cut(IMAGE, START, PLACE, blocks, text, TOP))}")
    call("lend 1 1 2 180 20", "ok")
    says('8. "its 125 bytes, if in the image, must be an accepted message, else 8 or 9." Before 9 and 13.')
    save_call(PAGE, START, PLACE, 0, changed(IMAGE, 0, 0), "err 8 0")
    save_call(PAGE, START, PLACE, 0, changed(IMAGE, 0, 2, 4), "err 8 2")
    save_call(PAGE, 10**6, PLACE, 0, changed(IMAGE, 0, 255), "err 8 255")
    says('9. The same. Before 13.')
    save_call(PAGE, START, PLACE, 0, changed(IMAGE, 1, 4), "err 9 4")
    save_call(PAGE, 10**6, PLACE, 0, changed(IMAGE, 1, 255), "err 9 255")
    says('13. "in a save, message or blocks leave the image". A message that leaves it has no version to test, and its place is no 4.')
    save_call(PAGE, START, PLACE, 0, b"", "err 13")
    save_call(PAGE, START, PLACE, 0, bytes(124), "err 13")
    save_call(PAGE, START, len(IMAGE) - 124, 0, IMAGE, "err 13")
    save_call(PAGE, START, len(IMAGE), 0, IMAGE, "err 13")
    save_call(PAGE, START, TOP, 0, IMAGE, "err 13")
    save_call(PAGE, START, PLACE, 0, IMAGE[: START + LEN - 1], "err 13")
    save_call(PAGE, START, PLACE, 0, IMAGE[: START + LEN], f"ok {LEN} {text_of(IMAGE[: START + LEN])}")
    says('13. "they overlap each other": the last block byte and the first of the message, and the other way round.')
    image = bytes(START + LEN - 1) + OLD
    save_call(PAGE, START, START + LEN - 1, 0, image, "err 13")
    image = bytes(START - 124) + OLD + bytes(LEN)
    save_call(PAGE, START, START - 124, 0, image, "err 13")
    says('13. "a free region ends past `start`", in each list. One that ends at `start` does not.')
    for k, (addr, size) in ((0, (130, 127)), (1, (180, 77)), (2, (220, 37))):
        lists = [list(l) for l in LISTS]
        lists[k] = [(addr, size)]
        if k == 0:
            lists = [[(130, 127)], [], []]
        if k == 1:
            lists[2] = []
        lists_of(lists)
        save_call(PAGE, START, PLACE, 0, IMAGE + bytes(1000), "err 13")
    touching = [[(130, 40)], [], [(220, 36)]]
    lists_of(touching)
    blocks, text = saved(PAGE, START, touching)
    save_call(PAGE, START, PLACE, TOP, IMAGE, f"ok {len(blocks)} {text_of(cut(IMAGE, START, PLACE, blocks, text, TOP))}")
    says('13. "a free region .. meets the message". One that touches it on either side does not.')
    lists_of([[(124, 6)], [], []])
    save_call(PAGE, START, PLACE, 0, IMAGE, "err 13")
    image = bytes(100) + OLD + bytes(400)
    lists_of([[], [(90, 11)], []])
    save_call(PAGE, START, 100, 0, image, "err 13")
    lists_of([[], [], [(150, 3)]])
    save_call(PAGE, START, 100, 0, image, "err 13")
    touching = [[(90, 10)], [(225, 5)], []]
    lists_of(touching)
    blocks, text = saved(PAGE, START, touching)
    save_call(PAGE, START, 100, TOP, image, f"ok {len(blocks)} {text_of(cut(image, START, 100, blocks, text, TOP))}")
    says('Without sections there are no blocks, so `start` leaves no image: the message alone is stored, 126 stores.')
    lists_of([[], [], []])
    text = message(PAGE, TOP, slots_of({}))
    for k in (0, 125, 126):
        save_call(PAGE, TOP, PLACE, k, OLD, f"ok 0 {text_of(cut(OLD, TOP, PLACE, b'', text, k))}")
    image_call(PLACE, cut(OLD, TOP, PLACE, b"", text, 126), NO_SECTIONS)
    says('14. "Over capacity, with needed and given". `scratch N` lends a save N bytes; it needs L+125. After 13.')
    lists_of(LISTS)
    call("scratch 0", "ok")
    save_call(PAGE, START, PLACE, 0, IMAGE, f"err 14 {LEN + 125} 0")
    save_call(PAGE, START, PLACE, 0, IMAGE[: START + LEN - 1], "err 13")
    call(f"scratch {LEN + 124}", "ok")
    save_call(PAGE, START, PLACE, 0, IMAGE, f"err 14 {LEN + 125} {LEN + 124}")
    call(f"scratch {LEN + 125}", "ok")
    save_call(PAGE, START, PLACE, TOP, IMAGE, f"ok {LEN} {text_of(cut(IMAGE, START, PLACE, BLOCKS, MESSAGE, TOP))}")
    call("scratch 1048576", "ok")


def m9():
    says('M9. "M8 as metadata, start 20000, O 8: FSHD 20000 and 20135, end 20252, 378 stores." Read as `holes` prints it.')
    lists = [[(4000, 5000)], [], []]
    lists_of(lists)
    blocks, text = saved(4096, 20000, lists)
    assert len(blocks) == 252 and text == message(4096, 20000, slots_of({0: 20000, 6: 20135}))
    image = message(4096, 0, slots_of({})).ljust(20252, b"\0")
    after = cut(image, 20000, 0, blocks, text, 378)
    save_call(4096, 20000, 0, 378, image, f"ok 252 {text_of(after)}")
    image_call(0, after, counted({0: 2, 6: 1}, [(4000, 96), (8192, 808), (4096, 4096)]))


def protocol():
    says('Lines that break the protocol.')
    for line in (
        "plan 8 4096 0 0 0",
        "plan 8 4096 0 0 0 0 0",
        "plan 8 4096 0 1 5 0 0",
        "plan 8 4096 0 2 5 1 0 0",
        "plan 256 4096 0 0 0 0",
        "lend 0 1 3 5 1",
        "lend 0",
        "lend 3 0 0",
        "scratch",
        "scratch 1 2",
        "scratch 1048577",
        "image",
        "image -",
        "image 0",
        "image 0 0",
        "image 0 0 -",
        "save 16 256 0 -",
        "save 16 256 0 0 0 -",
        "save 16 256 0 0",
    ):
        call(line, "bad")


def run_of(sections):
    return " ".join(map(str, [len(sections)] + [n for s in sections for n in s]))


def agree(driver, page, start, lists):
    """The Rust plans the same managers, and writes the same blocks and the same message."""
    blocks, text = document.saved(page, start, lists)
    (plan,) = answers(driver, [f"plan 8 {page} {start} " + " ".join(run_of(l) for l in lists)])
    words = plan.split(" ")
    assert words[0] == "end" and int(words[1]) == start + len(blocks)
    assert answers(driver, [f"msg_managers 1 {page} {start} 12 " + " ".join(words[3:15])]) == [text.hex()]
    rust, words = "", [int(w) for w in words[17:]]
    while words:
        count = words[3]
        fshd, fsse_addr, section_class = words[:3]
        sections, words = words[4 : 4 + 2 * count], words[4 + 2 * count :]
        line = f"serialize 8 {fshd} {fsse_addr} {section_class} {count} " + " ".join(map(str, sections))
        rust += answers(driver, [line])[0].replace(" ", "")
    assert rust == blocks.hex()


def main(driver, crate):
    for group in (plans, not_lists, cuts, refused_saves, images, lent_runs, m9, protocol):
        group()
    for save in saves + [(PAGE, TOP, [[], [], []]), (1, 125, [[(0, 1366)], [], []])]:
        agree(driver, *save)
    put_rows(crate, MARK)


main(*sys.argv[1:])
