"""strict.py CRATE: writes the calls of the strict reading and their answers into CRATE/stdin and CRATE/stdout, in place of those that are
there from the line FIRST to the line MARK (rows.py). See README.md.

The answers are by hand, but for checksums (document.py), and the readings of reading.py must give the same; none comes from the program under
test."""

import sys

from both import alike, apart, blocks, flipped, image, refused, renewed, settled, wrong_sum
from document import fshd, fsse, manager, message, saved, slots_of
from one_manager import GOOD, O, SLOT, back_addresses, grouped, headers, in_head, in_list, lists, not_tested, places, skipped
from rows import MARK, PAGE, call, changed, put_rows, says

FIRST = (
    '# Document 02, P5: "Callers had to run `verify_trailing` and compare the back address themselves. A strict read does it." `strict` and '
    "`strict_image` read strictly; below most of them stands the same call read loosely, `read` or `image_into`."
)

M9 = [[(4000, 5000)], [], []]
READ_M9 = "ok 2 0 0 0 0 0 1 0 0 0 0 0 4000 96 8192 808 4096 4096"


def m9():
    written, text = saved(4096, 20000, M9)
    good = text.ljust(20000, b"\0") + written
    says('M9 saved with its message at 0, FSHD at 20000 and FSSE at 20082: "where both accept, they answer alike."')
    alike(image(0, 6, good), READ_M9)
    says('"It tests length and signature, then version 0 and client 1, the checksum of FSHD, then the same for FSSE over its used length, without')
    says('client, its back address against the slot\'s number, then address bits and groups." Version 1; another byte in FSHD\'s checksum; another')
    says("back address with the checksum made anew; 65 address bits, so too.")
    # The strict calls alone, since the lines are long; the loose ones stand with the shorter image below.
    settled(image(0, 6, changed(good, 20004, 1))[0], "err 16 1")
    settled(image(0, 6, flipped(good, 20081))[0], wrong_sum(flipped(good, 20081), 20000, 82))
    settled(image(0, 6, renewed(changed(good, 20087, 33), 20082, 53))[0], "err 17")
    settled(image(0, 6, renewed(changed(good, 20044, 65), 20000, 82))[0], "err 10")


def m9_behind_its_message():
    written, text = saved(4096, 125, M9)
    good = text + written
    says('M9\'s sections, the blocks right behind the message, FSHD at 125 and 260, FSSE at 207 and 342: "where both accept, they answer alike."')
    alike(image(0, 6, good), READ_M9)
    says('"16, wrong version or client, with the byte": version 1; client 0; both wrong, the version\'s; version 1 and a wrong checksum.')
    apart(image(0, 6, changed(good, 129, 1)), "err 16 1", READ_M9)
    apart(image(0, 6, changed(good, 130, 0)), "err 16 0", READ_M9)
    apart(image(0, 6, changed(good, 129, 2, 7)), "err 16 2", READ_M9)
    apart(image(0, 6, flipped(changed(good, 129, 1), 206)), "err 16 1", READ_M9)
    says('"the checksum of FSHD": 11, "with stored and computed".')
    apart(image(0, 6, flipped(good, 206)), wrong_sum(flipped(good, 206), 125, 82), READ_M9)
    says('"then the same for FSSE": version 2; version 2 and another back address.')
    apart(image(0, 6, changed(good, 211, 2)), "err 16 2", READ_M9)
    apart(image(0, 6, changed(good, 211, 2, 126)), "err 16 2", READ_M9)
    says('"17, back address differs". Without the checksum made anew 11 comes before it.')
    bad = changed(good, 212, 126)
    apart(image(0, 6, bad), wrong_sum(bad, 207, 53), READ_M9)
    apart(image(0, 6, renewed(bad, 207, 53)), "err 17", READ_M9)
    says('"its back address .. then address bits and groups": 65 bits are 10 in both readings, and 17 comes before them.')
    refused(image(0, 6, renewed(changed(good, 169, 65), 125, 82)), "err 10")
    apart(image(0, 6, renewed(renewed(changed(bad, 169, 65), 125, 82), 207, 53)), "err 17", "err 10")
    says('The same tests in slot 6: "Each manager\'s answer is taken apart, and the first refusal ends the read."')
    apart(image(0, 6, changed(good, 264, 255)), "err 16 255", READ_M9)
    apart(image(0, 6, flipped(good, 338)), wrong_sum(flipped(good, 338), 260, 82), READ_M9)
    apart(image(0, 6, flipped(good, 373)), wrong_sum(flipped(good, 373), 342, 35), READ_M9)
    apart(image(0, 6, renewed(changed(good, 347, 125, 0), 342, 35)), "err 17", READ_M9)


def offset_sizes():
    says('Every offset size, the manager at 2: accepted; then a wrong version or client, a wrong checksum of FSHD and of FSSE, and another highest byte')
    says('in the back address: "then version 0 and client 1, the checksum of FSHD, then the same for FSSE .. its back address".')
    for size in range(1, 9):
        at, listed = 76 + size, fsse([(200, 9)], 2, 1, size)
        good = b"\7\7" + fshd([(200, 9)], at, len(listed), size) + listed
        alike(blocks(size, 0, [2], good), "ok 1 200 9")
        # in turn the client of FSHD, its version and that of FSSE
        version = changed(good, (6, 7, at + 4)[size % 3], size + 1)
        apart(blocks(size, 0, [2], version), f"err 16 {size + 1}", "ok 1 200 9")
        head, tail = flipped(good, at - 1), flipped(good, len(good) - 1)
        apart(blocks(size, 0, [2], head), wrong_sum(head, 2, 74 + size), "ok 1 200 9")
        apart(blocks(size, 0, [2], tail), wrong_sum(tail, at, len(listed)), "ok 1 200 9")
        apart(blocks(size, 0, [2], renewed(flipped(good, at + 4 + size), at, len(listed))), "err 17", "ok 1 200 9")


# A second manager, behind the one of one_manager.py. Its list is at 178.
NINE = [(9, 4)]
SECOND = len(GOOD)


def second(back=SECOND, list_at=SECOND + 76):
    listed = fsse(NINE, back, 1, O)
    return fshd(NINE, list_at, len(listed), O) + listed


def several_slots():
    two = GOOD + second()
    says('"slots in order": two managers, one named twice, and slots that are skipped. "where both accept, they answer alike."')
    alike(blocks(O, 0, [SLOT, SECOND], two), "ok 2 5 3 9 4")
    alike(blocks(O, 0, [65535, SECOND, 65535, SLOT], two), "ok 2 9 4 5 3")
    alike(blocks(O, 0, [SLOT, SLOT], two), "ok 2 5 3 5 3")
    says('"the first refusal ends the read": 17, 16 and 11 before 10 and 7 of the next slot, "this order replaces lowest number first", and 10 before 17.')
    bad = in_list(5, 9) + second()
    apart(blocks(O, 0, [SLOT, 1000], bad), "err 17", "err 10")
    apart(blocks(O, 0, [SLOT, len(bad)], bad), "err 17", "err 7 76 0")
    apart(blocks(O, 0, [SECOND, SLOT], bad), "err 17", "ok 2 9 4 5 3")
    refused(blocks(O, 0, [1000, SLOT], bad), "err 10")
    apart(blocks(O, 0, [SLOT, 1000], in_head(4, 1)), "err 16 1", "err 10")
    apart(blocks(O, 0, [SLOT, 1000], flipped(GOOD, 100)), wrong_sum(flipped(GOOD, 100), 79, 23), "err 10")
    says('"the first refusal ends the read": two wrong managers, each in turn the first, 16 and 11, 16 and 17.')
    bad = in_head(5, 7) + flipped(second(), 98)
    apart(blocks(O, 0, [SLOT, SECOND], bad), "err 16 7", "ok 2 5 3 9 4")
    apart(blocks(O, 0, [SECOND, SLOT], bad), wrong_sum(bad, 178, 23), "ok 2 9 4 5 3")
    bad = in_list(4, 8) + second(back=SLOT)
    apart(blocks(O, 0, [SLOT, SECOND], bad), "err 16 8", "ok 2 5 3 9 4")
    apart(blocks(O, 0, [SECOND, SLOT], bad), "err 17", "ok 2 9 4 5 3")
    says('"its back address against the slot\'s number": two headers that name one list, whose back address is the first\'s.')
    apart(blocks(O, 0, [SLOT, SECOND], GOOD + second(list_at=79)), "err 17", "ok 2 5 3 5 3")


def capacity():
    says('14. "Only after all succeed is 14 considered, the needed count covering all managers." 65 slots name 256 sections; the last names one, which is')
    says("accepted, then refused.")
    many = [(i, 1) for i in range(256)]
    listed = fsse(many, SECOND, 1, O)
    rest = fshd(many, SECOND + 76, len(listed), O) + listed
    slots = [SECOND] * 65 + [SLOT]
    refused(blocks(O, 0, slots, GOOD + rest), "err 14 16641 16384")
    apart(blocks(O, 0, slots, in_list(5, 9) + rest), "err 17", "err 14 16641 16384")
    apart(blocks(O, 0, slots, in_head(4, 1) + rest), "err 16 1", "err 14 16641 16384")


def widths():
    says('1 before all: "Width: an offset size or length size is outside 1 to 8."')
    bad = in_list(5, 9)
    for size in (0, 9, 255):
        refused(blocks(size, 0, [SLOT], bad), "err 1")
    refused(blocks(0, 0, [], b""), "err 1")


def counts(per_slot, run):
    return "ok " + " ".join(str(n) for n in [per_slot.get(i, 0) for i in range(12)] + run)


def images():
    listed = manager([(130, 40)], 125, 1)
    good = message(PAGE, 0, slots_of({0: 125})) + listed
    bad = renewed(flipped(good, 125 + 82 + 5), 125 + 82, 35)
    says('"where both accept, they answer alike", in the lent run too: the sections from its front on, the rest as it was. Each number of it was 7.')
    alike(image(0, 2, good), counts({0: 1}, [130, 40]))
    alike(image(0, 6, good), counts({0: 1}, [130, 40, 7, 7, 7, 7]))
    apart(image(0, 6, bad), "err 17", counts({0: 1}, [130, 40, 7, 7, 7, 7]))
    says('One manager in slots 1 and 11, and a message behind its manager: "An image reads by this message, then its slots, with capacity for all."')
    alike(image(0, 4, message(PAGE, 0, slots_of({1: 125, 11: 125})) + listed), counts({1: 1, 11: 1}, [130, 40, 130, 40]))
    before = manager([(130, 40)], 0, 1)
    alike(image(117, 2, before + message(PAGE, 0, slots_of({10: 0}))), counts({10: 1}, [130, 40]))
    apart(image(117, 2, changed(before, 4, 6) + message(PAGE, 0, slots_of({10: 0}))), "err 16 6", counts({10: 1}, [130, 40]))
    says('Without persist no slot is read, and any nonzero persist is yes: "then its slots".')
    alike(image(0, 2, changed(bad, 2, 0)), counts({}, [7, 7]))
    apart(image(0, 2, changed(bad, 2, 255)), "err 17", counts({0: 1}, [130, 40]))
    says('3 before all, "a run of pairs has odd length"; then 7, 8 and 9 of the message: "An image reads by this message, then its slots".')
    refused(image(0, 3, bad), "err 3")
    refused(image(0, 1, changed(bad, 0, 2, 4)), "err 3")
    refused(image(0, 1, b""), "err 3")
    refused(image(len(bad) - 28, 2, bad), "err 7 29 28")
    refused(image(0, 2, changed(bad, 0, 2, 4)), "err 8 2")
    refused(image(0, 2, changed(bad, 1, 4)), "err 9 4")
    says('14 behind the refusals of all slots: "Only after all succeed is 14 considered, the needed count covering all managers."')
    twice = message(PAGE, 0, slots_of({0: 125, 6: 242})) + listed + manager([(7, 9)], 242, 2)
    alike(image(0, 4, twice), counts({0: 1, 6: 1}, [130, 40, 7, 9]))
    refused(image(0, 2, twice), "err 14 2 1")
    refused(image(0, 0, twice), "err 14 2 0")
    apart(image(0, 2, renewed(flipped(twice, 329), 324, 35)), "err 17", "err 14 2 1")
    apart(image(0, 0, changed(twice, 247, 0)), "err 16 0", "err 14 2 0")
    apart(image(0, 0, flipped(twice, 358)), wrong_sum(flipped(twice, 358), 324, 35), "err 14 2 0")


def protocol():
    says("Lines that break the protocol.")
    for line in (
        "strict",
        "strict 8 0",
        "strict 8 0 0",
        "strict 8 0 1 -",
        "strict 8 0 1 0",
        "strict 8 0 0 0 -",
        "strict 8 0 0 - -",
        "strict 256 0 0 -",
        "strict 8 0 1 18446744073709551616 -",
        "strict 8 0 0 464",
        "stricts 8 0 0 -",
        "strict_image",
        "strict_image 0 0",
        "strict_image 0 -",
        "strict_image 0 0 0 -",
        "strict_image 0 0 - -",
        "strict_image 0 0 0g",
        "strict_image 0 32769 -",
        "strict_images 0 0 -",
    ):
        call(line, "bad")


def main(crate):
    for group in (m9, m9_behind_its_message, offset_sizes, headers, skipped, places, lists, grouped, back_addresses, not_tested):
        group()
    for group in (several_slots, capacity, widths, images, protocol):
        group()
    put_rows(crate, FIRST, MARK)


main(*sys.argv[1:])
