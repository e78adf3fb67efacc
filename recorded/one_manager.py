"""The strict reading of one manager, test by test, with the sentences that settle it. See strict.py."""

from both import alike, apart, blocks, flipped, refused, renewed, wrong_sum
from document import TOP, fshd, fsse, lookup3, num, summed
from rows import changed, says

# One manager at offset size 2, used throughout: three other bytes, FSHD at 3, FSSE at 79. Its section is (5, 3).
O, SLOT, HEAD_LEN, LIST, LIST_LEN = 2, 3, 76, 79, 23
ONE = [(5, 3)]
READ_ONE = "ok 1 5 3"
GROUP = b"\1" + num(3) + num(5, O) + b"\1"


def with_list(block, sections=ONE):
    """A header of these sections at 3, and this list at 79."""
    return b"\7\7\7" + fshd(sections, LIST, len(block), O) + block


def list_of(payload, back=SLOT):
    return summed(b"FSSE\0" + num(back, O) + payload)


GOOD = with_list(list_of(GROUP))
assert GOOD == with_list(fsse(ONE, SLOT, 1, O)) and len(GOOD) == LIST + LIST_LEN


def in_head(at, *values, data=GOOD):
    """Other bytes in FSHD, its checksum made anew."""
    return renewed(changed(data, SLOT + at, *values), SLOT, HEAD_LEN)


def in_list(at, *values, data=GOOD):
    """Other bytes in FSSE, its checksum made anew."""
    return renewed(changed(data, LIST + at, *values), LIST, LIST_LEN)


def one(data):
    return blocks(O, 0, [SLOT], data)


def head_sum(data):
    return wrong_sum(data, SLOT, HEAD_LEN)


def list_sum(data):
    return wrong_sum(data, LIST, LIST_LEN)


def headers():
    says('FSHD. "It tests length and signature": 7 with what is left of the data, before a wrong signature; 10 before a wrong version.')
    refused(one(GOOD[:SLOT]), "err 7 76 0")
    refused(one(GOOD[: LIST - 1]), "err 7 76 75")
    refused(one(changed(GOOD[: LIST - 1], SLOT, 0x47, 0, 0, 0, 9, 9)), "err 7 76 75")
    refused(one(in_head(3, 0x45)), "err 10")
    refused(one(changed(GOOD, SLOT + 3, 0x45, 1, 2)), "err 10")
    says('"then version 0 and client 1, the checksum of FSHD": the version before the client, both before the checksum and though it is right.')
    for version, client, byte in ((1, 1, 1), (0, 0, 0), (0, 2, 2), (2, 3, 2)):
        apart(one(in_head(4, version, client)), f"err 16 {byte}", READ_ONE)
    for version, client, byte in ((255, 1, 255), (0, 255, 255)):
        apart(one(changed(GOOD, SLOT + 4, version, client)), f"err 16 {byte}", READ_ONE)
    says('"the checksum of FSHD": 11 where a byte differs that no other test reads, the first, the last, two between, and two of the sum.')
    for at in (6, 30, 38, 71, 72, 75):
        bad = flipped(GOOD, SLOT + at)
        apart(one(bad), head_sum(bad), READ_ONE)
    says('11 and 16 before what the numbers of FSHD lead to: "in a strict read this order replaces lowest number first." Two sections, 99 bits, an FSSE')
    says("address and a used length past the data, a used length below 9+O; each with the checksum made anew too.")
    for at, value, loosely in ((14, 2, "err 10"), (44, 99, "err 10"), (54, 255, "err 10"), (56, 24, "err 10"), (56, 5, "err 7 11 5")):
        bad = changed(GOOD, SLOT + at, value)
        apart(one(bad), head_sum(bad), loosely)
        refused(one(in_head(at, value)), loosely)
    apart(one(in_head(54, 255, data=in_head(4, 3))), "err 16 3", "err 10")
    apart(one(in_head(56, 5, data=in_head(5, 3))), "err 16 3", "err 7 11 5")


def skipped():
    says('"The loose tests of place stay": a slot with all ones is skipped, with a base too; any other address there is past the data.')
    for size in (1, 2, 4, 8):
        alike(blocks(size, size * 100, [256**size - 1], b""), "ok 0")
        refused(blocks(size, 0, [256**size - 2], b""), "err 10")
    refused(blocks(O, 0, [TOP], b""), "err 10")
    alike(blocks(O, 0, [], b""), "ok 0")
    says('An FSSE address with all ones is skipped, behind "version 0 and client 1, the checksum of FSHD": 16 and 11 come before it.')
    for size in (1, 4, 8):
        good = fshd(ONE, 256**size - 1, 40, size)
        alike(blocks(size, 0, [0], good), "ok 0")
        apart(blocks(size, 0, [0], renewed(changed(good, 4 + size % 2, 4), 0, 74 + size)), "err 16 4", "ok 0")
        apart(blocks(size, 0, [0], flipped(good, 73 + size)), wrong_sum(flipped(good, 73 + size), 0, 74 + size), "ok 0")
    apart(blocks(O, 0, [SLOT], in_head(54, 255, 255, data=in_head(5, 0))), "err 16 0", "ok 0")
    says('Its list is not read, so neither address bits nor used length are tested: "the same for FSSE .. then address bits and groups."')
    alike(one(in_head(54, 255, 255, *num(TOP), data=in_head(44, 65))), "ok 0")


def places():
    says('"The loose tests of place stay": a header past 2^64−1 with its base, past the data, at their end.')
    refused(blocks(O, TOP, [1], GOOD), "err 10")
    refused(blocks(O, TOP - 3, [3], GOOD), "err 10")
    refused(blocks(O, 0, [len(GOOD) + 1], GOOD), "err 10")
    refused(blocks(O, 99, [3], GOOD), "err 7 76 0")
    says('"The loose tests of place stay", before FSSE\'s length: one that ends past the data, one of no bytes at their end and past it, and past 2^64−1.')
    refused(one(GOOD[:-1]), "err 10")
    refused(one(in_head(54, LIST + 1)), "err 10")
    refused(one(in_head(54, len(GOOD), 0, *num(0))), "err 7 11 0")
    refused(one(in_head(54, len(GOOD) + 1, 0, *num(0))), "err 10")
    refused(one(in_head(56, *num(TOP - LIST + 1))), "err 10")
    refused(blocks(8, 2, [0], b"\7\7" + fshd(ONE, TOP - 1, 35)), "err 10")


def lists():
    says('FSSE, "over its used length": 7 with it, though the data go on, before a wrong signature; 10 before a wrong version.')
    refused(one(in_head(56, 10)), "err 7 11 10")
    refused(one(in_head(56, 0)), "err 7 11 0")
    refused(one(in_head(54, len(GOOD) - 8, 0, *num(5))), "err 7 11 5")
    refused(one(in_list(0, 0x47, 0, 0, 0, 1, data=in_head(56, 10))), "err 7 11 10")
    refused(one(in_list(3, 0x46)), "err 10")
    refused(one(changed(GOOD, LIST + 3, 0x46, 1)), "err 10")
    says('"then the same for FSSE": version 0, before checksum and back address, and though they are right.')
    apart(one(in_list(4, 1)), "err 16 1", READ_ONE)
    apart(one(changed(GOOD, LIST + 4, 255)), "err 16 255", READ_ONE)
    apart(one(in_list(4, 2, 9, 9)), "err 16 2", READ_ONE)
    apart(one(changed(GOOD, LIST + 4, 2, 9, 9)), "err 16 2", READ_ONE)
    says('"then the same for FSSE over its used length": 11 for the back address, a size, the last class byte and two bytes of the sum.')
    for at, loosely in ((5, READ_ONE), (8, "ok 1 5 2"), (18, READ_ONE), (19, READ_ONE), (22, READ_ONE)):
        bad = flipped(GOOD, LIST + at)
        apart(one(bad), list_sum(bad), loosely)
    says('11 before 17, and 17 before bits: "its back address against the slot\'s number, then address bits and groups."')
    bad = flipped(in_list(5, 9), LIST + 22)
    apart(one(bad), list_sum(bad), READ_ONE)
    apart(one(in_list(5, 9)), "err 17", READ_ONE)
    apart(one(in_list(6, 1)), "err 17", READ_ONE)
    for bits in (0, 65):
        other = in_head(44, *num(bits, 2))
        refused(one(other), "err 10")
        apart(one(in_list(5, 9, data=other)), "err 17", "err 10")
    apart(one(flipped(other, LIST + 22)), list_sum(flipped(other, LIST + 22)), "err 10")


def grouped():
    says('"then address bits and groups": a group head and an entry that pass the payload, an entry beyond the total; 17 and 11 before them.')
    two, second = [(5, 3), (9, 3)], num(9, O) + b"\1"
    for payload, sections in ((GROUP[:8], ONE), (GROUP[:-1], ONE), (GROUP, two), (b"\2" + GROUP[1:] + second, ONE)):
        refused(one(with_list(list_of(payload), sections)), "err 10")
        apart(one(with_list(list_of(payload, back=4), sections)), "err 17", "err 10")
    bad = flipped(with_list(list_of(GROUP[:-1])), LIST + LIST_LEN - 2)
    apart(one(bad), wrong_sum(bad, LIST, LIST_LEN - 1), "err 10")
    says('"where both accept, they answer alike." Several sections, none, and the widths that FSHD states: bits 64 and 8, greatest size 255.')
    some = [(5, 3), (9, 3), (700, 1)]
    alike(one(with_list(fsse(some, SLOT, 2, O), some)), "ok 3 700 1 5 3 9 3")
    none = with_list(fsse([], SLOT, 1, O), [])
    alike(one(none), "ok 0")
    alike(one(in_head(44, 64, data=with_list(list_of(b"\1" + num(3) + num(TOP) + b"\1")))), f"ok 1 {TOP} 3")
    alike(one(in_head(44, 8, data=with_list(list_of(b"\1" + num(3) + b"\5\1")))), READ_ONE)
    alike(one(in_head(46, *num(255), data=with_list(list_of(b"\1\3" + num(5, O) + b"\1")))), READ_ONE)
    says('A list without groups is tested like any other: "the same for FSSE .. its back address .. then address bits".')
    apart(one(changed(none, LIST + 4, 7)), "err 16 7", "ok 0")
    apart(one(flipped(none, LIST + 7)), wrong_sum(flipped(none, LIST + 7), LIST, 11), "ok 0")
    apart(one(with_list(fsse([], 4, 1, O), [])), "err 17", "ok 0")
    refused(one(in_head(44, 0, data=none)), "err 10")


def back_addresses():
    says('"its back address against the slot\'s number", which is the stored one: at base 100 it is accepted without the base, and 17 with it.')
    alike(blocks(O, 100, [SLOT], bytes(100) + GOOD), READ_ONE)
    apart(blocks(O, 100, [SLOT], bytes(100) + in_list(5, SLOT + 100)), "err 17", READ_ONE)
    says('"the slot\'s number": 17 where the slot has the place in the data, the base is 0 and the FSSE address is right.')
    apart(blocks(O, 0, [SLOT + 100], bytes(100) + in_head(54, LIST + 100)), "err 17", READ_ONE)
    says('"the slot\'s number": at offset size 1 slot 100 with base 200 is accepted, though one byte does not hold its place.')
    listed = fsse(ONE, 100, 1, 1)
    alike(blocks(1, 200, [100], bytes(300) + fshd(ONE, 175, len(listed), 1) + listed), READ_ONE)
    says('"17, back address differs": from a slot that the offset size does not hold it always does, with the slot\'s lowest byte too.')
    for slot, back in ((256, 0), (300, 44), (300, 255)):
        listed = fsse(ONE, back, 1, 1)
        data = bytes(20) + listed + bytes(slot - 20 - len(listed)) + fshd(ONE, 20, len(listed), 1)
        apart(blocks(1, 0, [slot], data), "err 17", READ_ONE)
    says('"the same for FSSE .. without client": the byte behind its version is the first of the back address. Slots 0, 1 and 2.')
    for slot in (0, 1, 2):
        listed = fsse(ONE, slot, 1, O)
        alike(blocks(O, 0, [slot], bytes(slot) + fshd(ONE, slot + 76, len(listed), O) + listed), READ_ONE)
    says('"its back address against the slot\'s number": the list before its header, and a list that names itself.')
    alike(blocks(O, 0, [LIST_LEN], fsse(ONE, LIST_LEN, 1, O) + fshd(ONE, 0, LIST_LEN, O)), READ_ONE)
    apart(one(in_list(5, LIST)), "err 17", READ_ONE)


def not_tested():
    says('"the checksum of FSHD, then the same for FSSE over its used length": bytes before and behind the blocks may be any.')
    for other in (b"\0\0", b"\xff\xff"):
        alike(one(other + b"\7" + fshd(ONE, LIST + 2, LIST_LEN, O) + other + list_of(GROUP) + other), READ_ONE)
    says('"over its used length", whatever the allocated one, with bytes between the two. A checksum over the allocated bytes alone is 11.')
    for allocated in (0, LIST_LEN + 4, TOP):
        alike(one(in_head(64, *num(allocated)) + b"\1\2\3\4"), READ_ONE)
    bad = in_head(64, LIST_LEN + 4)[:-4] + bytes(4)
    bad += num(lookup3(bad[LIST:]), 4)
    apart(one(bad), list_sum(bad), READ_ONE)
    says('"over its used length": surplus payload is accepted if the checksum ends the used bytes, here three bytes and a group beyond the total; else 11.')
    alike(one(with_list(list_of(GROUP + b"\xff\xff\xff"))), READ_ONE)
    alike(one(with_list(list_of(GROUP + GROUP))), READ_ONE)
    bad = in_head(56, LIST_LEN + 3) + b"\1\2\3"
    apart(one(bad), wrong_sum(bad, LIST, LIST_LEN + 3), READ_ONE)
    says('Not among what "It tests", and so as in the loose read: groups of no sections, class bytes, the total space, classes, shrink and expand.')
    alike(one(with_list(list_of(b"\0" + num(9) + GROUP))), READ_ONE)
    alike(one(with_list(list_of(b"\0" + num(9) + b"\0" + num(0) + GROUP))), READ_ONE)
    for section_class in (0, 255):
        alike(one(in_list(18, section_class)), READ_ONE)
    alike(one(in_head(6, 99)), READ_ONE)
    alike(one(in_head(38, 1, 1, 2, 2, 3, 3)), READ_ONE)
