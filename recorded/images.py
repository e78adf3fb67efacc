"""What images read as, with the sentences of document 01 that settle it. See saves.py."""

from document import TOP, manager, message, num, slots_of
from rows import NO_SECTIONS, PAGE, call, changed, counted, image_call, says, text_of


def images():
    one = manager([(130, 40)], 125, 1)
    good = message(PAGE, 0, slots_of({0: 125})) + one
    says('"An image reads by this message, then its slots, with capacity for all." Versions, class bytes and checksum "are not tested".')
    image_call(0, good, counted({0: 1}, [(130, 40)]))
    image_call(0, changed(good, 125 + 4, 9), counted({0: 1}, [(130, 40)]))
    image_call(0, good[:-1] + bytes([good[-1] ^ 1]), counted({0: 1}, [(130, 40)]))
    says('Slots in order, one named twice: "slots in order".')
    twice = message(PAGE, 0, slots_of({1: 125, 11: 125})) + one
    image_call(0, twice, counted({1: 1, 11: 1}, [(130, 40), (130, 40)]))
    says('"any nonzero persist as yes, and all whole addresses present; a partial one is ignored." An image that ends in the message:')
    image_call(0, changed(good, 2, 255), counted({0: 1}, [(130, 40)]))
    image_call(0, changed(good, 2, 0), NO_SECTIONS)
    image_call(0, message(PAGE, 0, []), NO_SECTIONS)
    image_call(0, message(PAGE, 0, [TOP])[:36], NO_SECTIONS)
    first = manager([(130, 40)], 0, 1)
    image_call(len(first), first + message(PAGE, 0, [TOP] * 10 + [0]) + b"\0" * 7, counted({10: 1}, [(130, 40)]))
    says('7. "fewer bytes than the fixed part needs", 29. There are none at or after the end of the image.')
    image_call(0, b"", "err 7 29 0")
    image_call(TOP, b"", "err 7 29 0")
    image_call(0, good[:28], "err 7 29 28")
    image_call(len(good), good, "err 7 29 0")
    image_call(len(good) - 28, good, "err 7 29 28")
    image_call(TOP, good, "err 7 29 0")
    says('8, 9. "Message version, with the byte: it isn\'t 1." "Strategy, with the byte: it is above 3." Without persist too.')
    image_call(0, bytes(29), "err 8 0")
    image_call(0, changed(good, 0, 2, 4, 0), "err 8 2")
    image_call(0, changed(good, 1, 4, 0), "err 9 4")
    says('10. "a header start past the data, or an FSSE outside the data is 10."')
    image_call(0, message(PAGE, 0, slots_of({0: len(good) + 1})) + one, "err 10")
    image_call(0, message(PAGE, 0, slots_of({0: TOP - 1})) + one, "err 10")
    image_call(0, good[:-1], "err 10")
    image_call(0, changed(good, 125 + 54, *num(TOP - 1)), "err 10")
    says('10. "Parsing FSHD tests length, then signature." "Parsing FSSE tests length 9+O, signature, then address bits 0 or above 64 (10), then groups."')
    image_call(0, changed(good, 125, 0x47), "err 10")
    image_call(0, changed(good, 125 + 82, 0x47), "err 10")
    image_call(0, changed(good, 125 + 44, 0), "err 10")
    image_call(0, changed(good, 125 + 44, 65), "err 10")
    image_call(0, changed(good, 125 + 14, 2), "err 10")
    says('An FSSE address "of 64 one bits is skipped, in the slot and in the FSSE field."')
    image_call(0, changed(good, 125 + 54, *num(TOP)), NO_SECTIONS)
    says('7 of a block: a header at the end of the data has no byte, and an FSSE of 16 bytes none of its own.')
    image_call(0, message(PAGE, 0, slots_of({0: len(good)})) + one, "err 7 82 0")
    image_call(0, changed(good, 125 + 62, *num(16)), "err 7 17 16")
    says('"slots in order; .. the first refusal ends the read": 10 before 7, and 7 before 10.')
    image_call(0, message(PAGE, 0, slots_of({0: TOP - 1, 1: len(good)})) + one, "err 10")
    image_call(0, message(PAGE, 0, slots_of({0: len(good), 1: TOP - 1})) + one, "err 7 82 0")
    says('14. "Only after all succeed is 14 considered, the needed count covering all managers." Twelve slots name 1,366 sections, and the run holds 16,384.')
    many = manager([(i, 1) for i in range(1366)], 125, 1)
    image_call(0, message(PAGE, 0, [125] * 12) + many, "err 14 16392 16384")
    image_call(0, message(PAGE, 0, [125] * 11 + [TOP - 1]) + many, "err 10")


def image_into_call(place, room, image, answer):
    call(f"image_into {place} {room} {text_of(image)}", answer)


def into_run(per_slot, run):
    """The answer of a reading into a lent run: twelve counts and the run's numbers."""
    return "ok " + " ".join(str(n) for n in [per_slot.get(i, 0) for i in range(12)] + run)


def lent_runs():
    one = message(PAGE, 0, slots_of({0: 125})) + manager([(130, 40)], 125, 1)
    says('"with capacity for all": the sections from the front of the run on, the rest as it was. Each number of it was 7.')
    image_into_call(0, 2, one, into_run({0: 1}, [130, 40]))
    image_into_call(0, 6, one, into_run({0: 1}, [130, 40, 7, 7, 7, 7]))
    says('An image without sections needs no room, and changes none.')
    image_into_call(0, 0, message(PAGE, 0, []), into_run({}, []))
    image_into_call(0, 4, message(PAGE, 0, []), into_run({}, [7, 7, 7, 7]))
    says('14. "Over capacity, with needed and given". 3 before all others: "a run of pairs has odd length".')
    image_into_call(0, 0, one, "err 14 1 0")
    image_into_call(0, 2, message(PAGE, 0, slots_of({0: 125, 6: 125})) + one[125:], "err 14 2 1")
    image_into_call(0, 1, one, "err 3")
    image_into_call(0, 3, b"", "err 3")
    says("A run longer than the program has is no call.")
    image_into_call(0, 32769, one, "bad")
