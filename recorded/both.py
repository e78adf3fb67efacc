"""Calls that are made with both readings, strict and loose, and bytes with wrong and right checksums. See strict.py."""

from document import lookup3, summed
from reading import answer
from rows import call, changed, text_of


def blocks(offset_size, base, slots, data):
    """The strict and the loose call that read managers."""
    words = " ".join(str(n) for n in [offset_size, base, len(slots)] + slots) + " " + text_of(data)
    return f"strict {words}", f"read {words}"


def image(place, room, data):
    """The strict and the loose call that read an image."""
    words = f"{place} {room} {text_of(data)}"
    return f"strict_image {words}", f"image_into {words}"


def settled(line, expected):
    """A call with its answer by hand, which the reading must give too."""
    assert answer(line) == expected, (line, expected, answer(line))
    call(line, expected)


def alike(calls, expected):
    """Both readings give this answer."""
    apart(calls, expected, expected)


def apart(calls, strictly, loosely):
    settled(calls[0], strictly)
    settled(calls[1], loosely)


def refused(calls, expected):
    """The strict call alone: the loose one is refused alike, and other lines have such."""
    assert answer(calls[1]) == expected
    settled(calls[0], expected)


def flipped(data, at):
    return changed(data, at, data[at] ^ 1)


def renewed(data, at, length):
    """The data with the checksum of the block at this place made anew."""
    return data[:at] + summed(data[at : at + length - 4]) + data[at + length :]


def wrong_sum(data, at, length):
    """Refusal 11 of this block: the checksum that stands in it, and the one of its bytes."""
    end = at + length - 4
    return f"err 11 {int.from_bytes(data[end : end + 4], 'little')} {lookup3(data[at:end])}"
