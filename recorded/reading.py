"""The loose and the strict reading of managers and of images, written from documents 01 and 02 and from the HDF5 specification. It answers
calls as text. See README.md."""

from document import TOP, bytes_for, lookup3

# The sections that a run of the program holds.
CAPACITY = 16384


class Refused(Exception):
    """A refusal: its number and its values."""


def refuse_if(condition, *number_and_values):
    if condition:
        raise Refused(*number_and_values)


def stored(data, at, width):
    return int.from_bytes(data[at : at + width], "little")


def undefined(offset_size):
    return 256**offset_size - 1


# One manager


def test_sum(block):
    found, computed = stored(block, len(block) - 4, 4), lookup3(block[:-4])
    refuse_if(found != computed, 11, found, computed)


def header(data, offset_size, strict):
    """The FSHD that the data begin with."""
    length = 74 + offset_size
    refuse_if(len(data) < length, 7, length, len(data))
    block = data[:length]
    refuse_if(block[:4] != b"FSHD", 10)
    if strict:
        refuse_if(block[4] != 0, 16, block[4])
        refuse_if(block[5] != 1, 16, block[5])
        test_sum(block)
    return block


def groups(payload, total, greatest, bits):
    """The sections of a list. Widths are those of the specification: of the count, of the greatest size, of the address bits."""
    count_width, size_width, addr_width = bytes_for(total), bytes_for(greatest), (bits + 7) // 8
    found, at = [], 0
    while len(found) < total:
        refuse_if(at + count_width + size_width > len(payload), 10)
        count, size = stored(payload, at, count_width), stored(payload, at + count_width, size_width)
        at += count_width + size_width
        refuse_if(len(found) + count > total or at + count * (addr_width + 1) > len(payload), 10)
        for _ in range(count):
            found.append((stored(payload, at, addr_width), size))
            at += addr_width + 1
    return found


def listed(block, slot, offset_size, head, strict):
    """The sections of the FSSE that a header names, in its used bytes."""
    length = 9 + offset_size
    refuse_if(len(block) < length, 7, length, len(block))
    refuse_if(block[:4] != b"FSSE", 10)
    if strict:
        refuse_if(block[4] != 0, 16, block[4])
        test_sum(block)
        refuse_if(stored(block, 5, offset_size) != slot, 17)
    bits = stored(head, 44, 2)
    refuse_if(bits == 0 or bits > 64, 10)
    return groups(block[5 + offset_size : -4], stored(head, 14, 8), stored(head, 46, 8), bits)


def manager(data, base, slot, offset_size, strict):
    """The sections of the manager that a slot names."""
    if slot == undefined(offset_size):
        return []
    refuse_if(slot + base > TOP or slot + base > len(data), 10)
    head = header(data[slot + base :], offset_size, strict)
    at, used = stored(head, 54, offset_size), stored(head, 54 + offset_size, 8)
    if at == undefined(offset_size):
        return []
    at += base
    refuse_if(at > TOP or at + used > len(data), 10)
    return listed(data[at : at + used], slot, offset_size, head, strict)


def managers(data, base, slots, offset_size, capacity, strict):
    """The sections of each slot, in order."""
    found = [manager(data, base, slot, offset_size, strict) for slot in slots]
    needed = sum(len(sections) for sections in found)
    refuse_if(needed > capacity, 14, needed, capacity)
    return found


# The calls


def numbers_of(found):
    return [n for sections in found for section in sections for n in section]


def read(words, strict):
    """`read O base <slots> bytes`: the answer's numbers."""
    offset_size, base, count = (int(word) for word in words[:3])
    slots, data = [int(word) for word in words[3:-1]], bytes.fromhex(words[-1].strip("-"))
    assert len(slots) == count
    refuse_if(not 1 <= offset_size <= 8, 1)
    numbers = numbers_of(managers(data, base, slots, offset_size, CAPACITY, strict))
    return [len(numbers) // 2] + numbers


def image_into(words, strict):
    """`image_into place room bytes`: the answer's numbers."""
    place, room, image = int(words[0]), int(words[1]), bytes.fromhex(words[2].strip("-"))
    refuse_if(room % 2 == 1, 3)
    text = image[place : place + 125]
    refuse_if(len(text) < 29, 7, 29, len(text))
    refuse_if(text[0] != 1, 8, text[0])
    refuse_if(text[1] > 3, 9, text[1])
    slots = [stored(text, at, 8) for at in range(29, len(text) - 7, 8)] if text[2] else []
    found = managers(image, 0, slots, 8, room // 2, strict)
    counts = [len(sections) for sections in found]
    numbers = numbers_of(found)
    return counts + [0] * (12 - len(counts)) + numbers + [7] * (room - len(numbers))


CALLS = {"read": (read, False), "strict": (read, True), "image_into": (image_into, False), "strict_image": (image_into, True)}


def answer(line):
    """The answer of one of these calls."""
    name, *words = line.split(" ")
    reading, strict = CALLS[name]
    try:
        return " ".join(["ok"] + [str(n) for n in reading(words, strict)])
    except Refused as refusal:
        return " ".join(["err"] + [str(n) for n in refusal.args])
