"""Calls that write blocks, and that parse one block."""

from document import bytes_for, fshd, fsse, num
from generator.draws import run, text


def blocks(draws):
    offset_size = draws.offset_size()
    sections = draws.sections(draws.count(), offset_size)
    fsse_addr, fshd_addr = draws.number(256**offset_size - 1), draws.number(256**offset_size - 1)
    section_class = draws.section_class()
    draws.shuffle(sections)
    yield "serialize", offset_size, fshd_addr, fsse_addr, section_class, *run(sections)
    listed = fsse(sections, fshd_addr, section_class, offset_size)
    header = fshd(sections, fsse_addr, len(listed), offset_size)
    yield "fshd_parse", offset_size, text(draws.changed(header))
    yield "verify", text(header)
    yield "verify", text(draws.changed(listed))
    total, bits, greatest = len(sections), 8 * offset_size - 1, 2**63 - 1
    yield "fsse_parse", offset_size, total, bits, greatest, text(listed)
    if draws.chance(0.4):
        total = other_total(draws, total)
    if draws.chance(0.4):
        bits = other_bits(draws, offset_size)
    if draws.chance(0.3):
        greatest = draws.number()
    parsed_size = draws.pick([offset_size, offset_size, offset_size, draws.offset_size()])
    block = draws.changed(listed) if draws.chance(0.7) else loose(draws, offset_size, total, bits, greatest)
    yield "fsse_parse", parsed_size, total, bits, greatest, text(block)


def other_total(draws, total):
    if draws.chance(0.7):
        return max(0, min(total + draws.between(-2, 2), 2**20))
    return draws.pick([0, 1, 255, 256, 65535, 65536, 2**20])


def other_bits(draws, offset_size):
    inside = [0, 1, 7, 8, 9, 8 * offset_size, 8 * offset_size - 7, 56, 57, 63, 64, draws.between(0, 64)]
    return draws.pick(inside + ([65, 72, 65535] if draws.edge else []))


def loose(draws, offset_size, total, bits, greatest):
    """An FSSE made group by group: any class bytes, groups of no section, bytes too many or too few at its end."""
    count_width, size_width, addr_width = bytes_for(total), bytes_for(greatest), (bits + 7) // 8
    block = b"FSSE" + bytes([draws.between(0, 255)]) + draws.bytes(offset_size)
    left = total
    while left > 0 and len(block) < 3000:
        count = draws.pick([0, 1, 1, 2, left, left + draws.chance(0.1)])
        count = min(count, 256**count_width - 1, 300)
        block += num(count, count_width) + draws.bytes(size_width)
        for _ in range(count):
            block += draws.bytes(addr_width) + bytes([draws.between(0, 3)])
        left -= count
    return block + draws.bytes(draws.pick([0, 3, 4, 4, 4, 4, 5, 20]))
