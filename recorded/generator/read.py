"""Calls that read the sections of several managers."""

from document import TOP, fshd, fsse, num
from generator.draws import text


def reads(draws):
    offset_size = draws.pick([8, 8, 8, 4, 2, 3, 5])
    base = draws.pick([0, 0, 0, 1, 7, 64, 512])
    data = draws.bytes(base + draws.between(0, 9))
    slots = []
    for _ in range(draws.between(0, 4)):
        data, slot = with_manager(draws, data, base, offset_size)
        slots.append(slot)
    if draws.chance(0.15) and data:
        data = data[: len(data) - draws.between(0, min(len(data), 90))]
    while draws.chance(0.6) and len(slots) < 12:
        slots.insert(draws.between(0, len(slots)), TOP)
    if draws.chance(0.15):
        slots.append(any_slot(draws, len(data), base, offset_size))
    if draws.edge or readable(data, slots, base, offset_size):
        yield "read", offset_size, base, len(slots), *slots, text(data)


def with_manager(draws, data, base, offset_size):
    """The data with a manager after them, and its slot. FSHD or FSSE comes first, and some fields are not as written."""
    sections = draws.sections(draws.between(0, 4), offset_size)
    used = len(fsse(sections, 0, draws.section_class(), offset_size))
    header_first = draws.chance(0.7)
    data += draws.bytes(draws.pick([0, 0, 1, 5]))
    at = len(data) - base
    fshd_addr, fsse_addr = (at, at + 74 + offset_size) if header_first else (at + used, at)
    listed = fsse(sections, fshd_addr, draws.section_class(), offset_size)
    header = fshd(sections, fsse_addr, used, offset_size)
    header = other_fields(draws, header, len(sections), used, fsse_addr, base, len(data), offset_size)
    if draws.chance(0.04):
        listed = b"FSSF" + listed[4:]
    if draws.chance(0.04):
        header = b"FSHE" + header[4:]
    return data + (header + listed if header_first else listed + header), fshd_addr


def other_fields(draws, header, count, used, fsse_addr, base, data_len, offset_size):
    """The header with another FSSE address, length, count, address bits or greatest size."""
    after, far = data_len - base + len(header) + used, data_len + 10**4
    if draws.chance(0.12):
        top = 256**offset_size
        addr = draws.pick([TOP, top - 1, after, far, TOP - base, TOP - base + 1, 0, fsse_addr + 1, draws.number()])
        header = put(header, 54, addr % top, offset_size)
    if draws.chance(0.1):
        other = draws.pick([0, 8 + offset_size, 9 + offset_size, used - 1, used + 1, far, TOP, draws.number()])
        header = put(header, 54 + offset_size, other, 8)
    if draws.chance(0.08):
        header = put(header, 14, max(0, count + draws.between(-1, 1)), 8)
    if draws.chance(0.08):
        header = put(header, 44, draws.pick([0, 8, 8 * offset_size, 64, 1]), 2)
    if draws.chance(0.08):
        header = put(header, 46, draws.number(), 8)
    return header


def put(block, at, n, width):
    return block[:at] + num(n, width) + block[at + width :]


def any_slot(draws, data_len, base, offset_size):
    end = data_len - base
    last = max(0, end - 73 - offset_size)
    return draws.pick([end, end + 1, last, TOP - 1, TOP - base, TOP - base + 1, 0, draws.number(), 2**63]) % 2**64


def readable(data, slots, base, offset_size):
    """Whether each header has a total for which the Rust finds memory, and address bits up to 64."""
    for slot in slots:
        header = data[slot + base :][: 74 + offset_size]
        if len(header) == 74 + offset_size and header[:4] == b"FSHD":
            total, bits = (int.from_bytes(header[at:end], "little") for at, end in ((14, 22), (44, 46)))
            if total > 2**20 or bits > 64:
                return False
    return True
