"""Blocks, message and stores of a save, written from document 01 and from the HDF5 specification. See README.md."""

TOP = 2**64 - 1


# lookup3.c


def rotated(x, k):
    return (x << k | x >> (32 - k)) % 2**32


def lookup3(data):
    a = b = c = (0xDEADBEEF + len(data)) % 2**32
    if not data:
        return c
    while True:
        part, data = data[:12].ljust(12, b"\0"), data[12:]
        a, b, c = ((x + int.from_bytes(part[i : i + 4], "little")) % 2**32 for x, i in ((a, 0), (b, 4), (c, 8)))
        if not data:
            break
        a = (a - c) % 2**32 ^ rotated(c, 4)
        c = (c + b) % 2**32
        b = (b - a) % 2**32 ^ rotated(a, 6)
        a = (a + c) % 2**32
        c = (c - b) % 2**32 ^ rotated(b, 8)
        b = (b + a) % 2**32
        a = (a - c) % 2**32 ^ rotated(c, 16)
        c = (c + b) % 2**32
        b = (b - a) % 2**32 ^ rotated(a, 19)
        a = (a + c) % 2**32
        c = (c - b) % 2**32 ^ rotated(b, 4)
        b = (b + a) % 2**32
    c = ((c ^ b) - rotated(b, 14)) % 2**32
    a = ((a ^ c) - rotated(c, 11)) % 2**32
    b = ((b ^ a) - rotated(a, 25)) % 2**32
    c = ((c ^ b) - rotated(b, 16)) % 2**32
    a = ((a ^ c) - rotated(c, 4)) % 2**32
    b = ((b ^ a) - rotated(a, 14)) % 2**32
    return ((c ^ b) - rotated(b, 24)) % 2**32


# blocks


def num(n, width=8):
    return n.to_bytes(width, "little")


def summed(block):
    return block + num(lookup3(block), 4)


def bytes_for(n):
    return max(1, (n.bit_length() + 7) // 8)


def fsse(sections, fshd_addr, section_class, offset_size=8):
    block = b"FSSE\0" + num(fshd_addr, offset_size)
    for size in sorted({size for _, size in sections}):
        addrs = sorted(addr for addr, other in sections if other == size)
        block += num(len(addrs), bytes_for(len(sections))) + num(size)
        for addr in addrs:
            block += num(addr, offset_size) + num(section_class, 1)
    return summed(block)


def fshd(sections, fsse_addr, fsse_used, offset_size=8):
    count, space = len(sections), sum(size for _, size in sections)
    block = b"FSHD\0\1" + num(space) + num(count) + num(count) + num(0)
    block += num(3, 2) + num(80, 2) + num(120, 2) + num(8 * offset_size - 1, 2) + num(2**63 - 1)
    return summed(block + num(fsse_addr, offset_size) + num(fsse_used) + num(fsse_used))


def manager(sections, at, section_class):
    """FSHD and FSSE, side by side from `at` on; none without sections."""
    if not sections:
        return b""
    listed = fsse(sections, at, section_class)
    return fshd(sections, at + 82, len(listed)) + listed


# the message


def info(strategy, persist, threshold, page, page_end, end, addrs):
    """The message of any values; the addresses stand in it only if persist is 1."""
    text = bytes([1, strategy, persist]) + num(threshold) + num(page) + num(page_end, 2) + num(end)
    return text + b"".join(num(addr) for addr in addrs if persist)


def message(page, end, slots):
    """The message of strategy Page and threshold 1."""
    return info(1, 1, 1, page, 0, end, slots)


def slots_of(addrs):
    """Twelve slots, by number; the others are undefined."""
    return [addrs.get(i, TOP) for i in range(12)]


# the save


def pieces(page, regions):
    out = []
    for addr, size in regions:
        end = addr + size
        while addr < end:
            cut = min(end, (addr // page + 1) * page)
            out.append((addr, cut - addr))
            addr = cut
    return out


def planned(page, meta, raw, unclassified):
    """The sections of slots 0, 2 and 6, with their classes."""
    m, r = pieces(page, meta), pieces(page, raw)
    large = [s for s in m + r if s[1] == page] + unclassified
    return [(0, [s for s in m if s[1] < page], 1), (2, [s for s in r if s[1] < page], 1), (6, sorted(large), 2)]


def saved(page, start, lists):
    """The blocks and the message of a save."""
    blocks, addrs = b"", {}
    for slot, sections, section_class in planned(page, *lists):
        if sections:
            addrs[slot] = start + len(blocks)
        blocks += manager(sections, start + len(blocks), section_class)
    return blocks, message(page, start, slots_of(addrs))


def cut(image, start, place, blocks, text, k):
    """The image after k stores."""
    stores = [(place + 2, 0)] + [(start + i, b) for i, b in enumerate(blocks)]
    stores += [(place + i, b) for i, b in enumerate(text) if i != 2] + [(place + 2, 1)]
    assert len(stores) == len(blocks) + 126
    out = bytearray(image)
    for at, byte in stores[:k]:
        out[at] = byte
    return bytes(out)
