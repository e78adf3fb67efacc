"""Calls of lengths, of single fields and of the checksum. domain.py leaves those of four private functions out again."""

from document import TOP, lookup3, num
from generator.draws import aligned, run, text, within

TOP_32 = 2**32 - 1


def sizes(draws):
    yield "enc_size", draws.number()
    yield "offset_width", draws.pick([0, 1, 7, 8, 9, 63, 64, draws.between(0, 64)])
    yield "fshd_len", draws.between(0, 12) if draws.edge else draws.between(1, 8)
    offset_size = draws.offset_size()
    of = draws.sizes(draws.count())
    yield "fsse_len", offset_size, len(of), *of
    yield "blocks_len", offset_size, *run(draws.sections(draws.count(), offset_size))
    value, page = draws.number(), draws.pick([draws.page(), max(1, draws.number())])
    if draws.edge or aligned(value, page):
        yield "align_up", value, page
    offset_size = draws.between(1, 8)
    undefined = 256**offset_size - 1
    yield "undef", draws.pick([draws.number(), undefined, 256 ** draws.between(1, 8) - 1, undefined - 1]), offset_size
    base, stored = draws.number(), draws.number()
    if draws.chance(0.3):
        stored = within(TOP - base + draws.between(-1, 1))
    yield "absolute", base, stored
    yield "slice_range", stored, base


def sums(draws):
    between = draws.between
    count = draws.pick([between(0, 40), between(0, 40), 11, 12, 13, 23, 24, 25, between(41, 300)])
    data = draws.pick([draws.bytes(count), bytes(count), b"\xff" * count])
    block = data + num(lookup3(data), 4)
    yield "lookup3", text(data)
    yield "hashlittle", draws.number(TOP_32), text(data)
    yield "verify", text(block)
    yield "verify", text(draws.changed(block))
    yield "verify", text(draws.bytes(between(0, 5)))
    yield "rot", draws.number(TOP_32), draws.pick([4, 6, 8, 16, 19, 14, 11, 25, 24])
    words = [draws.number(TOP_32) for _ in range(3)]
    yield "mix", *words
    yield "final_mix", *words


def lengths(draws):
    count = draws.between(0, 64)
    offset = draws.pick([draws.between(0, 70), count, draws.number()])
    yield "ensure_len", count, offset, draws.pick([draws.between(0, 70), 0, draws.number()])
    yield "ensure_len", count, max(0, count - 4), draws.pick([4, 5, 3])
    yield "ensure_len", count, TOP, draws.pick([0, 1])
