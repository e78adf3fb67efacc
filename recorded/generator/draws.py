"""Random numbers, most of them at boundaries. The order of the draws is part of the generator: another order gives other calls."""

import random

from document import TOP


class Draws:
    def __init__(self, seed, edge):
        source = random.Random(seed)
        self.random = source.random
        self.pick = source.choice
        self.between = source.randint
        self.bytes = source.randbytes
        self.shuffle = source.shuffle
        # whether calls just outside the domain of comparison are wanted too
        self.edge = edge

    def chance(self, part):
        return self.random() < part

    def number(self, top=TOP):
        """0 to `top`, most of them near 0, a power of two or `top`."""
        r = self.random()
        if r < 0.25:
            n = self.between(0, 20)
        elif r < 0.6:
            n = 2 ** self.between(0, 64) + self.between(-2, 2)
        elif r < 0.75:
            n = top - self.between(0, 20)
        elif r < 0.85:
            n = self.between(0, 1 << self.between(1, 64))
        else:
            n = self.between(0, top)
        return within(n, top)

    def page(self):
        any_page = self.between(1, 1 << self.between(1, 20))
        common = [1, 2, 3, 4, 5, 7, 16, 17, 512, 4096, 4096, 4096, 65536, 1 << 20, 2**31, 2**32, 2**62, 2**63, TOP]
        return self.pick(common + [any_page])

    def offset_size(self):
        return self.pick([8, 8, 8, 4, 2, 1, 3, 5, 6, 7])

    def section_class(self):
        return self.pick([0, 1, 2, 1, 2, 255])

    def changed(self, block):
        """The bytes as they are, cut, with more after them, or with up to three others in them."""
        r = self.random()
        if r < 0.35:
            return block
        if r < 0.55:
            if self.chance(0.5):
                return block[: self.between(0, len(block))]
            return block[: max(0, len(block) - self.between(1, 6))]
        if r < 0.65:
            return block + self.bytes(self.between(1, 12))
        return self.overwritten(bytearray(block))

    def overwritten(self, block):
        for _ in range(self.between(1, 3)):
            if block:
                i = self.pick([self.between(0, len(block) - 1), self.between(0, min(len(block), 30) - 1)])
                block[i] = self.pick([0, 1, 255, block[i] ^ (1 << self.between(0, 7)), self.between(0, 255)])
        return bytes(block)

    def sizes(self, count):
        """Sizes of sections, their sum at most 2^64−1."""
        most = TOP // max(count, 1)
        r = self.random()
        if r < 0.3:
            return [self.pick([0, 1, 16, 4096, min(most, 2**56), most]) for _ in range(count)]
        if r < 0.4:
            return [self.pick([1, 16, most])] * count
        if r < 0.55:
            sizes = list(range(1, count + 1))
            self.shuffle(sizes)
            return sizes
        sizes, left = [], TOP
        for _ in range(count):
            sizes.append(min(self.number(), left))
            left -= sizes[-1]
        return sizes

    def count(self):
        """How many sections: few, or about as many as take another width of the count."""
        if self.chance(0.985):
            return self.pick([0, 1, 1, 2, 2, 3, 3, 4, 5, 6, 8, 12, 20])
        return self.pick([255, 256, 257, 300])

    def sections(self, count, offset_size):
        """Sections whose addresses fit the offset size; sometimes two have one address."""
        sections = [(self.number(256**offset_size - 1), size) for size in self.sizes(count)]
        if sections and self.chance(0.2):
            sections[-1] = (sections[0][0], sections[-1][1])
        return sections


def within(n, top=TOP):
    return min(max(n, 0), top)


def aligned(addr, unit):
    """Whether the next multiple of the unit is at most 2^64−1."""
    return unit == 0 or -(-addr // unit) * unit <= TOP


def run(pairs):
    """A run of sections as the protocol has it."""
    return [len(pairs)] + [n for pair in pairs for n in pair]


def text(block):
    return block.hex() or "-"
