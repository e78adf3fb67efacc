"""Three lists as document 01 has them. The generator follows its own calls in them, so that it can aim at their regions."""

from document import TOP


def interior_of(addr, size, unit):
    """Where the whole units in a region begin, and how many bytes they have: 0 where there is none."""
    if unit == 0:
        return addr, 0
    start = -(-addr // unit) * unit
    return start, max(0, (addr + size) // unit * unit - start)


class Model:
    def __init__(self):
        self.lists = [[], [], []]

    def regions(self):
        return [region for regions in self.lists for region in regions]

    def shared(self, addr, size):
        """Whether some list has a byte of these."""
        return any(meets(region, addr, size) for region in self.regions())

    def free(self, k, addr, size):
        if size == 0 or any(meets(region, addr, size) for region in self.lists[k]):
            return
        folded = []
        for addr, size in sorted(self.lists[k] + [(addr, size)]):
            if folded and sum(folded[-1]) == addr:
                folded[-1] = (folded[-1][0], folded[-1][1] + size)
            else:
                folded.append((addr, size))
        self.lists[k] = folded

    def take(self, k, addr, size):
        if size == 0 or addr + size > TOP:
            return
        end, left = addr + size, []
        for first, length in self.lists[k]:
            left.append((first, min(first + length, addr) - first))
            after = max(first, end)
            left.append((after, first + length - after))
        self.lists[k] = [(first, length) for first, length in left if length > 0]

    def alloc(self, k, size):
        self.best(k, size, self.lists[k])

    def allocw(self, k, size, unit):
        if unit and size % unit == 0:
            self.best(k, size, [interior_of(addr, length, unit) for addr, length in self.lists[k]])

    def best(self, k, size, places):
        """Takes the front of the smallest place that holds `size`, the lowest of these."""
        fit = [(length, addr) for addr, length in places if length >= size]
        if size and fit:
            self.take(k, min(fit)[1], size)

    def trail(self, k, eof):
        if self.lists[k] and sum(self.lists[k][-1]) == eof:
            self.lists[k].pop()


def meets(region, addr, size):
    return region[0] < addr + size and addr < sum(region)
