"""Calls in a row on three lists that share no byte."""

from document import TOP
from generator.draws import aligned, within
from generator.model import Model, interior_of


def lists(draws):
    return Lists(draws).calls()


class Lists:
    def __init__(self, draws):
        self.draws = draws
        self.model = Model()
        self.made = []
        self.shape = draws.pick(["dense", "dense", "paged", "high", "wide"])
        self.unit = draws.pick([1, 2, 3, 4, 5, 8, 16]) if self.shape == "dense" else draws.page()
        self.base = TOP - 400 if self.shape == "high" else 0
        self.span = {"dense": 200, "paged": 12 * 4096, "high": 400, "wide": TOP}[self.shape]
        if self.shape == "paged":
            self.unit = draws.pick([512, 4096, 4096, 4097, 1000])
        if self.shape == "high":
            self.unit = draws.pick([1, 2, 3, 3, 5, 17, 4, 8, 16, 257])

    def calls(self):
        for k in range(3):
            self.ask("new", k)
        for _ in range(self.draws.between(20, 120)):
            k = self.draws.between(0, 2)
            if self.call(k):
                self.ask("sections", k)
                if self.draws.chance(0.2):
                    self.region()
        return self.made

    def ask(self, *call):
        self.made.append(call)

    def change(self, name, *numbers):
        """A call that the model follows."""
        self.ask(name, *numbers)
        getattr(self.model, name)(*numbers)
        return True

    def call(self, k):
        """One call on the list k; False where what was drawn is left out."""
        r = self.draws.random()
        for part, call in (
            (0.42, self.free),
            (0.57, self.alloc),
            (0.69, self.allocw),
            (0.8, self.take),
            (0.85, self.trail),
            (0.88, self.largest),
            (0.92, self.largestw),
            (0.96, self.tstart),
            (1, self.isempty),
        ):
            if r < part:
                return call(k)

    def free(self, k):
        for _ in range(6):
            addr, size = self.addr(), self.size()
            if self.draws.chance(0.3):
                size = self.next_region(addr) - addr
                if size < 0:
                    continue
            size = min(size, TOP - addr)
            outside = self.draws.edge and self.draws.chance(0.1)
            if outside or size == 0 or not self.model.shared(addr, size):
                return self.change("free", k, addr, size)
        return False

    def next_region(self, addr):
        """Where the next region of any list begins."""
        return min((first for first, _ in self.model.regions() if first > addr), default=self.base + self.span)

    def alloc(self, k):
        near = [size + d for _, size in self.model.lists[k][:8] for d in (0, 0, -1, 1)]
        return self.change("alloc", k, within(self.draws.pick([0, 1, self.size(), self.size()] + near)))

    def allocw(self, k):
        draws, unit = self.draws, self.unit
        unit = draws.pick([unit, unit, unit, 0, 1, draws.page()])
        if not self.rounds(k, unit):
            return False
        spans = [interior_of(addr, size, unit)[1] for addr, size in self.model.lists[k]]
        spans = [span for span in spans if span]
        size = draws.pick([0, unit, 2 * unit, 3 * unit] + spans + [s + unit for s in spans] + [max(s - unit, 0) for s in spans])
        if draws.edge and draws.chance(0.1):
            size += 1
        return size <= TOP and self.change("allocw", k, size, unit)

    def rounds(self, k, unit):
        """Whether each region's first unit begins at most at 2^64−1: the Rust panics at others."""
        return self.draws.edge or all(aligned(addr, unit) for addr, _ in self.model.lists[k])

    def take(self, k):
        addr, size = self.addr(), self.size()
        if not self.draws.edge or self.draws.chance(0.9):
            size = min(size, TOP - addr)
        return self.change("take", k, addr, size)

    def trail(self, k):
        regions = self.model.lists[k]
        eof = sum(regions[-1]) if regions and self.draws.chance(0.6) else self.addr()
        # A choice among one draws too, so it stays: without it the recorded calls would be others.
        return self.change("trail", k, self.draws.pick([eof]))

    def largest(self, k):
        self.ask("largest", k)
        return True

    def largestw(self, k):
        unit = self.draws.pick([self.unit, 0, 1, self.draws.page()])
        if self.rounds(k, unit):
            self.ask("largestw", k, unit)
        return True

    def tstart(self, _):
        self.ask("tstart", self.draws.pick(self.ends() + [self.base + self.span, self.addr()]))
        return True

    def isempty(self, k):
        self.ask("isempty", k)
        return True

    def region(self):
        """Calls of one region, which is in no list."""
        addr = self.addr()
        size = min(self.size(), TOP - addr)
        unit = self.draws.pick([self.unit, self.draws.page()])
        self.ask("region_end", addr, size)
        if self.draws.edge or aligned(addr, unit):
            self.ask("interior", addr, size, unit)

    def ends(self):
        return [end for addr, size in self.model.regions() for end in (addr, addr + size)]

    def addr(self):
        draws, ends, r = self.draws, self.ends(), self.draws.random()
        if ends and r < 0.55:
            addr = draws.pick(ends) + draws.between(-2, 2) * (r < 0.15)
        elif r < 0.7:
            addr = self.base + draws.between(0, self.span) // self.unit * self.unit
        elif r < 0.75:
            addr = self.base + self.span
        elif r < 0.8:
            addr = self.base
        elif self.shape == "wide":
            addr = draws.number()
        else:
            addr = self.base + draws.between(0, self.span)
        return within(addr)

    def size(self):
        draws, r = self.draws, self.draws.random()
        if self.shape == "wide":
            return draws.number()
        if r < 0.05:
            return 0
        if r < 0.4:
            return draws.between(1, 6)
        if r < 0.65:
            return min(self.span, self.unit * draws.between(1, 3))
        return draws.between(1, max(1, self.span // draws.pick([2, 4, 10, 40])))
