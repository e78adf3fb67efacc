"""Calls that cut sections at pages, and plans."""

from document import TOP, bytes_for, planned
from generator.draws import run


def pages(draws):
    page = draws.page()
    sections = cut_sections(draws, page)
    if cuttable(draws, sections, page):
        yield "split", page, *run(sections)
    yield from plans(draws)


def cut_sections(draws, page):
    count = draws.between(0, 6)
    if draws.chance(0.3):
        sections = [(draws.number(), draws.number()) for _ in range(count)]
    else:
        sections = disjoint(draws, count, page, TOP)
    if draws.chance(0.2):
        addr = TOP - draws.between(0, 3 * min(page, 2**62))
        sections.append((addr, TOP - addr))
    sections = [(addr, min(size, TOP - addr)) for addr, size in sections]
    if draws.chance(0.3):
        sections.insert(draws.between(0, len(sections)), (draws.number(), 0))
    draws.shuffle(sections)
    return sections


def disjoint(draws, count, page, top):
    """Sections that share no byte, by address, many of whole pages."""
    sections = []
    at = draws.number(top) if draws.chance(0.3) else draws.between(0, 3) * page + draws.between(0, 2)
    for _ in range(count):
        at += draws.pick([0, 1, draws.between(0, page), page - at % page, page])
        to_page = max(1, page - at % page)
        any_size, any_three = draws.between(1, page), draws.between(1, 3 * page)
        size = draws.pick([1, page, page, 2 * page, 3 * page, page - 1, page + 1, to_page, any_size, any_three])
        if at + size > top:
            break
        sections.append((at, size))
        at += size + draws.pick([0, 0, 1])
    return sections


def cuttable(draws, sections, page):
    """Few pieces; and no cut beyond 2^64−1, where the Rust panics, unless at the edge."""
    below = all(size == 0 or ((addr + size - 1) // page + 1) * page <= TOP for addr, size in sections)
    return (draws.edge or below) and sum((addr + size) // page - addr // page + 1 for addr, size in sections) < 400


def plans(draws):
    offset_size = draws.offset_size()
    page = draws.pick([draws.page(), 4096, 512, 16, 4])
    top = draws.pick([TOP, 2**40])
    lists = planned_lists(draws, page, top)
    if draws.chance(0.35):
        lists = [any_run(draws, page, top) for _ in range(3)]
    if not cuttable(draws, lists[0] + lists[1], page):
        return
    start = draws.pick([draws.number(), 20000, 0, top // 2])
    if draws.edge or not refused(lists, page, start, offset_size):
        yield "plan", offset_size, page, start, *run(lists[0]), *run(lists[1]), *run(lists[2])


def planned_lists(draws, page, top):
    """Three lists that share no byte, sometimes with an empty section in the third."""
    sections = disjoint(draws, draws.between(0, 12), page, top)
    lists = [[], [], []]
    for section in sections:
        lists[draws.between(0, 2)].append(section)
    if draws.chance(0.1):
        after = sum(sections[-1]) + 7 if sections else 0
        lists[2].append((after if after <= TOP else 0, 0))
    return lists


def any_run(draws, page, top):
    """Any sections: in no order, overlapping, empty, repeated."""
    sections = []
    for _ in range(draws.between(0, 4)):
        if page < 2**60:
            addr = draws.pick([draws.between(0, 4) * page, draws.between(0, 5 * page), draws.number(top)])
        else:
            addr = draws.number(top)
        size = draws.pick([0, 1, page - 1, page, page + 1, draws.between(0, 3 * page), 2 * page])
        sections.append((addr, min(size, TOP - addr)))
    return sections


def refused(lists, page, start, offset_size):
    """Whether document 01 has refusal 4 or 5 for the plan."""
    end = start
    for slot, sections, _ in planned(page, *lists):
        sizes = [size for _, size in sections]
        if sum(sizes) > TOP or slot == 6 and len({addr for addr, _ in sections}) < len(sections):
            return True
        if sections:
            groups = len(set(sizes)) * (bytes_for(len(sizes)) + 8)
            end += 74 + offset_size + 9 + offset_size + groups + len(sizes) * (offset_size + 1)
    return end > TOP
