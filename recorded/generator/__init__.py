"""Calls of the protocol (README.md) drawn at random, on the domain of comparison; at its edge also calls just outside it."""

from generator.blocks import blocks
from generator.draws import Draws
from generator.fields import lengths, sizes, sums
from generator.lists import lists
from generator.message import messages
from generator.pages import pages
from generator.read import reads

KINDS = {
    "lists": lists,
    "sizes": sizes,
    "pages": pages,
    "blocks": blocks,
    "read": reads,
    "msg": messages,
    "sum": sums,
    "bytes": lengths,
}


def generated(seed, count, kinds=tuple(KINDS), edge=False):
    """At least `count` calls, of each kind in turn. A seed gives the same calls each time."""
    draws = Draws(seed, edge)
    calls = []
    while len(calls) < count:
        for kind in kinds:
            # One round of lists has some hundred calls, those of the others a few.
            if kind == "lists" and len(kinds) > 1 and draws.chance(0.85):
                continue
            calls += [" ".join(map(str, call)) for call in KINDS[kind](draws)]
    return calls
