"""record.py DRIVER CRATE: writes CRATE/stdin, calls of the generator, and CRATE/stdout, the Rust's answers. See README.md."""

import os
import sys

from answers import answers
from domain import compared, judged_alike, ours
from generator import generated

# Kind, calls of each seed, seeds, and seeds at which the generator also goes outside the domain of comparison.
KINDS = [
    ("lists", 500, [1, 2, 3, 4, 5], [101, 102]),
    ("sizes", 200, [11, 12, 13], [111]),
    ("pages", 300, [21, 22, 23], [121]),
    ("blocks", 120, [31, 32, 33], [131]),
    ("read", 90, [41, 42, 43], [141]),
    ("msg", 150, [51, 52, 53], [151]),
    ("sum", 150, [61, 62, 63], [161]),
    ("bytes", 90, [71, 72], [171]),
]


def outside(call):
    """Calls outside the domain that the Rust answers all the same: crates/replay_edges has such calls."""
    name, *words = call.split(" ")
    if name == "fshd_len":  # an offset size outside 1 to 8
        return not 1 <= int(words[0]) <= 8
    if name == "fsse_parse":  # address bits above 64
        return 64 < int(words[2])
    return name == "tstart"  # lists that may share a byte


def all_calls():
    """Document 01's cases, and then those of the generator."""
    with open(os.path.join(os.path.dirname(__file__), "marked.txt")) as f:
        calls = f.read().splitlines()
    for kind, count, seeds, edges in KINDS:
        for seed in seeds:
            calls += generated(seed, count, [kind])
        for seed in edges:
            calls += [call for call in generated(seed, count, [kind], edge=True) if not outside(call)]
    return [call for call in calls if ours(call)]


def answered(call, answer):
    return answer not in ("panic", "guard", "bad") and judged_alike(call, answer)


def main(driver, crate):
    calls = all_calls()
    # A call that the Rust does not answer is left out. Its list is then as it was before, so the calls after it stay as they are.
    kept = [(call, answer) for call, answer in zip(calls, answers(driver, calls)) if answered(call, answer)]
    assert answers(driver, [call for call, _ in kept]) == [answer for _, answer in kept]
    with open(os.path.join(crate, "stdin"), "w") as f:
        f.write("".join(call + "\n" for call, _ in kept))
    with open(os.path.join(crate, "stdout"), "w") as f:
        f.write("".join(compared(answer) + "\n" for _, answer in kept))


main(*sys.argv[1:])
