"""compare.py DRIVER PROGRAM [KINDS]: counts the calls that the two answer differently, and prints the first of them. See compare."""

import sys

from answers import answers
from domain import compared, judged_alike, ours
from generator import KINDS, generated

SEEDS = range(201, 220)
CALLS = 60_000


def main(driver, program, kinds=",".join(KINDS)):
    kinds = kinds.split(",")
    if not set(kinds) <= set(KINDS):
        sys.exit(f"the kinds are {','.join(KINDS)}")
    total = differing = 0
    for seed in SEEDS:
        calls = [call for call in generated(seed, CALLS, kinds) if ours(call)]
        for call, rust, here in zip(calls, answers(driver, calls), answers(program, calls)):
            rust = compared(rust)
            if not judged_alike(call, rust):
                continue
            total += 1
            if rust != here:
                differing += 1
                if differing <= 10:
                    print(f"{call[:120]}\n  the Rust: {rust[:120]}\n  here:     {here[:120]}")
    print(f"{total} calls, {differing} answered differently")
    return differing > 0


sys.exit(main(*sys.argv[1:]))
