"""Asks a program that speaks the protocol (README.md)."""

import subprocess
import sys


def answers(program, calls):
    """One answer for each call."""
    lines = "".join(call + "\n" for call in calls)
    given = subprocess.run([program], input=lines, capture_output=True, text=True, check=True).stdout.splitlines()
    if len(given) != len(calls):
        sys.exit(f"{program}: {len(given)} answers for {len(calls)} calls")
    return given
