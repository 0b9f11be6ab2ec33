#!/usr/bin/env python3
"""Compares a step of chanexplore with the same line of chanrun.

One row has one party with many lines, and so one order; the other has three parties with 34,650
orders, each made on a channel of its own. A row's time is the best of some runs, without what a
script of one line takes, divided by the steps that were made. The status is 0 if no row costs
more than four times what the lines cost in chanrun.
"""

import pathlib
import subprocess
import sys
import time

CRATES = pathlib.Path(__file__).resolve().parent.parent / "crates"
RUNS = 20
GOAL = 4.0
LINES = ["try_send s0 7", "len s0", "is_empty r0", "try_recv r0"]


def program(name):
    built = CRATES / name / "out" / name
    if not built.is_file():
        sys.exit(f"{built} isn't there: `rt run` in crates/{name} builds it")
    return built


def seconds(command, text):
    """The best time of some runs on a text."""
    best = None
    for _ in range(RUNS):
        began = time.perf_counter()
        ran = subprocess.run(command, input=text, capture_output=True)
        took = time.perf_counter() - began
        assert ran.returncode == 0, ran.stderr
        best = took if best is None else min(best, took)
    return best


def script(lines):
    return "\n".join(["unbounded", *lines, ""]).encode()


def rows():
    """Each row: its name, the parties, and how many steps all orders have."""
    many = LINES * 2500
    yield "one party, 10,000 lines", [many], len(many)
    yield "three parties of 4 lines, 34,650 orders", [LINES] * 3, 34_650 * 12


def main():
    chanrun = program("program_chanrun")
    explore = program("chanexplore")
    many = LINES * 15_000
    idle = seconds([chanrun], script(LINES[:1]))
    plain = (seconds([chanrun], script(many)) - idle) / len(many)
    print("| Lines | ns a step | to a line of chanrun |\n|---|---|---|")
    print(f"| in chanrun | {plain * 1e9:.0f} | 1.0 |")
    worst = 0.0
    for name, parties, steps in rows():
        lines = [line for n, acts in enumerate(parties) for line in [f"party p{n}", *acts]]
        begin = seconds([explore], script(["party p", LINES[0]]))
        step = (seconds([explore], script(lines)) - begin) / steps
        worst = max(worst, step / plain)
        print(f"| {name} | {step * 1e9:.0f} | {step / plain:.1f} |")
    return 0 if worst <= GOAL else 1


if __name__ == "__main__":
    sys.exit(main())
