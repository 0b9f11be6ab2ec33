#!/usr/bin/env python3
"""Times scripts with many names in chanrun.

    tools/script_times.py [PROGRAM]

Each script is at most a megabyte, the limit. The time is the best of five runs, and is that of the
whole program, reading and writing too. A script's ratio is its time a line, to that of the cheap
script.
"""

import pathlib
import subprocess
import sys
import time

CRATE = pathlib.Path(__file__).resolve().parent.parent / "crates" / "program_chanrun"
ROUNDS = 5
SENDERS = 60_000
WEAK = 50_000
BESIDE = 20_000


def cheap():
    return ["try_send s0 1", "try_recv r0"] * 38_000


def copies():
    """Senders are copied."""
    return [f"clone s0 s{name}" for name in range(1, SENDERS + 1)]


def weak_handles():
    """Weak senders are made."""
    return [f"downgrade s0 ws{name}" for name in range(WEAK)]


def given_up():
    """A sender is copied and given up, next to the operations of another."""
    lines = [f"send o{op} s0 1" for op in range(BESIDE)]
    return lines + ["clone s0 s1", "drop s1"] * 25_000


def streams():
    """A stream is polled, next to the receives of another receiver."""
    lines = [f"recv o{op} r0" for op in range(BESIDE)]
    return lines + ["clone r0 r1"] + ["next r1"] * 60_000


def settled(number):
    """This many receives wait, the channel is closed, and all are settled."""
    lines = [line for op in range(number) for line in (f"recv o{op} r0", f"poll o{op}")]
    return [*lines, "close s0", "settle"]


def seconds(program, lines):
    """The best time of a run, which ends as a script without faults."""
    script = ("\n".join(["unbounded", *lines]) + "\n").encode()
    assert len(script) <= 1_048_576, len(script)
    best = float("inf")
    for _ in range(ROUNDS):
        start = time.perf_counter()
        subprocess.run([program], input=script, stdout=subprocess.DEVNULL, check=True)
        best = min(best, time.perf_counter() - start)
    return best


def main():
    program = sys.argv[1] if len(sys.argv) > 1 else CRATE / "out" / "program_chanrun"
    print("| Script | lines | ms | a line, to the cheap one |")
    print("|---|---|---|---|")
    works = [
        ("a message in and out", cheap()),
        (f"{SENDERS:,} senders copied", copies()),
        (f"{WEAK:,} weak senders made", weak_handles()),
        (f"a sender given up beside {BESIDE:,} operations", given_up()),
        (f"a stream polled beside {BESIDE:,} receives", streams()),
        ("10,000 receives wait, and are settled", settled(10_000)),
        ("20,000 receives wait, and are settled", settled(20_000)),
    ]
    taken = []
    for work, lines in works:
        taken.append(seconds(program, lines))
        ratio = taken[-1] / len(lines) / (taken[0] / len(works[0][1]))
        print(f"| {work} | {len(lines):,} | {1000 * taken[-1]:.0f} | {ratio:.1f} |")
    print(f"\nWith twice as many to settle it takes {taken[-1] / taken[-2]:.1f} times as long.")


if __name__ == "__main__":
    main()
