#!/usr/bin/env python3
"""Makes each row with its requests for memory refused one by one.

    tools/refused_requests.py            compares, too, what is stored of each row
    tools/refused_requests.py --write    stores it, in refused_requests/requests.txt

Built programs make the rows: chanrun and test_channel the scripts of test_channel/data that both
make, test_channel also those of batches, and what no script says; chanrun and chantrace those of
tools/chanrun_runs, chantrace and chanexplore their stored runs. An allocator laid in front of a
program counts its requests, and refuses the one that it is told to. It stands in front of each call
of the C library that gives memory.

Each row is made once with all memory, and must write and end with what it is to. Then it is made
again for each request, and that one request is refused. Five things may come of that:

- unchanged: it writes and ends with the same, since it goes on without that memory.
- again: it writes the same, and ends with status 1 and the line that a call was refused memory, and
  made again. So the call said that it was refused, and handed its message back; what the channel
  holds and who waits was as before; and all that came later was as if nothing had been. A batch may
  have moved a part before, and is made again for the rest.
- ended: it writes a beginning of the same, and ends with status 1 and the line that there is no
  memory. chanrun ends like this; the other one if it is its own memory, and no call's.
- unstarted: it writes a beginning of the same, and ends with status 1 and the line that a map's
  worker couldn't be started. It has mapped again by then, and well.
- different: anything else, which is a fault. So is memory that isn't given back at the end.

A line is printed for each row, with how many of its requests came to each. Of the longest scripts
the first and the last requests are refused. The status is 0 if nothing differed, each row asked for
memory, and as many of its requests came to each as are stored. What is stored is what the programs
did: it is written anew if a row comes or goes, or if one is meant to make other requests. The
threads of maps and of blocked calls make other requests each time. So a call of each has to be made
again, and of a map only the first request is stored without which a worker isn't started.
"""

import os
import pathlib
import subprocess
import sys
import tempfile
from collections import Counter
from concurrent.futures import ThreadPoolExecutor
from dataclasses import dataclass

TOOLS = pathlib.Path(__file__).resolve().parent
CRATES = TOOLS.parent / "crates"
DATA = CRATES / "test_channel" / "data"
CASES = TOOLS / "chanrun_runs"
STORED = TOOLS / "refused_requests" / "requests.txt"
# How many requests of a long script are refused, from either end.
ENDS = 50
# How many further requests of a row by threads are refused, if they are made.
MORE = 20
SECONDS = 60
# What a thread has of its own goes back when it ends, and isn't kept for the next one.
TUNED = {**os.environ, "GLIBC_TUNABLES": "glibc.pthread.stack_cache_size=0"}
AGAIN = (1, b"a call was refused memory, and made again\n")
UNSTARTED = (1, b"Error: a worker couldn't be started\n")
WITHOUT_MEMORY = [
    (1, line)
    for line in (
        b"out of memory\n",
        b"Error: out of memory\n",
        b"Error: memory allocation failed\n",
        b"Error: memory was refused\n",
    )
]


@dataclass
class Row:
    """What a program is run on, and what it writes and ends with if memory is there."""

    program: str
    name: str
    output: bytes
    arguments: tuple = ()
    script: bytes = b""
    ending: tuple = (0, b"")
    is_long: bool = False
    is_by_threads: bool = False

    def __str__(self):
        return f"{self.program}: {self.name}"

    def numbers(self, made):
        """The requests that are refused in turn, if it makes so many."""
        numbers = range(1, made + 1 + MORE * self.is_by_threads)
        if self.is_long and made > 2 * ENDS:
            return [*numbers[:ENDS], *numbers[-ENDS:]]
        return list(numbers)

    def outcome(self, output, ending):
        """What came of a refused request."""
        if (output, ending) == (self.output, self.ending):
            return "unchanged"
        if (output, ending) == (self.output, AGAIN):
            return "again"
        if self.is_by_threads and ending == UNSTARTED and self.output.startswith(output):
            return "unstarted"
        if ending in WITHOUT_MEMORY and self.output.startswith(output):
            return "ended"
        return "different"


class Sweep:
    """Runs of programs with the allocator laid in front of them."""

    def __init__(self, folder):
        self.folder = folder
        self.allocator = folder / "refuse.so"
        source = TOOLS / "refused_requests" / "refuse.c"
        command = ["cc", "-O2", "-shared", "-fPIC", "-o", self.allocator, source]
        subprocess.run(command, check=True)

    def run(self, row, number=0, counted=None):
        """One run, of which the request with this number is refused: what it wrote and its end."""
        environment = dict(TUNED, LD_PRELOAD=str(self.allocator), REFUSED=str(number))
        if counted:
            environment["COUNTED"] = str(counted)
        ran = subprocess.run(
            [built(row.program), *row.arguments],
            input=row.script,
            capture_output=True,
            env=environment,
            timeout=SECONDS,
        )
        return ran.stdout, (ran.returncode, ran.stderr)

    def requests(self, row):
        """How many requests the row makes with all memory."""
        counted = self.folder / "counted"
        ran = self.run(row, counted=counted)
        if ran != (row.output, row.ending):
            raise SystemExit(f"refused: {row}: with all memory: {ran}")
        return int(counted.read_text())

    def outcomes(self, row, pool):
        """How many requests the row makes, and what came of each that was refused."""
        made = self.requests(row)
        numbers = row.numbers(made)
        ran = pool.map(lambda number: self.run(row, number), numbers)
        return made, {number: row.outcome(*it) for number, it in zip(numbers, ran)}


def built(name):
    """The program as the gate leaves it, or as `rt run` builds it."""
    crate = CRATES / name
    program = crate / "out" / name
    if not program.is_file():
        subprocess.run(["rt", "run"], cwd=crate, stdin=subprocess.DEVNULL, capture_output=True)
    return program


def as_lines(lines):
    return "".join(line + "\n" for line in lines)


def stored_rows(name):
    """The rows of a file of test_channel: their names, and their lines with the answers."""
    _, *rows = (DATA / name).read_text("utf-8").split("\n\n")
    for row in rows:
        title, *lines = row.strip().splitlines()
        yield title.removeprefix("# "), lines


def scripts():
    """The rows that chanrun makes, too."""
    for path in sorted(DATA.glob("*.rows")):
        for name, lines in stored_rows(path.name):
            lines = as_lines(lines).replace(", ", "\n=> ").splitlines()
            parts = [line.partition("=> ") for line in lines]
            script = as_lines(step.rstrip() for step, _, _ in parts if step)
            output = as_lines(reply for _, arrow, reply in parts if arrow)
            yield Row("program_chanrun", name, output.encode(), script=script.encode())


def rows_of_handles():
    """The same rows by handles, and those of batches."""
    for path in [*sorted(DATA.glob("*.rows")), DATA / "batches.calls"]:
        for name, lines in stored_rows(path.name):
            count = sum(" => " in line for line in lines)
            output = f"1 rows, {count} lines, 0 differences\n".encode()
            arguments = ("0", "1", "/dev/stdin")
            yield Row("test_channel", name, output, arguments, as_lines(lines).encode())


def faulty_scripts():
    """The runs of chanrun and chantrace on standard input alone, most of which end with a fault."""
    for case in sorted(CASES.iterdir()):
        if any((case / it).exists() for it in ("args", "stdin_from", "stdout_to")):
            continue
        script, output, error = ((case / it).read_bytes() for it in ("stdin", "stdout", "stderr"))
        ending = (int((case / "status").read_text()), error)
        name = case.name.replace("_", " ")
        program = "program_chantrace" if name.startswith("trace ") else "program_chanrun"
        yield Row(program, name, output, script=script, ending=ending)


def stored_runs():
    """What the other programs are run on beside their sources."""
    for program in ("program_chantrace", "chanexplore"):
        script, output = ((CRATES / program / it).read_bytes() for it in ("stdin", "stdout"))
        yield Row(program, "the stored run", output, script=script)


def long_scripts():
    """Scripts at the limit of their length, and past it."""
    longest = b"bounded 10\n" + b"len s0\n" * 149_795
    for name, script, output, ending in [
        ("the longest script", longest, b"0\n" * 149_795, (0, b"")),
        ("one byte more", longest + b"l", b"", (1, b"input is too long\n")),
    ]:
        yield Row("program_chanrun", name, output, (), script, ending, is_long=True)


def other_rows():
    """The rows that no script has, as the stored run of test_channel names them."""
    for name in (CRATES / "test_channel" / "stdout").read_text("utf-8").splitlines():
        output, is_by_threads = as_lines([name]).encode(), name.startswith(("a map ", "a blocked "))
        yield Row("test_channel", name, output, (name,), is_by_threads=is_by_threads)


def numbered(rows):
    """The rows, of which each further one of a name has a number."""
    seen = Counter()
    for row in rows:
        seen[str(row)] += 1
        if seen[str(row)] > 1:
            row.name += f" {seen[str(row)]}"
        yield row


def all_rows():
    """All rows, each with a name of its own."""
    rows = [*other_rows(), *rows_of_handles(), *scripts(), *faulty_scripts(), *stored_runs()]
    return numbered([*rows, *long_scripts()])


def text_of(made, outcomes):
    """What is printed of a row, and stored if no other threads make its requests."""
    came = Counter(outcomes.values())
    kinds = ["again", "ended", "unchanged", *{"unstarted"} & came.keys()]
    return f"{made} requests, {', '.join(f'{came[it]} {it}' for it in kinds)}"


def stored_text(row, text, outcomes):
    """What is stored of a row, or None."""
    if not row.is_by_threads:
        return text
    unstarted = [number for number, what in outcomes.items() if what == "unstarted"]
    return f"a worker is asked for at request {min(unstarted)}" if unstarted else None


def faults_of(row, outcomes):
    """What is wrong with a row, whatever is stored of it."""
    wrong = [f"{row}: request {it} differs" for it, what in outcomes.items() if what == "different"]
    if row.is_by_threads and "again" not in outcomes.values():
        wrong.append(f"{row}: no call says that it was refused memory")
    return wrong if outcomes else [f"{row}: no request is made"]


def stored():
    """What is stored of each row, by the row's name."""
    lines = STORED.read_text("utf-8").splitlines() if STORED.is_file() else []
    return {name: text for name, _, text in (line.rpartition(": ") for line in lines)}


def differences(before, now):
    """What is to say if something else is stored of the rows."""
    return [
        f"{name}: {now.get(name, 'no row')}; stored is: {before.get(name, 'nothing')}"
        for name in {**before, **now} if before.get(name) != now.get(name)
    ]


def main():
    is_written = sys.argv[1:] == ["--write"]
    if sys.argv[1:] and not is_written:
        raise SystemExit(__doc__)
    now, total, faults, count = {}, Counter(), [], 0
    with tempfile.TemporaryDirectory() as folder, ThreadPoolExecutor(os.cpu_count()) as pool:
        sweep = Sweep(pathlib.Path(folder))
        for count, row in enumerate(all_rows(), 1):
            made, outcomes = sweep.outcomes(row, pool)
            total.update(() if row.is_by_threads else outcomes.values())
            text = text_of(made, outcomes)
            print(f"refused: {row}: {text}")
            if kept := stored_text(row, text, outcomes):
                now[str(row)] = kept
            faults += faults_of(row, outcomes)
    if is_written:
        STORED.write_text(as_lines(f"{name}: {text}" for name, text in now.items()), "utf-8")
    faults += differences(stored(), now)
    for fault in faults:
        print(f"refused: {fault}")
    parts = ", ".join(f"{came} {what}" for what, came in sorted(total.items()))
    print(f"refused: {count} rows; of those without threads {total.total()} requests refused in "
          f"turn: {parts}; {len(faults)} faults")
    return 1 if faults else 0


if __name__ == "__main__":
    sys.exit(main())
