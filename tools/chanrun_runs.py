#!/usr/bin/env python3
"""Runs the built chanrun and chantrace on each case of tools/chanrun_runs.

A case is a folder: args (one a line), stdin, stdout, stderr and status. The file stdout_to, if
there is one, names a device that standard output goes to, and stdin_from what standard input comes
from. A case whose name begins with `trace_` is chantrace's. Status and both streams are compared.
Of each case each of the three is then changed, and the difference has to be named. The gate leaves
the programs built; if one isn't, `rt run` builds it. The last line counts the cases and the changes,
and the status is 0 if all passed.
"""

import os
import pathlib
import subprocess
import sys

TOOLS = pathlib.Path(__file__).resolve().parent
CRATES = TOOLS.parent / "crates"
SECONDS = 60


def built(case):
    """The program of a case as the gate leaves it, or as `rt run` builds it."""
    name = "program_chantrace" if case.name.startswith("trace_") else "program_chanrun"
    crate = CRATES / name
    program = crate / "out" / name
    if not program.is_file():
        with open(crate / "stdin", "rb") as script:
            subprocess.run(["rt", "run"], cwd=crate, stdin=script, stdout=subprocess.DEVNULL)
    return program


def told(case, name):
    """What the case says under that name, or nothing."""
    path = case / name
    return path.read_bytes() if path.is_file() else b""


def wanted_of(case):
    """What has to come of a case."""
    return {
        "status": int(told(case, "status")),
        "stdout": told(case, "stdout"),
        "stderr": told(case, "stderr"),
    }


def differences(case, wanted):
    """Runs one case, and names what is other than wanted."""
    arguments = told(case, "args").decode().splitlines()
    device, source = (told(case, it).decode().strip() for it in ("stdout_to", "stdin_from"))
    given = {"stdin": os.open(source, os.O_RDONLY)} if source else {"input": told(case, "stdin")}
    with open(device or "/dev/null", "wb") as output:
        ran = subprocess.run(
            [built(case), *arguments],
            stdout=output if device else subprocess.PIPE,
            stderr=subprocess.PIPE,
            timeout=SECONDS,
            **given,
        )
    given = {"status": ran.returncode, "stdout": ran.stdout or b"", "stderr": ran.stderr}
    return [f"{it}: {given[it]!r}, not {wanted[it]!r}" for it in wanted if given[it] != wanted[it]]


def changes(case):
    """What would be other than wanted, each by its name."""
    wanted = wanted_of(case)
    others = {"status": wanted["status"] + 1, "stdout": b"other", "stderr": b"other"}
    return {it: {**wanted, it: other} for it, other in others.items()}


def main():
    cases = sorted(it for it in (TOOLS / "chanrun_runs").iterdir() if it.is_dir())
    failed = seen = missed = 0
    for case in cases:
        wrong = differences(case, wanted_of(case))
        failed += bool(wrong)
        print(f"chanrun: {case.name}: {'; '.join(wrong) or 'ok'}")
        for name, changed in changes(case).items():
            is_seen = len(differences(case, changed)) == 1
            seen, missed = seen + is_seen, missed + (not is_seen)
            if not is_seen:
                print(f"chanrun: {case.name}: another {name} isn't seen")
    print(f"chanrun: {len(cases) - failed} passed, {failed} failed; "
          f"{seen} changes seen, {missed} not")
    return 0 if cases and not failed and not missed else 1


if __name__ == "__main__":
    sys.exit(main())
