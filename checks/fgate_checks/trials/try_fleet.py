"""Tries fgate-fleet with the built program on this machine.

Each case makes recordings of a few links, has a fleet repair them, and compares each
lane and report with what one process of the program gives over all records: several
processes; a scheduler and two workers in network namespaces; a worker that is killed
while it cuts and while it repairs; captures that are cut off, no captures, or of two
recorders; a flow without records and one that can't be written; a full disk; runs that
are interrupted, and started again; a machine that lacks what it needs.

It needs Debian's python3-distributed, without which it says so and ends with status 0.
Namespaces and a small disk need root, and those cases are left out with a line. The
last line is 'N passed, M failed, K skipped'.
"""

import argparse
import os
import subprocess
import sys
import time
from collections.abc import Sequence

from .fleets import ended_cases, machine_cases, night_cases
from .fleets.nights import CASES, Case, Skipped, Trial
from .program_runner import add_program

# Each module names its cases when it is read.
MODULES = (night_cases, ended_cases, machine_cases)
FAULTS = (AssertionError, OSError, ValueError, KeyError, subprocess.SubprocessError)


def try_case(run: Case) -> bool | None:
    """Whether a case passed, or None where it was left out."""
    began = time.monotonic()
    try:
        remark = run() or ""
    except Skipped as told:
        print(f"{run.__name__}: skipped: {told}", flush=True)
        return None
    except FAULTS as told:
        print(f"{run.__name__}: WRONG: {told}", flush=True)
        return False
    seconds = time.monotonic() - began
    print(
        f"{run.__name__}: ok in {seconds:.0f} s{remark and ', ' + remark}", flush=True
    )
    return True


def main(arguments: Sequence[str]) -> int:
    words = argparse.ArgumentParser(
        prog="try_fleet",
        description=__doc__,
        formatter_class=argparse.RawDescriptionHelpFormatter,
    )
    words.add_argument("names", nargs="*", metavar="NAME", help="these cases alone")
    add_program(words)
    asked = words.parse_args(arguments)
    Trial.program = os.path.abspath(asked.program)
    command = ["/usr/bin/python3", "-c", "import distributed"]
    if subprocess.run(command, stderr=subprocess.DEVNULL, check=False).returncode:
        told = "/usr/bin/python3 has no distributed: apt-get install"
        print(f"try_fleet: skipped, since {told} python3-distributed")
        return 0
    if not os.access(Trial.program, os.X_OK):
        print(f"try_fleet: there is no {Trial.program}", file=sys.stderr)
        return 1
    names = [run.__name__ for run in CASES]
    for name in asked.names:
        if name not in names:
            words.error(f"there is no case {name}; there are {' '.join(names)}")
    chosen = [run for run in CASES if not asked.names or run.__name__ in asked.names]
    results = [try_case(run) for run in chosen]
    passed, failed = results.count(True), results.count(False)
    print(f"{passed} passed, {failed} failed, {results.count(None)} skipped")
    return 1 if failed else 0
