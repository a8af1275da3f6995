"""Runs the built program on a few inputs, and compares its status, both outputs and
what is in its folder with what they should be; then on the worked examples.

What is built is crates/fgate/out/fgate, as `rt ci` leaves it, and what Rattle's own
compiler builds, as fgate.by-rattle beside it. With --first the first of the two is
tried alone, which is all that a proof of the program leaves, and with --program one
that is told. Each case prints a line that ends with `ok` or `WRONG`, and the status is
0 where all are ok and none is missing. Nothing is left behind.
"""

import argparse
import contextlib
import os
from collections.abc import Sequence
from pathlib import Path

from . import pauses
from .built.cases import Cases
from .built.closed_streams import closed_cases
from .built.command_cases import command_cases
from .built.examples import try_examples
from .program_runner import PROGRAM, work_folder

# How many cases there are: a run that loses one is wrong.
CASES = 163


def paused(cases: Cases) -> None:
    """A pipe that pauses after 1,500 records: beside workers the lanes come to what
    they have without, for 1, 4 and 64 flows, with a hold and without. How soon is for
    `pauses` alone.
    """
    with open(cases.output, "w", encoding="utf-8") as told:
        with contextlib.redirect_stdout(told):
            words = ["--program", cases.program, "--once", "--within", "10000"]
            status = pauses.main(words)
    cases.count("trace_that_pauses", status == 0)


def try_program(program: str) -> bool:
    """Tries one build, and tells whether all is right."""
    with work_folder() as work:
        cases = Cases(program, Path(work))
        closed_cases(cases, command_cases(cases))
        paused(cases)
        if cases.begun != CASES:
            cases.tell(f"{CASES} cases", False)
        try_examples(cases)
    return not cases.wrong


def main(arguments: Sequence[str]) -> int:
    words = argparse.ArgumentParser(
        prog="program",
        description=__doc__,
        formatter_class=argparse.RawDescriptionHelpFormatter,
    )
    words.add_argument("--first", action="store_true", help="the first build alone")
    words.add_argument("--program", help="this build alone")
    asked = words.parse_args(arguments)
    first = asked.program or PROGRAM
    builds = [first] if asked.program or asked.first else [first, f"{first}.by-rattle"]
    results = []
    for build in builds:
        if os.access(build, os.X_OK):
            results.append(try_program(build))
        else:
            print(f"case built of {Path(build).name}: WRONG")
            results.append(False)
    return 0 if all(results) else 1
