"""Runs the built program with ever more memory to be had (as `ulimit -v` sets it), from
the least with which it starts, and compares what it leaves with a plain model. Each run
ends with status 0 and the whole of its outputs, or with status 6, the line `no memory`
and a beginning of each; never by a signal. A report is begun only where all lanes are
whole.

The runs are repairs of two flows beside no worker and beside four, one with a gap at
every second datagram, an encoding, and a drill. Below the least with which `--version`
runs the loader fails in its own way, and nothing is tried. The step is 32,768 bytes
where it isn't told; it is doubled after each eight runs in succession that end with
status 0, and a run that has had 40 of them is done. The least that starts and the least
with which each run is whole are told. The last line is 'N passed, M failed', and the
status is 0 where none failed.
"""

import argparse
import os
import resource
import sys
from collections.abc import Callable, Iterator, Sequence

from .plain_model.datagrams import media_datagram
from .plain_model.traces import MAGIC, spelled
from .program_runner import add_program, work_folder
from .runs import Calls, Run, runs, whole_of


NO_MEMORY = (6, "no memory\n")
# How many runs in succession end well before the step is doubled, and before it is
# enough.
DOUBLED, ENOUGH = 8, 40
# A program that doesn't start with so much isn't the one that is meant: one built for
# sanitizers takes far more.
MOST_TO_START = 2**26


def gaps_of_one() -> Run:
    """A repair in which every second datagram is missing, of 3,000."""
    records = [
        (0, 5000, media_datagram(2 * number, 0, 0, b"\x47" + bytes(187)))
        for number in range(3000)
    ]
    return ["repair", "flow=5000", "window=1", "depth=1", "workers=0"], MAGIC + spelled(
        records
    )


def limited_runs() -> Iterator[tuple[str, list[str], bytes]]:
    """Name, words and input of each run."""
    large = runs(large=True)
    words, trace = large["repair"]
    yield "repair beside no worker", [*words, "workers=0"], trace
    yield "repair beside four", [*words, "workers=4"], trace
    yield "repair of gaps", *gaps_of_one()
    yield "encode", *large["encode"]
    words, stream = large["drill"]
    yield "drill beside four", [*words, "workers=4"], stream


def under(limit: int) -> Callable[[], None]:
    return lambda: resource.setrlimit(resource.RLIMIT_AS, (limit, limit))


def least_start(calls: Calls, step: int) -> int | None:
    """The least limit, in steps, with which the program tells its version, or None."""
    for limit in range(step, MOST_TO_START, step):
        calls.begin()
        ended = calls.call(["--version"], preexec_fn=under(limit))
        if ended.status == 0 and ended.out.startswith(b"fgate"):
            return limit
    return None


def climb(
    calls: Calls, name: str, words: list[str], data: bytes, limit: int, step: int
) -> tuple[int | None, int]:
    """Runs with ever higher limits. It gives the least that was enough, and how often
    there was no memory.
    """
    whole = whole_of(words, data)
    good = refused = 0
    least = None
    while good < ENOUGH:
        calls.begin()
        ended = calls.call(words, data, preexec_fn=under(limit))
        calls.judge(f"{name} under {limit} bytes", ended, whole, [None, NO_MEMORY])
        if ended.status == whole.status:
            good += 1
            least = least or limit
            step *= 2 if good % DOUBLED == 0 else 1
        else:
            good, refused, least = 0, refused + 1, None
        limit += step
    return least, refused


def main(arguments: Sequence[str]) -> int:
    words = argparse.ArgumentParser(
        prog="under_limits",
        description=__doc__,
        formatter_class=argparse.RawDescriptionHelpFormatter,
    )
    add_program(words)
    words.add_argument(
        "--step", type=int, default=32768, help="bytes by which the limit rises"
    )
    asked = words.parse_args(arguments)
    with work_folder() as work:
        calls = Calls(os.path.abspath(asked.program), work)
        start = least_start(calls, asked.step)
        if start is None:
            told = f"{asked.program} doesn't start with {MOST_TO_START} bytes"
            print(f"under_limits: {told}", file=sys.stderr)
            return 1
        print(f"it starts with {start} bytes", flush=True)
        for name, line, data in limited_runs():
            least, refused = climb(calls, name, line, data, start, asked.step)
            print(
                f"{name}: no memory {refused} times, whole from {least} bytes on",
                flush=True,
            )
            # A run that never lacks memory has tried nothing.
            if not refused:
                calls.failed += 1
                print(f"{name}: WRONG, there was always memory")
    print(f"{calls.passed} passed, {calls.failed} failed")
    return 1 if calls.failed else 0
