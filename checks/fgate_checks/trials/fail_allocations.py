"""Has each allocation of five runs of the built program fail in turn: three datagrams
in order, the block of two passes, a datagram that comes too late, some hundred
datagrams with losses beside four workers, and the same on three flows, which are run in
batches. Each run then ends with status 0 or 6, and its lanes and its report are whole,
or with status 6 prefixes. Beside workers it isn't the same allocation each time that
fails, and where a worker's does, the status is 0. The program runs over a C library
whose allocation fails once. A run with fewer than 20 allocations to refuse counts as
failed.

It needs a C compiler and the GNU C library. The last line is 'N passed, M failed'.
"""

import argparse
import contextlib
import os
import subprocess
import tempfile
from collections.abc import Iterable, Iterator, Sequence

from fgate import make_trace

from .plain_model.traces import MAGIC, spelled
from .program_runner import TOP, add_program
from .runs import records_of


# The C file whose allocation fails once.
MALLOC = TOP / "checks/program_cases/malloc.c"

# Name, words, trace, the lane of each flow, and the report.
Run = tuple[str, list[str], bytes, bytes, bytes]
# A run that has fewer calls than this to refuse isn't the program that is meant, or its
# memory doesn't come from here.
LEAST = 20

# The bytes of a media datagram's payload, and of its record: twelve of the record's
# header and twelve of RTP's more.
PAYLOAD = 1316
RECORD = 12 + 12 + PAYLOAD

# How many blocks of 4 by 4 the run beside workers has.
BLOCKS = 20

COUNTS = (
    "duplicate 0 conflict 0 late 0 notstarted 0 beforestart 0 ahead 0 crowded 0 bad 0"
)


def make(datagrams: int, *words: str) -> tuple[bytes, bytes]:
    """A trace of so many media datagrams with the parity of 4 columns and rows, and
    their payloads.
    """
    with tempfile.TemporaryDirectory() as folder:
        trace, stream = os.path.join(folder, "trace"), os.path.join(folder, "stream")
        matrix = ["--datagrams", str(datagrams), "--columns", "4", "--rows", "4"]
        with contextlib.redirect_stdout(None):
            make_trace.main([trace, stream, *matrix, *words])
        with open(trace, "rb") as records, open(stream, "rb") as payloads:
            return records.read(), payloads.read()


def pick(data: bytes, first: int, size: int, places: Iterable[int]) -> bytes:
    """The parts of this size at these places, counted from the first one on."""
    return b"".join(
        data[first + size * place : first + size * (place + 1)] for place in places
    )


def report(
    flow: str,
    media: int,
    column: int = 0,
    row: int = 0,
    gap: str = "",
    late: int = 0,
    ports: Sequence[int] = (5000,),
) -> bytes:
    media_counts = f"duplicate 0 conflict 0 late {late} bad 0"
    lines = "".join(
        f"flow {port} {flow}\n"
        f"media {port} admitted {media} {media_counts}\n"
        f"column {port} admitted {column} {COUNTS}\n"
        f"row {port} admitted {row} {COUNTS}\n"
        for port in ports
    )
    return f"{lines}{gap}other 0\n".encode()


def on_flows(trace: bytes, ports: Sequence[int]) -> bytes:
    """The records of the trace of flow 5000 on each of these flows in turn."""
    return MAGIC + spelled(
        (time, port - 5000 + flow, datagram)
        for time, port, datagram in records_of(trace)
        for flow in ports
    )


def runs() -> Iterator[Run]:
    """The runs: name, words, trace, the lane of each flow and the report."""
    one = "flow=5000"
    trace, stream = make(3)
    yield "three in order", [one, "workers=0"], trace, stream, report(
        "shown 3 repaired 0 missing 0 windows 1 inconsistent 0", 3
    )
    # The media datagrams 5, 6, 10 and 11 are lost, and the parity of the last column.
    trace, stream = make(
        16, *(word for record in (6, 7, 12, 13, 22) for word in ("--drop", str(record)))
    )
    yield (
        "the block of two passes",
        [one, "workers=0"],
        trace,
        stream,
        report("shown 16 repaired 4 missing 0 windows 1 inconsistent 0", 12, 3, 4),
    )
    # The five records are four media datagrams, the parity of their row, and one more.
    # Number 2 comes last.
    trace, stream = make(5)
    yield (
        "a late datagram",
        [one, "workers=0", "window=4", "depth=4"],
        trace[:8]
        + pick(trace, 8, RECORD, (0, 1, 3))
        + trace[-RECORD:]
        + pick(trace, 8, RECORD, (2,)),
        pick(stream, 0, PAYLOAD, (0, 1, 3, 4)),
        report(
            "shown 4 repaired 0 missing 1 windows 2 inconsistent 0",
            4,
            gap="gap 5000 2 1\n",
            late=1,
        ),
    )
    # A row of each block of 4 by 4 loses one datagram, and the same column none: record
    # 24 * n + 1 is the second datagram.
    lost = range(1, 24 * BLOCKS, 24)
    trace, stream = make(
        16 * BLOCKS, *(word for record in lost for word in ("--drop", str(record)))
    )
    shown, windows = 16 * BLOCKS, -(-16 * BLOCKS // 20)
    come_to = (
        f"shown {shown} repaired {BLOCKS} missing 0 windows {windows} inconsistent 0",
        15 * BLOCKS,
        4 * BLOCKS,
        4 * BLOCKS,
    )
    words = [one, "workers=4", "window=20", "depth=60"]
    yield "beside workers", words, trace, stream, report(*come_to)
    ports = (5000, 5010, 5020)
    yield (
        "flows in batches",
        [*(f"flow={port}" for port in ports), "workers=2", "window=20", "depth=60"],
        on_flows(trace, ports),
        stream,
        report(*come_to, ports=ports),
    )


def run_failing(
    program: str, number: int, words: list[str], trace: bytes, library: str
) -> tuple[bool, int, list[bytes], bytes]:
    """Runs the program with an allocation that fails: whether it was reached, the
    status, the lanes and the report.
    """
    with tempfile.TemporaryDirectory() as folder, tempfile.TemporaryFile() as told:
        environment = {"LD_PRELOAD": library, "FAILING": str(number)}

        def tell() -> None:
            os.dup2(told.fileno(), 9)

        ended = subprocess.run(
            [program, "repair", *words],
            input=trace,
            capture_output=True,
            cwd=folder,
            env=environment,
            preexec_fn=tell,
            pass_fds=(9,),
            check=False,
            timeout=60,
        )
        lanes = [
            lane_in(folder, word[len("flow=") :])
            for word in words
            if word.startswith("flow=")
        ]
        return (
            os.fstat(told.fileno()).st_size > 0,
            ended.returncode,
            lanes,
            ended.stdout,
        )


def lane_in(folder: str, port: str) -> bytes:
    """The lane of a port, and nothing where it isn't there."""
    path = os.path.join(folder, f"{port}.ts")
    if not os.path.exists(path):
        return b""
    with open(path, "rb") as file:
        return file.read()


def is_right(
    status: int, lanes: list[bytes], told: bytes, whole_lane: bytes, whole_report: bytes
) -> bool:
    whole = all(lane == whole_lane for lane in lanes) and told == whole_report
    parts = all(
        whole_lane.startswith(lane) for lane in lanes
    ) and whole_report.startswith(told)
    return whole if status == 0 else status == 6 and parts


def tried(program: str, library: str, run: Run) -> tuple[int, int]:
    """How many runs were right and how many wrong, with each allocation failing in
    turn, and then none.
    """
    name, words, trace, lane, told = run
    passed = failed = number = 0
    reached = True
    while reached:
        reached, status, lanes, out = run_failing(
            program, number, words, trace, library
        )
        if is_right(status, lanes, out, lane, told) and (reached or status == 0):
            passed += 1
        else:
            failed += 1
            print(f"{name}: allocation {number}: WRONG, status {status}")
        number += reached
    print(f"{name}: {number} allocations fail in turn, and then none")
    if number < LEAST:
        failed += 1
        print(f"{name}: WRONG, fewer than {LEAST} allocations were refused")
    return passed, failed


def main(arguments: Sequence[str]) -> int:
    words = argparse.ArgumentParser(
        prog="fail_allocations",
        description=__doc__,
        formatter_class=argparse.RawDescriptionHelpFormatter,
    )
    add_program(words)
    asked = words.parse_args(arguments)
    passed = failed = 0
    with tempfile.TemporaryDirectory() as work:
        library = os.path.join(work, "malloc.so")
        subprocess.run(
            ["cc", "-shared", "-fPIC", "-O1", "-o", library, str(MALLOC)], check=True
        )
        for run in runs():
            right, wrong = tried(os.path.abspath(asked.program), library, run)
            passed, failed = passed + right, failed + wrong
    print(f"{passed} passed, {failed} failed")
    return 1 if failed else 0
