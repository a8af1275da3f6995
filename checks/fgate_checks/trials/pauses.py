"""Repairs traces that come through a pipe and pause on the way, and compares what is in
the lanes at each pause beside workers with what is there without: a live stream isn't
held back.

The traces have 1, 4 and 64 flows, with a hold and without, and small windows or those
of default size. They pause after a few records, where batches of 256 end, after 1,500
records and at random, at times within a record; some come record by record. At a pause
the pipe stays open, and the program has read all that was put in. Whatever a lane has
then is a beginning of what the lane without workers has, and it has all of that within
the limit, which is 100 where it isn't told; it is waited for up to ten seconds. At the
end status, report and lanes are the same, and in each trace some pause finds bytes in
the lanes. A line for each trace tells the longest wait, and one each pause that is
wrong. With --once the six traces of small windows pause after 1,500 records alone. The
last line is 'N passed, M failed', and the status is 0 where none failed.
"""

import argparse
import os
import random
import subprocess
import time
from typing import IO
from collections.abc import Iterator, Sequence

from .plain_model.datagrams import PACKET
from .plain_model.encodings import SAMPLED, encode, payloads_of
from .plain_model.traces import MAGIC, spelled
from .program_runner import (
    work_folder,
    add_program,
    Lanes,
    SECONDS,
    await_reading,
    empty,
    input_of,
    lanes_of,
    put,
    wait_for,
)


# The name of a trace, the words that repair it, its records, and the numbers of records
# after which it pauses.
Paused = tuple[str, list[str], list[bytes], list[int]]
# How long is waited at a pause, in seconds.
LONGEST = 10
# So many records come before the pause that each trace has.
PAUSE = 1_500
SMALL_WINDOWS = ["window=4", "depth=12"]
SHAPES: dict[str, list[str]] = {
    "small windows": SMALL_WINDOWS,
    "windows of default size": [],
}
HOLDS: dict[str, list[str]] = {"no hold": [], "a hold": ["hold=3000"]}
# Where a batch of 256 records ends, and what is beside that.
SOME = [1, 2, 3, 255, 256, 257, 511, 512, 513, 1024, 1280, PAUSE]


def made_trace(
    draw: random.Random, flows: int, records: int, packets: int
) -> list[bytes]:
    """The records of some flows in turns, spelled, of which three in a hundred are lost
    and some come late.
    """
    stream = b"".join(
        b"\x47" + draw.randbytes(187) for _ in range(packets * (records // flows + 8))
    )
    payloads, _ = payloads_of(stream, packets * PACKET, len(stream))
    asked = {**SAMPLED, "columns": 4, "rows": 5, "packets": packets}
    encodings = [
        encode(payloads, {**asked, "port": port, "seq": draw.randrange(65536)})
        for port in ports_of(flows)
    ]
    together = [record for turn in zip(*encodings) for record in turn]
    kept = [
        record
        for number, record in enumerate(together)
        if number < flows or draw.random() >= 0.03
    ]
    for at in range(flows, len(kept) - 40):
        if draw.random() < 0.02:
            kept.insert(at + draw.randrange(40), kept.pop(at))
    return [spelled([record]) for record in kept[:records]]


def ports_of(flows: int) -> list[int]:
    return [5000 + 10 * flow for flow in range(flows)]


def short_traces(draw: random.Random) -> Iterator[Paused]:
    """The same as `traces`, of small windows and with one pause each."""
    for flows in (1, 4, 64):
        for hold, words in HOLDS.items():
            records = made_trace(draw, flows, PAUSE + 4 * flows, 1)
            line = line_of(flows, *SMALL_WINDOWS, *words)
            yield f"{called(flows)}, {hold}", line, records, [PAUSE]


def traces(draw: random.Random) -> Iterator[Paused]:
    """Name, words, records, and the numbers of records after which each pauses."""
    for flows in (1, 4, 64):
        for hold, held in HOLDS.items():
            for shape, words in SHAPES.items():
                count = max(2 * PAUSE, (80 if words else 900) * flows)
                records = made_trace(
                    draw, flows, count, draw.choice([1, 7]) if flows < 64 else 1
                )
                places = sorted(
                    {*SOME, count - 1, *(draw.randrange(1, count) for _ in range(20))}
                )
                line = line_of(flows, *words, *held)
                yield f"{called(flows)}, {shape}, {hold}", line, records, places
    for flows in (1, 4):
        records = made_trace(draw, flows, 150, 1)
        line = line_of(flows, *SMALL_WINDOWS)
        yield f"{called(flows)}, record by record", line, records, list(range(1, 150))


def called(flows: int) -> str:
    return "one flow" if flows == 1 else f"{flows} flows"


def line_of(flows: int, *words: str) -> list[str]:
    return ["repair", *(f"flow={port}" for port in ports_of(flows)), *words]


def pieces_of(
    draw: random.Random, records: list[bytes], places: Sequence[int]
) -> tuple[list[tuple[int, bytes]], bytes]:
    """What comes behind the magic before each pause, of which some are within a record,
    each with the number of whole records by then; and the rest.
    """
    data, at, pieces, begun = b"".join(records), 0, [], 0
    for number, (record, following) in enumerate(zip(records, records[1:]), 1):
        at += len(record)
        if number in places:
            end = at + min(
                draw.choice([0, 0, 0, 1, 11, 12, 13, 200]), len(following) - 1
            )
            pieces.append((number, data[begun:end]))
            begun = end
    return pieces, data[begun:]


def sizes_in(folder: str) -> dict[str, int]:
    return {entry.name: entry.stat().st_size for entry in os.scandir(folder)}


# Status, both outputs, and what is in the folder.
Left = tuple[int | None, bytes, bytes, tuple[Lanes, list[str]]]


class PausedRun:
    """A run of the program in a folder of its own, on a pipe."""

    def __init__(self, program: str, words: list[str], folder: str) -> None:
        empty(folder)
        self.folder = folder
        self.out, self.err = (
            open(f"{folder}.{name}", "w+b") for name in ("out", "err")
        )
        self.child = subprocess.Popen(
            [program, *words],
            stdin=subprocess.PIPE,
            stdout=self.out,
            stderr=self.err,
            cwd=folder,
            bufsize=0,
        )

    def take(self, data: bytes) -> float:
        """Puts the data in the pipe, and gives the time at which all of it was there.
        The program has read it then.
        """
        put(input_of(self.child).fileno(), data)
        then = time.monotonic()
        await_reading(self.child)
        return then

    def await_rest(self) -> None:
        """Waits until the program sleeps. Without workers it does so only to wait for
        more.
        """
        while run_state(self.child.pid) not in "SZX":
            time.sleep(0.0003)

    def wait_until_same(self, wanted: Lanes, since: float) -> float | None:
        """How long it took, in seconds, until the lanes had as much as these, or None
        where they had not for too long.
        """
        sizes = {f"{port}.ts": len(lane) for port, lane in wanted.items()}
        while sizes_in(self.folder) != sizes:
            if time.monotonic() - since > LONGEST or self.child.poll() is not None:
                return None
            time.sleep(0.001)
        return time.monotonic() - since

    def lanes(self) -> Lanes:
        return lanes_of(self.folder)[0]

    def end(self, rest: bytes) -> Left:
        """Status, both outputs and what is in the folder."""
        put(input_of(self.child).fileno(), rest)
        input_of(self.child).close()
        status = wait_for(self.child, SECONDS)
        out, err = read_and_closed(self.out), read_and_closed(self.err)
        return status, out, err, lanes_of(self.folder)


def read_and_closed(file: IO[bytes]) -> bytes:
    """All that is in the file, which is closed then."""
    file.seek(0)
    data = file.read()
    file.close()
    return data


def run_state(pid: int) -> str:
    """The letter for what the process does."""
    with open(f"/proc/{pid}/stat", encoding="ascii") as file:
        return file.read().rpartition(")")[2].split()[0]


class Tally:
    """How many comparisons came out right, and how many wrong."""

    def __init__(self) -> None:
        self.passed = self.failed = 0

    def count(self, name: str, wrong: str) -> None:
        if wrong:
            self.failed += 1
            print(f"{name}: WRONG, {wrong}", flush=True)
        else:
            self.passed += 1


def wrong_at(wanted: Lanes, found: Lanes, took: float | None, within: float) -> str:
    """What is wrong at a pause, or nothing."""
    if any(not wanted.get(port, b"").startswith(lane) for port, lane in found.items()):
        return "a lane is no beginning"
    if took is None:
        missing = sum(map(len, wanted.values())) - sum(map(len, found.values()))
        return f"{missing} bytes are missing after {LONGEST} seconds"
    return f"after {took * 1000:.0f} ms" if took > within else ""


def try_trace(
    tally: Tally,
    program: str,
    work: str,
    name: str,
    words: list[str],
    pieces: list[tuple[int, bytes]],
    rest: bytes,
    workers: int,
    within: float,
) -> None:
    alone = PausedRun(program, [*words, "workers=0"], os.path.join(work, "alone"))
    beside = PausedRun(
        program, [*words, f"workers={workers}"], os.path.join(work, "beside")
    )
    # What a start takes isn't counted.
    for run in (alone, beside):
        run.take(MAGIC)
    longest, most = 0.0, 0
    for number, piece in pieces:
        alone.take(piece)
        alone.await_rest()
        wanted = alone.lanes()
        took = beside.wait_until_same(wanted, beside.take(piece))
        longest, most = max(longest, took or LONGEST), sum(map(len, wanted.values()))
        tally.count(
            f"{name}, after {number} records",
            wrong_at(wanted, beside.lanes(), took, within),
        )
    whole, ended = alone.end(rest), beside.end(rest)
    tally.count(
        f"{name}, at the end",
        ""
        if whole == ended and whole[0] == 0
        else f"status {ended[0]} for {whole[0]}, or what it left",
    )
    tally.count(f"{name}, at the last pause", "" if most else "nothing is in the lanes")
    print(
        f"{name}: {len(pieces)} pauses, at the last {most} bytes, "
        f"at most after {longest * 1000:.1f} ms",
        flush=True,
    )


def main(arguments: Sequence[str]) -> int:
    words = argparse.ArgumentParser(
        prog="pauses",
        description=__doc__,
        formatter_class=argparse.RawDescriptionHelpFormatter,
    )
    add_program(words)
    words.add_argument("--workers", type=int, default=4)
    words.add_argument(
        "--within", type=int, default=100, help="the limit in milliseconds"
    )
    words.add_argument("--seed", type=int, default=1)
    words.add_argument(
        "--once", action="store_true", help="six short traces with one pause each"
    )
    asked = words.parse_args(arguments)
    draw, tally = random.Random(asked.seed), Tally()
    program, within = os.path.abspath(asked.program), asked.within / 1000
    with work_folder() as work:
        chosen = short_traces(draw) if asked.once else traces(draw)
        for name, line, records, places in chosen:
            pieces, rest = pieces_of(draw, records, places)
            try_trace(
                *(tally, program, work, name, line, pieces, rest),
                *(asked.workers, within),
            )
    print(f"{tally.passed} passed, {tally.failed} failed")
    return 1 if tally.failed else 0
