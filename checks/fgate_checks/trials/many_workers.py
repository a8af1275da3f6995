"""Repairs random traces of several flows without workers and beside random numbers of
them, and compares lanes, report and status. Datagrams are lost, flipped, doubled, late,
and doubled with another payload, senders restart, and in 40 of 100 traces no datagram
is held past a random time. One trace in five, where it has few flows, is long. Nothing
is proved here.

A trace has 1, 2 or 4 flows, or as many as `--flows` says. With `--one-processor` each
run has one alone, and with `--busy N` so many loops run beside. Of a run that differs
the trace is kept here. The last line says how many runs differed, and the status is 0
where none did.
"""

import argparse
import hashlib
import multiprocessing
import os
import random
import struct
import subprocess
from collections.abc import Sequence
from pathlib import Path

from .program_runner import add_program, empty, work_folder
from .runs import records_of


RUNS_A_TRACE = 8
# The port of a record and its datagram.
Sent = tuple[int, bytes]


def encoded(draw: random.Random, program: str, port: int, is_long: bool) -> list[Sent]:
    """The records of a random stream's encoding."""
    datagrams, packets = (
        (draw.randrange(600, 1_500), 1)
        if is_long
        else (draw.randrange(20, 300), draw.choice([1, 2, 7]))
    )
    stream = b"".join(b"\x47" + draw.randbytes(187) for _ in range(datagrams * packets))
    columns, rows = draw.randrange(4, 11), draw.randrange(4, 11)
    words = [
        "encode",
        f"columns={columns}",
        f"rows={rows}",
        f"packets={packets}",
        f"port={port}",
        f"seq={draw.randrange(65536)}",
        f"ssrc={draw.randrange(2 ** 32)}",
        draw.choice(["layout=block", "layout=staggered"]),
    ]
    encoding = subprocess.run(
        [program, *words], input=stream, stdout=subprocess.PIPE, check=True
    )
    return [(at, datagram) for _, at, datagram in records_of(encoding.stdout)]


def sent(draw: random.Random, program: str, port: int, is_long: bool) -> list[Sent]:
    """The records of a sender, which restarts now and then."""
    records = encoded(draw, program, port, is_long)
    while draw.random() < 0.2:
        records += encoded(draw, program, port, is_long)
    return records


def flipped(draw: random.Random, datagram: bytes) -> bytes:
    place = draw.randrange(len(datagram))
    return (
        datagram[:place]
        + bytes([datagram[place] ^ 1 << draw.randrange(8)])
        + datagram[place + 1 :]
    )


def damaged(draw: random.Random, records: list[Sent]) -> list[tuple[int, int, bytes]]:
    """The records with losses, flips, doubles and late ones, each with its place."""
    loss, flips, doubles, late = (
        draw.choice(chances) for chances in ([0, 3, 10, 20], [0, 0, 1], [0, 2], [0, 3])
    )

    def chance(percent: float) -> bool:
        return draw.random() * 100 < percent

    left: list[tuple[int, int, bytes]] = []
    for place, (port, datagram) in enumerate(records):
        if place and chance(loss):
            continue
        at = place + (draw.randrange(1, 150) if chance(late) else 0)
        left.append((at, port, flipped(draw, datagram) if chance(flips) else datagram))
        if chance(doubles):
            left.append(
                (
                    at + draw.randrange(20),
                    port,
                    flipped(draw, datagram) if chance(30) else datagram,
                )
            )
    left.sort(key=lambda record: record[0])
    return left


def made_trace(
    draw: random.Random, program: str, flows: int
) -> tuple[bytes, list[str]]:
    """A trace, and the words that repair it but for the workers."""
    ports = [5000 + 10 * flow for flow in range(flows or draw.choice([1, 1, 2, 4]))]
    # Several loads of 1,024 records: with many flows there are as many anyway.
    is_long = len(ports) <= 4 and draw.random() < 0.2
    waiting = [damaged(draw, sent(draw, program, port, is_long)) for port in ports]
    trace, time = bytearray(b"FECTRAC1"), 0
    while any(waiting):
        _, port, datagram = draw.choice([flow for flow in waiting if flow]).pop(0)
        # A tenth of the records come with a time before that of the last.
        time += draw.choice([0, 1, 1, 1, 1, 1, 1, 2, 2, -5]) * 100
        trace += struct.pack(">QHH", max(time, 0), port, len(datagram)) + datagram
    if draw.random() < 0.1:
        trace = trace[: draw.randrange(8, len(trace))]
    window = draw.choice([1, 4, 10, 25, 100])
    line = [
        "repair",
        *(f"flow={port}" for port in ports),
        f"window={window}",
        f"depth={window + draw.randrange(300)}",
    ]
    if draw.random() < 0.4:
        line.append(
            f"hold={draw.choice([1, 1_000, 10_000, 50_000]) + draw.randrange(1_000)}"
        )
    return bytes(trace), line


def outcome(words: list[str], trace: bytes, folder: str, processor: int | None) -> str:
    """Status, report, what was told and each lane, as one digest."""
    empty(folder)

    def pin() -> None:
        if processor is not None:
            os.sched_setaffinity(0, {processor})

    done = subprocess.run(
        words, input=trace, capture_output=True, cwd=folder, timeout=120, preexec_fn=pin
    )
    digest = hashlib.sha256(repr((done.returncode, done.stdout, done.stderr)).encode())
    for name in sorted(os.listdir(folder)):
        digest.update(name.encode() + Path(folder, name).read_bytes())
    return digest.hexdigest()


def spin() -> None:
    while True:
        pass


def compared(
    asked: argparse.Namespace, folder: str, processor: int | None
) -> tuple[int, int]:
    """How many runs beside workers there were, and how many differed."""
    draw = random.Random(asked.seed)
    runs = differed = 0
    while runs < asked.runs:
        trace, line = made_trace(draw, asked.program, asked.flows)
        alone = outcome([asked.program, *line, "workers=0"], trace, folder, processor)
        for _ in range(min(RUNS_A_TRACE, asked.runs - runs)):
            beside = [*line, f"workers={draw.randrange(1, 17)}"]
            if outcome([asked.program, *beside], trace, folder, processor) != alone:
                differed += 1
                Path(f"differs-{asked.seed}-{runs}.trace").write_bytes(trace)
                print(f"run {runs} differs: {' '.join(beside)}", flush=True)
            runs += 1
    return runs, differed


def main(arguments: Sequence[str]) -> int:
    words = argparse.ArgumentParser(
        prog="many_workers",
        description=__doc__,
        formatter_class=argparse.RawDescriptionHelpFormatter,
    )
    words.add_argument(
        "runs",
        type=int,
        nargs="?",
        default=10_000,
        help="runs beside workers, 10,000 where it isn't told",
    )
    words.add_argument("--seed", type=int, default=1)
    words.add_argument("--flows", type=int, default=0)
    words.add_argument("--one-processor", action="store_true")
    words.add_argument("--busy", type=int, default=0, help="loops that run beside")
    add_program(words)
    asked = words.parse_args(arguments)
    asked.program = os.path.abspath(asked.program)
    processor = min(os.sched_getaffinity(0)) if asked.one_processor else None
    loops = [
        multiprocessing.Process(target=spin, daemon=True) for _ in range(asked.busy)
    ]
    for loop in loops:
        loop.start()
    with work_folder() as work:
        runs, differed = compared(asked, os.path.join(work, "lanes"), processor)
    print(f"{runs} runs beside workers, {differed} differed")
    return 1 if differed else 0
