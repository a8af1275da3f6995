"""Made links, and commands that are called as a user calls them."""

import os
import random
import struct
import subprocess
import sys
from collections.abc import Iterable, Sequence
from pathlib import Path
from typing import NamedTuple

from fgate import make_trace, traces

PACKAGE = Path(__file__).resolve().parent.parent
#: Four lost of a square of four columns and rows, which no parity gives back.
SQUARE = ["--columns=4", "--rows=4", "--datagrams=16"]
SQUARE += ["--drop=6", "--drop=7", "--drop=11", "--drop=12"]


class Ended(NamedTuple):
    """How a command ended: its status and what it told."""

    status: int
    out: str
    errors: str


def program_path() -> str:
    """Give the path of the program to be tried."""
    built = PACKAGE.parent / "crates/fgate/out/fgate"
    return os.path.abspath(os.environ.get("FGATE_PROGRAM", built))


def call(module: str, *words: str, given: bytes = b"") -> Ended:
    """Call a command of the package."""
    words = (sys.executable, "-m", f"fgate.{module}", *words)
    ended = subprocess.run(words, input=given, capture_output=True, check=False)
    return Ended(ended.returncode, ended.stdout.decode(), ended.stderr.decode())


def run(program: str, *words: str, given: bytes = b"") -> Ended:
    """Call the program, and give how it ended."""
    ended = subprocess.run([program, *words], input=given, capture_output=True)
    return Ended(ended.returncode, ended.stdout.decode(), ended.stderr.decode())


def fgate(program: str, *words: str, given: bytes = b"") -> bytes:
    """Give what the program says, which must end well."""
    words = (program, *words)
    return subprocess.run(words, input=given, capture_output=True, check=True).stdout


def script(path: Path, text: str) -> str:
    """Write a script of the shell that stands for the program, and give its path."""
    path.write_text(f"#!/bin/sh\n{text}")
    path.chmod(0o755)
    return str(path)


def trace_of(records: Iterable[traces.Record]) -> bytes:
    """Give the trace of these records."""
    return traces.MAGIC + b"".join(map(traces.spelled, records))


def square(*drops: int) -> list[traces.Record]:
    """Give the records of a matrix of four by four without some of them."""
    stream = make_trace.payloads(16, random.Random(2022))
    records = enumerate(make_trace.encoding(stream, 4, 4))
    return [record for number, record in records if number not in drops]


def flipped(record: traces.Record, at: int) -> traces.Record:
    """Give a record with a bit of its datagram turned."""
    data = bytearray(record.datagram)
    data[at] ^= 1
    return record._replace(datagram=bytes(data))


def link(flow: int, datagrams: int, lost: float) -> list[traces.Record]:
    """Give the records of a flow's link, of which some percent are lost."""
    draw = random.Random(flow)
    stream = list(make_trace.payloads(datagrams, draw))
    kept = []
    for number, record in enumerate(make_trace.encoding(stream, 5, 5)):
        if number == 0 or draw.random() * 100 >= lost:
            kept.append(record._replace(port=record.port - make_trace.PORT + flow))
    return kept


def in_time(some: Iterable[Sequence[traces.Record]]) -> list[traces.Record]:
    """Give the records of several links by their times."""
    return sorted((one for records in some for one in records), key=lambda one: one[0])


def parts_of(records: Sequence[traces.Record], count: int) -> list[list[traces.Record]]:
    """Give records in so many parts, one behind another."""
    size = len(records)
    ends = [size * number // count for number in range(count + 1)]
    return [list(records[begin:end]) for begin, end in zip(ends, ends[1:])]


def capture_of(records: Iterable[traces.Record]) -> bytes:
    """Give the records as a capture of Ethernet frames, as the program reads it."""
    ethernet = bytes.fromhex("0200000000020200000000010800")
    frames = [struct.pack("<IHHiIII", 0xA1B2C3D4, 2, 4, 0, 0, 65535, 1)]
    for time, port, datagram in records:
        udp = struct.pack(">HHHH", 5004, port, 8 + len(datagram), 0) + datagram
        ip = struct.pack(
            ">BBHHHBBH4s4s",
            *(0x45, 0, 20 + len(udp), 0, 0, 64, 17, 0),
            bytes([192, 0, 2, 1]),
            bytes([192, 0, 2, 2]),
        )
        frame = ethernet + ip + udp
        size = len(frame)
        stamp = struct.pack("<IIII", *divmod(time, 1_000_000), size, size)
        frames.append(stamp + frame)
    return b"".join(frames)
