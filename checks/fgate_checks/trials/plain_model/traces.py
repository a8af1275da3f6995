"""Traces, how a run ends, and what `inspect` and `pick` tell of a record."""

import struct
from collections.abc import Iterable, Mapping
from typing import Any, NamedTuple

from .datagrams import length_of, read_media, read_parity

MAGIC = b"FECTRAC1"
KINDS = {0: "media", 2: "column", 4: "row"}

# Time in microseconds, port and datagram.
Record = tuple[int, int, bytes]
# The settings of a command by their names.
Settings = Mapping[str, Any]


class Answer(NamedTuple):
    """How a run ends: the status, the line on standard error (none where the status is
    0), standard output, and each lane that is made, by its port. The output of a help
    isn't told (None).
    """

    status: int
    line: str
    out: bytes | None
    lanes: dict[int, bytes]


class Ends(NamedTuple):
    """How an input ends where it doesn't end well: the status and the line."""

    status: int
    line: str


DONE = Ends(0, "")


def spelled(records: Iterable[Record]) -> bytes:
    return b"".join(
        struct.pack(">QHH", time, port, len(datagram)) + datagram
        for time, port, datagram in records
    )


def first_difference(data: bytes, magic: bytes) -> int | None:
    return (
        None
        if data.startswith(magic)
        else next(
            at for at, byte in enumerate(magic) if data[at : at + 1] != bytes([byte])
        )
    )


def read_trace(data: bytes, most: int) -> tuple[list[Record] | None, Ends]:
    """The records, and how the trace ends. None in place of the records where it is no
    trace.
    """
    differs = first_difference(data, MAGIC)
    if differs is not None:
        return None, Ends(4, f"not a trace at byte {differs}")
    records: list[Record] = []
    at, within = len(MAGIC), min(len(data), most)
    while at + 12 <= within:
        time, port, size = struct.unpack_from(">QHH", data, at)
        if at + 12 + size > within:
            break
        records.append((time, port, data[at + 12 : at + 12 + size]))
        at += 12 + size
    if len(data) > most:
        return records, Ends(5, f"too long at byte {at}")
    return records, DONE if at == len(data) else Ends(4, f"cut at byte {at}")


def inspected(
    number: int, time: int, port: int, datagram: bytes, ports: list[int]
) -> str:
    kind = next((KINDS[port - flow] for flow in ports if port - flow in KINDS), None)
    line = f"{number} {time} {port} {len(datagram)} "
    if kind is None:
        return line + "other\n"
    read = read_media(datagram) if kind == "media" else read_parity(datagram)
    if isinstance(read, int):
        return line + f"{kind} bad {read}\n"
    if len(read) == 3:
        return line + f"media seq {read[0]} len {length_of(read[2])}\n"
    return line + "{} base {} offset {} na {}\n".format(kind, *read[:3])


def is_picked(record: Record, asked: Settings) -> bool:
    """Whether a record fits what is asked for: by its port, by the source of a media
    datagram, and by its time.
    """
    time, port, datagram = record
    ports = {flow + kind for flow in asked["flow"] for kind in KINDS} | set(
        asked["port"]
    )
    read = read_media(datagram)
    sent_by = None if isinstance(read, int) else read[1]
    return (
        (not ports or port in ports)
        and (
            sent_by is None
            or (
                sent_by in (asked["ssrc"] or [sent_by])
                and sent_by not in asked["without"]
            )
        )
        and asked["from"] <= time
        and (asked["until"] is None or time < asked["until"])
    )
