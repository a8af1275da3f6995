"""The trace: a file of datagrams, each with its time and its port."""

import struct
from collections.abc import Iterator
from typing import BinaryIO, NamedTuple


#: The first bytes of a trace.
MAGIC = b"FECTRAC1"
#: A record's time in microseconds, its port and its size, and the bytes that they take.
HEAD, HEAD_SIZE = ">QHH", 12


class NotATrace(Exception):
    """The input is no trace, or it ends inside a record."""


class Record(NamedTuple):
    """A datagram, when it came in microseconds, and the port on which it came."""

    time: int
    port: int
    datagram: bytes


def records_of(trace: BinaryIO) -> Iterator[Record]:
    """Give the records of a trace, one after another, as they are read."""
    if trace.read(len(MAGIC)) != MAGIC:
        raise NotATrace("not a trace")
    while head := trace.read(HEAD_SIZE):
        if len(head) < HEAD_SIZE:
            raise NotATrace("the trace ends inside a record")
        time, port, size = struct.unpack(HEAD, head)
        datagram = trace.read(size)
        if len(datagram) < size:
            raise NotATrace("the trace ends inside a record")
        yield Record(time, port, datagram)


def spelled(record: Record) -> bytes:
    """Give the bytes of a record."""
    head = struct.pack(HEAD, record.time, record.port, len(record.datagram))
    return head + record.datagram
