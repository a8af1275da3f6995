"""Traces behind one another, or by time, into a pipe."""

from __future__ import annotations

import errno
import os
import struct
from collections.abc import Callable, Sequence
from typing import IO, BinaryIO

from fgate.fleet.pipes import BLOCK
from fgate.traces import HEAD, HEAD_SIZE, MAGIC

#: What counts the bytes that went through.
Count = Callable[[int], None]
#: A time that no record has, past all others.
NEVER = 1 << 64


def send_file(sink: IO[bytes], path: str, count: Count) -> None:
    """Write a trace less its magic into a pipe, without a copy of it here."""
    with open(path, "rb", buffering=0) as file:
        at, size = len(MAGIC), os.fstat(file.fileno()).st_size
        while at < size:
            sent = os.sendfile(sink.fileno(), file.fileno(), at, BLOCK)
            if not sent:
                raise OSError(errno.EIO, "it ended before its end", path)
            at += sent
            count(sent)


class Recorder:
    """The records of one recorder's pieces, one piece after another, as they come.

    `time` is that of the next record, and NEVER where there is none.
    """

    def __init__(self, paths: Sequence[str]) -> None:
        self.paths = list(paths)
        self.file: BinaryIO | None = None
        self.data, self.at, self.time = b"", 0, NEVER
        self.fill()

    def fill(self) -> None:
        """Have the next record's head and bytes at hand, and its time."""
        while not self.has_record():
            more = self.file.read(BLOCK) if self.file else b""
            if more:
                self.data, self.at = self.data[self.at :] + more, 0
            elif not self.open_next():
                self.time = NEVER
                return

    def has_record(self) -> bool:
        """Tell whether a whole record is at hand, and take down its time."""
        left = len(self.data) - self.at
        if left < HEAD_SIZE:
            return False
        self.time, _, size = struct.unpack_from(HEAD, self.data, self.at)
        return bool(left >= HEAD_SIZE + size)

    def open_next(self) -> bool:
        """Open the next piece behind its magic, and tell whether there is one."""
        if not self.paths:
            return False
        if self.file:
            self.file.close()
        self.file = open(self.paths.pop(0), "rb", buffering=0)
        self.file.seek(len(MAGIC))
        return True

    def take(self, limit: int, is_taken_at_limit: bool) -> bytes:
        """Take the records at hand that come before this time, or also those at it."""
        data, begin, at, time = self.data, self.at, self.at, self.time
        length = len(data)
        while time < limit or (is_taken_at_limit and time == limit):
            at += HEAD_SIZE + struct.unpack_from(HEAD, data, at)[2]
            if length - at < HEAD_SIZE:
                break
            time, _, size = struct.unpack_from(HEAD, data, at)
            if length - at < HEAD_SIZE + size:
                break
        self.at = at
        self.fill()
        return data[begin:at]


def take_earliest(live: list[Recorder]) -> bytes:
    """Take records of the recorder whose next one is the earliest.

    Where times are the same, those of the first recorder come first. A recorder that
    has none left is live no more.
    """
    number = min(range(len(live)), key=lambda one: live[one].time)
    others = [(one.time, place) for place, one in enumerate(live) if place != number]
    limit, place = min(others, default=(NEVER, 0))
    taken = live[number].take(limit, number < place)
    if live[number].time == NEVER:
        del live[number]
    return taken


def send_merged(
    sink: IO[bytes], recorders: Sequence[Sequence[str]], count: Count
) -> None:
    """Write the records of several recorders by time."""
    live = [one for one in map(Recorder, recorders) if one.time != NEVER]
    waiting: list[bytes] = []
    size = 0
    while live:
        waiting.append(take_earliest(live))
        size += len(waiting[-1])
        if size >= BLOCK or not live:
            sink.write(b"".join(waiting))
            count(size)
            waiting, size = [], 0


def send(sink: IO[bytes], recorders: Sequence[Sequence[str]], count: Count) -> None:
    """Write the trace of all pieces: joined, and by time where there are recorders."""
    sink.write(MAGIC)
    if len(recorders) > 1:
        # Buffered, since a pipe may take a part of what is written.
        with os.fdopen(os.dup(sink.fileno()), "wb") as buffered:
            send_merged(buffered, recorders, count)
        return
    for path in recorders[0]:
        send_file(sink, path, count)
