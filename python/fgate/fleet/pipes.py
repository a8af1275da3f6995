"""The program at work, and what goes through pipes to it."""

from __future__ import annotations

import contextlib
import ctypes
import errno
import fcntl
import os
import subprocess
import threading
from collections.abc import Callable, Iterable, Sequence
from io import RawIOBase
from typing import IO, Any, Protocol

BLOCK = 1 << 20
SET_SIZE, GET_SIZE = 1031, 1032  # of a pipe, by fcntl of Linux

#: A process of the program, whose pipes aren't buffered here.
Process = subprocess.Popen[bytes]
#: How a process ended: its status and its line.
End = tuple[int, str]


def widen(pipe: Any) -> int:
    """Have a pipe hold a block where the system allows it, and give what it holds."""
    with contextlib.suppress(OSError):
        fcntl.fcntl(pipe, SET_SIZE, BLOCK)
    return fcntl.fcntl(pipe, GET_SIZE)


def start(program: str, command: str, *words: str, **streams: Any) -> Process:
    """Start the program. What is piped isn't buffered here."""
    process = subprocess.Popen(
        [program, command, *words], stderr=subprocess.PIPE, bufsize=0, **streams
    )
    for stream in (process.stdin, process.stdout):
        if stream:
            widen(stream)
    return process


def end(process: Process) -> End:
    """Give the status of a process, as a shell tells it, and the line that it said."""
    assert process.stderr
    said = process.stderr.read().decode("utf-8", "replace")
    line = said.strip().rpartition("\n")[2]
    process.stderr.close()
    status = process.wait()
    if status >= 0:
        return status, line
    return 128 - status, line or f"ended by signal {-status}"


def kill(processes: Iterable[Process]) -> None:
    """End these processes at once."""
    for one in processes:
        with contextlib.suppress(OSError):
            one.kill()
        one.wait()


class Way(Protocol):
    """A way from a pipe to several."""

    def step(self) -> int:
        """Hand on what there is, and give how many bytes that was; 0 at the end."""

    def close(self) -> None:
        """Close what the way has opened itself."""


class Copier:
    """Copies a pipe to several."""

    def __init__(self, source: RawIOBase, sinks: Sequence[IO[bytes]]) -> None:
        self.source, self.sinks, self.buffer = source, sinks, bytearray(BLOCK)

    def step(self) -> int:
        """Hand on what there is, and give how many bytes that was; 0 at the end."""
        size = self.source.readinto(self.buffer) or 0
        for sink in self.sinks:
            view = memoryview(self.buffer)[:size]
            while view:
                view = view[sink.write(view) :]
        return size

    def close(self) -> None:
        """Close nothing, since nothing was opened."""


class Sharer:
    """Does the same without a copy: the system hands a pipe's pages on to others.

    It does so by tee and splice of Linux.
    """

    def __init__(self, source: RawIOBase, sinks: Sequence[IO[bytes]]) -> None:
        system = ctypes.CDLL(None, use_errno=True)
        self.calls = {"tee": system.tee, "splice": system.splice}
        whole, size, place = ctypes.c_int, ctypes.c_size_t, ctypes.c_void_p
        system.tee.argtypes = [whole, whole, size, ctypes.c_uint]
        system.splice.argtypes = [whole, place, whole, place, size, ctypes.c_uint]
        for call in self.calls.values():
            call.restype = ctypes.c_ssize_t
        self.source, self.sinks = source.fileno(), [sink.fileno() for sink in sinks]
        # All but the last sink have a pipe before them that is empty at each step, so
        # that it takes as much as there is.
        self.between = [os.pipe() for _ in sinks[1:]]
        holds = min((widen(out) for out, _ in self.between), default=BLOCK)
        if holds < widen(source):
            self.close()
            raise OSError(errno.EPERM, "pipes of this size aren't allowed")

    def call(self, name: str, *words: int | None) -> int:
        """Call the system, and give how many bytes went on."""
        given = int(self.calls[name](*words))
        if given < 0:
            number = ctypes.get_errno()
            raise OSError(number, os.strerror(number))
        return given

    def move(self, source: int, sink: int, size: int) -> None:
        """Move so many bytes from pipe to pipe."""
        while size:
            moved = self.call("splice", source, None, sink, None, size, 0)
            if not moved:
                raise OSError(errno.EIO, "a pipe ended early")
            size -= moved

    def step(self) -> int:
        """Hand on what there is, and give how many bytes that was; 0 at the end."""
        size = BLOCK
        for _, into in self.between:
            size = self.call("tee", self.source, into, size, 0)
            if not size:
                return 0
        if not self.between:
            return self.call("splice", self.source, None, self.sinks[-1], None, size, 0)
        self.move(self.source, self.sinks[-1], size)
        for (out, _), sink in zip(self.between, self.sinks):
            self.move(out, sink, size)
        return size

    def close(self) -> None:
        """Close the pipes between."""
        for pair in self.between:
            for one in pair:
                os.close(one)
        self.between = []


def way_between(source: RawIOBase, sinks: Sequence[IO[bytes]]) -> Way:
    """Give the way that copies nothing where the system has it, or else the other."""
    try:
        return Sharer(source, sinks)
    except (OSError, AttributeError):
        return Copier(source, sinks)


def hand_on(
    source: RawIOBase,
    sinks: Sequence[IO[bytes]],
    count: Callable[[int], None] | None = None,
) -> bool:
    """Copy a pipe to others until its end, and close all.

    The answer is whether all have all of it: else the process of one is gone, and tells
    why itself.
    """
    way = way_between(source, sinks)
    try:
        while size := way.step():
            if count:
                count(size)
        return True
    except BrokenPipeError:
        return False
    finally:
        way.close()
        source.close()
        for sink in sinks:
            sink.close()


class Thread(threading.Thread):
    """A thread whose answer, or what broke it, is had by `answer`."""

    def __init__(self, work: Callable[..., bool], *words: Any) -> None:
        super().__init__(daemon=True)
        self.work, self.words, self.given = work, words, False
        self.broken: BaseException | None = None
        self.start()

    def run(self) -> None:
        """Do the work."""
        try:
            self.given = self.work(*self.words)
        except BaseException as told:
            self.broken = told

    def answer(self) -> bool:
        """Wait for the answer of the work."""
        self.join()
        if self.broken:
            raise self.broken
        return self.given
