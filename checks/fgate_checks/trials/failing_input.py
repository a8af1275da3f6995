"""An outside that fails while the program reads: input that ends, breaks off or can't
be read.
"""

import array
import fcntl
import os
import socket
import struct
import subprocess
import termios
import threading
import time
from collections.abc import Sequence

from .plain_model.traces import Answer
from .program_runner import input_of
from .runs import Allowed, Calls, runs, whole_of


READ_FAULT, WRITE_FAULT = (2, "read fault\n"), (3, "write fault\n")
READ_NOTHING = ("sample", "plan")


def places_of(data: bytes) -> list[int]:
    """The lengths at which an input is cut: those of its first bytes, some all over,
    and the last.
    """
    return sorted(
        {
            *range(0, min(len(data), 60)),
            *range(0, len(data), 37),
            max(0, len(data) - 1),
            len(data),
        }
    )


def ends(calls: Calls) -> None:
    for command, (words, data) in runs(large=False).items():
        for place in places_of(data):
            whole = whole_of(words, data[:place])
            calls.begin()
            calls.judge(
                f"{command} cut at {place}",
                calls.call(words, data[:place]),
                whole,
                [None],
            )
        for place in places_of(data)[::9]:
            whole = whole_of(words, data[:place])
            calls.begin()
            child = calls.start(words, stdin=subprocess.PIPE)
            # An input that no command reads is left in the pipe.
            pipe = input_of(child)
            pipe.write(data[:place])
            pipe.close()
            calls.judge(
                f"{command} from a pipe closed at {place}",
                calls.end(child),
                whole,
                [None],
            )


def broken_connection(data: bytes) -> socket.socket | None:
    """A connection from which this data can be read, and then nothing but an error."""
    listener = socket.create_server(("127.0.0.1", 0))
    sender = socket.create_connection(listener.getsockname())
    receiver, _ = listener.accept()
    listener.close()
    # All of it has to stand in the receiver's buffer before the connection is reset.
    waiting = memoryview(data)
    sender.setblocking(False)
    there = array.array("i", [0])
    ends = time.monotonic() + 5
    while there[0] < len(data) and time.monotonic() < ends:
        try:
            waiting = waiting[sender.send(waiting) :] if waiting else waiting
        except BlockingIOError:
            pass
        fcntl.ioctl(receiver.fileno(), termios.FIONREAD, there)
    sender.setsockopt(socket.SOL_SOCKET, socket.SO_LINGER, struct.pack("ii", 1, 0))
    sender.close()
    return receiver if there[0] == len(data) else None


def reads(calls: Calls) -> None:
    for command, (words, data) in runs(large=True).items():
        whole = whole_of(words, data)
        fault: list[Allowed] = [None if command in READ_NOTHING else READ_FAULT]
        calls.begin()
        folder = os.open("/", os.O_RDONLY)
        calls.judge(
            f"{command} on a folder",
            calls.end(calls.start(words, stdin=folder)),
            whole,
            fault,
        )
        os.close(folder)
        calls.begin()
        with open(calls.path("unread"), "wb") as unread:
            calls.judge(
                f"{command} on a descriptor for writing alone",
                calls.end(calls.start(words, stdin=unread)),
                whole,
                fault,
            )
        breaks(
            calls, command, words, data, [0, 1, 8, 24, 300, 1500, 20_000, 60_000], fault
        )
        slow_pipes(calls, command, words, data, whole)
    for command, (words, data) in runs(large=False).items():
        if command not in READ_NOTHING:
            breaks(
                calls,
                f"small {command}",
                words,
                data,
                places_of(data)[::3],
                [READ_FAULT],
            )


def breaks(
    calls: Calls,
    name: str,
    words: list[str],
    data: bytes,
    sizes: Sequence[int],
    allowed: Sequence[Allowed],
) -> None:
    """The words on connections that break off after so many bytes."""
    whole = whole_of(words, data)
    for size in sizes:
        receiver = broken_connection(data[:size])
        if receiver is None:
            print(f"{name} on a connection that breaks at {size}: left out")
            continue
        calls.begin()
        ended = calls.end(calls.start(words, stdin=receiver))
        receiver.close()
        calls.judge(
            f"{name} on a connection that breaks at {size}", ended, whole, allowed
        )


def slow_pipes(
    calls: Calls, command: str, words: list[str], data: bytes, whole: Answer
) -> None:
    """Standard input and output are pipes that don't block, to a slow other end."""
    calls.begin()
    (source, sender), (receiver, sink) = os.pipe(), os.pipe()
    os.set_blocking(source, False)
    os.set_blocking(sink, False)
    child = calls.start(words, stdin=source, stdout=sink)
    os.close(source)
    os.close(sink)

    def send() -> None:
        try:
            for at in range(0, len(data), 30_000):
                time.sleep(0.002)
                os.write(sender, data[at : at + 30_000])
        except BrokenPipeError:
            pass
        os.close(sender)

    thread = threading.Thread(target=send)
    thread.start()
    told = b""
    while piece := os.read(receiver, 9000):
        told += piece
        time.sleep(0.001)
    thread.join()
    os.close(receiver)
    calls.judge(
        f"{command} on pipes that don't block", calls.end(child, told), whole, [None]
    )
