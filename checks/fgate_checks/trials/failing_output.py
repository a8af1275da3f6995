"""An outside that fails while the program writes: full devices, pipes without a reader,
and standard streams that are closed.
"""

import os
import shutil
import subprocess
from collections.abc import Callable
from pathlib import Path

from .failing_input import READ_FAULT, READ_NOTHING, WRITE_FAULT
from .plain_model.traces import Answer
from .program_runner import lanes_of, output_of
from .runs import Allowed, Calls, runs, whole_of


# What a pipe and a buffer of the program may hold, so that a write fault isn't seen.
HELD = 65536 + 65536


def writes(calls: Calls) -> None:
    for command, (words, data) in runs(large=True).items():
        whole = whole_of(words, data)
        refused_writes(calls, command, words, data, whole)
        readers_that_go(calls, command, words, data, whole)
    told = Answer(0, "", b"fgate", {})
    refused_writes(calls, "help", ["--help"], b"", told)
    full_standard_error(calls)


def refused_writes(
    calls: Calls, command: str, words: list[str], data: bytes, whole: Answer
) -> None:
    """Standard outputs of which each write fails."""
    receiver, unread = os.pipe()
    os.close(receiver)
    for name, sink in [
        ("a full device", os.open("/dev/full", os.O_WRONLY)),
        ("a descriptor for reading alone", os.open("/dev/null", os.O_RDONLY)),
        ("a pipe without a reader", unread),
    ]:
        calls.begin()
        ended = calls.call(words, data, stdout=sink)
        os.close(sink)
        # A sample writes its first line before it makes its lane.
        calls.judge(
            f"{command} to {name}",
            ended,
            whole,
            [WRITE_FAULT],
            lanes_whole=command != "sample",
            out=False,
        )


def readers_that_go(
    calls: Calls, command: str, words: list[str], data: bytes, whole: Answer
) -> None:
    """Standard output is a pipe whose reader goes after so many bytes."""
    out = whole.out or b""
    for size in [1, 100, 5000, 100_000]:
        calls.begin()
        with calls.input_of(data) as source:
            child = calls.start(words, stdin=source, stdout=subprocess.PIPE)
        told = b""
        reader = output_of(child)
        while piece := os.read(reader.fileno(), size - len(told)):
            told += piece
            if len(told) == size:
                break
        reader.close()
        ended = calls.end(child, told)
        allowed: list[Allowed] = [WRITE_FAULT]
        if size + HELD > len(out):
            allowed.append(None)
        if ended.status == whole.status and out.startswith(told):
            ended = ended._replace(out=out)
        calls.judge(
            f"{command} to a pipe whose reader goes after {size}",
            ended,
            whole,
            allowed,
            lanes_whole=command != "sample",
        )


def full_standard_error(calls: Calls) -> None:
    """Standard error is a full device, and the status tells what the line can't."""
    cases: list[tuple[str, list[str], bytes, int]] = [
        ("words", ["repair"], b"", 1),
        ("a trace", ["repair", "flow=5000"], b"FECTRAC2", 4),
    ]
    with open("/dev/full", "wb") as full:
        for name, words, data, status in cases:
            calls.begin()
            ended = calls.call(words, data, stderr=full)
            calls.judge(
                f"{name} with standard error on a full device",
                ended,
                whole_of(words, data),
                [(status, "")],
                err=False,
            )


def closing(numbers: list[int]) -> Callable[[], None]:
    """What a child does before it is the program: closes these descriptors."""

    def close() -> None:
        for number in numbers:
            os.close(number)

    return close


def closed(calls: Calls) -> None:
    for command, (words, data) in [
        *runs(large=True).items(),
        ("bad words", (["repair", "flow=0"], b"")),
    ]:
        for streams_closed in [[0], [1], [2], [0, 1], [0, 2], [1, 2], [0, 1, 2]]:
            whole = whole_of(words, data)
            # A closed input can't be read, and a closed output is a write fault where
            # something is written to it.
            reads = command not in (*READ_NOTHING, "bad words")
            unread = 0 in streams_closed and reads
            unwritten = 1 in streams_closed and bool(whole.out)
            fault = READ_FAULT if unread else WRITE_FAULT if unwritten else None
            calls.begin()
            ended = calls.call(words, data, preexec_fn=closing(streams_closed))
            calls.judge(
                f"{command} with {streams_closed} closed",
                ended,
                whole,
                [fault],
                lanes_whole=command != "sample" and not unread,
                out=1 not in streams_closed,
                err=2 not in streams_closed,
            )
    if os.getuid() == 0:
        without_null(calls)


def without_null(calls: Calls) -> None:
    """In a bare folder that a child takes for the whole file system there is no
    /dev/null and no /proc. There a closed input is a read fault too, and a lane that is
    there already a write fault, since it may be the input.
    """
    calls.begin()
    libraries = subprocess.run(
        ["ldd", calls.program], check=True, capture_output=True, text=True
    ).stdout.split()
    for path in [calls.program, *(word for word in libraries if word.startswith("/"))]:
        there = calls.folder + (path if path != calls.program else "/fgate")
        os.makedirs(os.path.dirname(there), exist_ok=True)
        shutil.copy(path, there)

    def enter(closes: bool) -> Callable[[], None]:
        def change() -> None:
            os.chroot(calls.folder)
            if closes:
                os.close(0)

        return change

    for command, (words, data) in runs(large=False).items():
        whole = whole_of(words, data)
        for closes in (False, True):
            for lane in lanes_of(calls.folder)[0]:
                os.remove(os.path.join(calls.folder, f"{lane}.ts"))
            with calls.input_of(data) as source:
                child = calls.start(
                    words, executable="/fgate", stdin=source, preexec_fn=enter(closes)
                )
            calls.judge(
                f"{command} without /dev/null{', input closed' if closes else ''}",
                calls.end(child),
                whole,
                [READ_FAULT if closes and command not in READ_NOTHING else None],
            )
    own_lane(calls, enter(False))


def own_lane(calls: Calls, enter: Callable[[], None]) -> None:
    """Where no stream can be told a lane that is the input is left as it is."""
    words, data = runs(large=False)["repair"]
    whole = whole_of(words, data)
    own = Path(calls.folder) / f"{min(whole.lanes)}.ts"
    own.write_bytes(data)
    with open(own, "rb") as source:
        child = calls.start(words, executable="/fgate", stdin=source, preexec_fn=enter)
        ended = calls.end(child)
    # The file there is the input, so it is no beginning of a lane.
    is_kept = ended.lanes.pop(min(whole.lanes), None) == data
    allowed: list[Allowed] = [WRITE_FAULT] if is_kept else []
    name = "repair of its own lane without /proc"
    calls.judge(name, ended, whole, allowed, lanes=False)
