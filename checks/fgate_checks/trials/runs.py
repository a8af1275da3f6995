"""For each command words and an input, and calls of the program that are judged by the
model.
"""

import os
import random
import subprocess
from collections.abc import Sequence
from typing import IO, Any

from .plain_model.captures import to_capture
from .plain_model.commands import answer
from .plain_model.datagrams import PACKET
from .plain_model.encodings import SAMPLED, encode, payloads_of
from .plain_model.traces import DONE, MAGIC, Answer, Record, read_trace, spelled
from .program_runner import Ended, SECONDS, empty, lanes_of, read_file, wait_for


# The status of a run that ended, and its line on standard error; None stands for those
# of the whole run.
Allowed = tuple[int, str] | None
# The words of a command and its input.
Run = tuple[list[str], bytes]


def records_of(trace: bytes) -> list[Record]:
    """The records of a whole trace."""
    return read_trace(trace, len(trace))[0] or []


def streams() -> tuple[bytes, bytes]:
    """A large stream and a small one, of packets whose counters go on."""
    draw = random.Random(2022)
    packets = [
        bytes([0x47, 1, 0, 0x10 + number % 16]) + draw.randbytes(184)
        for number in range(7 * 400)
    ]
    return b"".join(packets), b"".join(packets[:15])


def trace_of(stream: bytes, ports: list[int], packets: int, lost: int) -> bytes:
    """The encodings of a stream on some ports, record by record, without those whose
    number is a multiple of `lost`.
    """
    asked = {**SAMPLED, "columns": 4, "rows": 5, "packets": packets}
    payloads, _ = payloads_of(stream, packets * PACKET, len(stream))
    flows = [encode(payloads, {**asked, "port": port}) for port in ports]
    records = [record for together in zip(*flows) for record in together]
    return MAGIC + spelled(
        record for number, record in enumerate(records) if number == 0 or number % lost
    )


def runs(large: bool) -> dict[str, Run]:
    """For each command its words and input."""
    stream = streams()[0 if large else 1]
    trace = trace_of(stream, [5000, 6000], 7 if large else 1, 13)
    capture, _ = to_capture(records_of(trace), DONE)
    broken = b"".join(stream[at : at + 188] for at in range(0, len(stream), 2 * 188))
    gaps = trace_of(stream, [5000], 7 if large else 1, 3)
    prove = ["prove", "flow=5000", "window=20", "depth=60"]
    return {
        "repair": (
            ["repair", "flow=5000", "flow=6000", "window=20", "depth=60"],
            trace,
        ),
        "drill": (
            ["drill", "columns=4", "rows=5", "every=13", "window=20", "depth=60"],
            stream,
        ),
        "sample": (["sample", "seed=3", f"datagrams={400 if large else 3}"], b""),
        "encode": (
            ["encode", "columns=4", "rows=5", f"packets={7 if large else 1}"],
            stream,
        ),
        "inspect": (["inspect", "flow=5000"], trace),
        "fromcap": (["fromcap"], capture),
        "tocap": (["tocap"], trace),
        "monitor": (["monitor"], broken),
        "prove": (prove, gaps),
        "check": (["check"], whole_of(prove, gaps).out or b""),
        "plan": (["plan", "burst=5", "most=20"], b""),
    }


def whole_of(words: list[str], data: bytes) -> Answer:
    return answer([word.encode() for word in words], data)


class Calls:
    """Runs cases in a folder, and counts those that are right."""

    def __init__(self, program: str, work: str) -> None:
        self.program, self.folder = program, os.path.join(work, "folder")
        self.work, self.passed, self.failed = work, 0, 0

    def path(self, name: str) -> str:
        return os.path.join(self.work, name)

    def begin(self) -> None:
        empty(self.folder)

    def start(
        self, words: list[str], **streams_and_more: Any
    ) -> subprocess.Popen[bytes]:
        """The program on its way, with /dev/null and files for the standard streams
        that aren't told.
        """
        given: dict[str, Any] = {
            "stdin": subprocess.DEVNULL,
            "cwd": self.folder,
            "bufsize": 0,
            **streams_and_more,
        }
        opened = []
        for name in ("stdout", "stderr"):
            open(self.path(name), "wb").close()
            if name not in given:
                opened.append(open(self.path(name), "wb"))
                given[name] = opened[-1]
        child: subprocess.Popen[bytes] = subprocess.Popen(
            [self.program, *words], **given
        )
        for file in opened:
            file.close()
        return child

    def end(self, child: subprocess.Popen[bytes], out: bytes | None = None) -> Ended:
        """What the run left; `out` is standard output where it was no file."""
        status = wait_for(child, SECONDS)
        told = read_file(self.path("stdout")) if out is None else out
        there = os.path.isdir(self.folder)
        lanes, others = lanes_of(self.folder) if there else ({}, [])
        return Ended(status, read_file(self.path("stderr")), told, lanes, others, None)

    def input_of(self, data: bytes) -> IO[bytes]:
        """A file with the data, open for reading."""
        with open(self.path("input"), "wb") as file:
            file.write(data)
        return open(self.path("input"), "rb")

    def call(self, words: list[str], data: bytes = b"", **more: Any) -> Ended:
        with self.input_of(data) as source:
            return self.end(self.start(words, stdin=source, **more))

    def judge(
        self,
        name: str,
        ended: Ended,
        whole: Answer,
        allowed: Sequence[Allowed],
        lanes_whole: bool = False,
        out: bool = True,
        err: bool = True,
        lanes: bool = True,
    ) -> None:
        """Counts a case. `allowed` are the statuses with their lines, and None stands
        for those of the whole run. Without `out`, `err` or `lanes` these can't be seen.
        """
        wrong = []
        if not is_allowed(ended, whole, allowed, err):
            wrong.append(f"status {ended.status} with {ended.err!r}")
        if out and not is_output(ended, whole):
            wrong.append("standard output")
        if lanes:
            wrong += wrong_lanes(ended, whole, lanes_whole, out)
        if any(
            not whole.lanes.get(port, b"").startswith(lane) or port not in whole.lanes
            for port, lane in ended.lanes.items()
        ):
            wrong.append("a lane that is no beginning")
        if wrong:
            self.failed += 1
            print(f"{name}: WRONG, {', '.join(wrong)}", flush=True)
        else:
            self.passed += 1


def is_allowed(
    ended: Ended, whole: Answer, allowed: Sequence[Allowed], err: bool
) -> bool:
    """Whether the status is one of those that are allowed, with its line."""
    endings = [(whole.status, whole.line) if one is None else one for one in allowed]
    return any(
        ended.status == status and (not err or ended.err == line.encode())
        for status, line in endings
    )


def is_output(ended: Ended, whole: Answer) -> bool:
    """Whether standard output is that of the whole run, or where the run ended
    otherwise a beginning of it.
    """
    wanted = whole.out or b""
    if ended.status == whole.status:
        return ended.out == wanted
    return wanted.startswith(ended.out)


def wrong_lanes(ended: Ended, whole: Answer, lanes_whole: bool, out: bool) -> list[str]:
    """What is wrong with the lanes as a whole: that they aren't, though the run was or
    they have to be, or though a report is begun.
    """
    if ended.lanes == whole.lanes:
        return []
    wrong = []
    if ended.status == whole.status or lanes_whole:
        wrong.append("a lane that isn't whole")
    report = (whole.out or b"").find(b"flow ")
    if out and whole.lanes and ended.out[report:] and len(ended.out) > report:
        wrong.append("a report before the lanes are whole")
    return wrong
