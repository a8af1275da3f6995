"""A night of recordings of some links, what a fleet makes of it, and what one process
of the program gives.
"""

from __future__ import annotations

import contextlib
import json
import os
import random
import subprocess
import tempfile
import time
from collections.abc import Callable, Iterator, Sequence
from typing import Any

from ..plain_model.traces import MAGIC, Record, spelled
from ..program_runner import PROGRAM, TOP
from ..runs import records_of


# The fleet, as it is called from the repository, and by which Python.
FLEET = ["/usr/bin/python3", "-m", "fgate.fleet"]
PACKET = 188
# A case gives a remark, or nothing.
Case = Callable[[], str | None]
CASES: list[Case] = []
Process = subprocess.Popen[bytes]


def environment() -> dict[str, str]:
    """That of a fleet: its package is found in the repository."""
    return {
        **os.environ,
        "PYTHONPATH": str(TOP / "python"),
        "PYTHONDONTWRITEBYTECODE": "1",
    }


class Trial:
    """What is tried: the program, as it is told when the trial begins."""

    program = PROGRAM


class Skipped(Exception):
    """The case can't be tried here."""


def case(run: Case) -> Case:
    CASES.append(run)
    return run


def wanted(what: object, told: str) -> None:
    if not what:
        raise AssertionError(told)


def same(found: object, expected: object, what: str) -> None:
    wanted(found == expected, f"{what}: {found!r:.300}, not {expected!r:.300}")


def fgate(*words: str, given: bytes = b"", cwd: str | None = None) -> bytes:
    ended = subprocess.run(
        [Trial.program, *words],
        input=given,
        stdout=subprocess.PIPE,
        stderr=subprocess.PIPE,
        check=False,
        cwd=cwd,
    )
    wanted(
        ended.returncode == 0,
        f"{words[0]} ended with {ended.returncode}: {ended.stderr.decode()}",
    )
    return ended.stdout


def trace_of(records: list[Record]) -> bytes:
    return MAGIC + spelled(records)


def link(flow: int, datagrams: int = 150, lost: int = 4) -> list[Record]:
    """The records of a link, from each hundred of which a few are lost."""
    draw = random.Random(flow)
    stream = b"".join(
        b"\x47\x01\x00"
        + bytes([0x10 + number % 16])
        + draw.getrandbits(8 * 184).to_bytes(184, "big")
        for number in range(datagrams)
    )
    trace = fgate(
        "encode",
        "columns=5",
        "rows=5",
        "packets=1",
        "rate=1000000",
        f"port={flow}",
        f"ssrc={flow}",
        given=stream,
    )
    return [
        one
        for number, one in enumerate(records_of(trace))
        if number == 0 or draw.random() * 100 >= lost
    ]


def in_time(links: list[list[Record]]) -> list[Record]:
    return sorted(
        (record for one in links for record in one), key=lambda record: record[0]
    )


def parts_of(records: list[Record], count: int) -> list[list[Record]]:
    return [
        records[len(records) * number // count : len(records) * (number + 1) // count]
        for number in range(count)
    ]


def one_process(
    records: list[Record], flows: list[int]
) -> dict[int, tuple[bytes, str]]:
    """Each flow's lane and lines of the report by the program over all records, as many
    flows at a time as it takes.
    """
    found: dict[int, tuple[bytes, str]] = {}
    for first in range(0, len(flows), 64):
        some = flows[first : first + 64]
        with tempfile.TemporaryDirectory() as folder:
            report = fgate(
                "repair",
                *(f"flow={flow}" for flow in some),
                "workers=0",
                given=trace_of(records),
                cwd=folder,
            ).decode()
            for flow in some:
                with open(os.path.join(folder, f"{flow}.ts"), "rb") as file:
                    lane = file.read()
                found[flow] = (
                    lane,
                    "".join(
                        line + "\n"
                        for line in report.splitlines()
                        if line.split()[1:2] == [f"{flow}"]
                        and line.split()[0] != "other"
                    ),
                )
    return found


class Night:
    """A folder with captures, a file of flows, and what a fleet makes of them."""

    def __init__(self, folder: str, flows: list[int], out: str | None = None) -> None:
        self.folder, self.flows, self.out = (
            folder,
            flows,
            out or os.path.join(folder, "out"),
        )
        self.captures, self.program = os.path.join(folder, "night"), Trial.program
        os.makedirs(self.captures)
        with open(os.path.join(folder, "flows"), "w", encoding="ascii") as file:
            file.write("# the night's links\n" + "".join(f"{flow}\n" for flow in flows))

    def keep(
        self, name: str, records: list[Record], as_trace: bool = False, less: int = 0
    ) -> str:
        """Keeps records as a capture, or a trace, of which the last bytes may be
        missing.
        """
        path = os.path.join(self.captures, name)
        os.makedirs(os.path.dirname(path), exist_ok=True)
        data = (
            trace_of(records) if as_trace else fgate("tocap", given=trace_of(records))
        )
        with open(path, "wb") as file:
            file.write(data[: len(data) - less])
        return path

    def keep_parts(self, records: list[Record], count: int = 3) -> None:
        for number, part in enumerate(parts_of(records, count)):
            self.keep(f"part-{number}.pcap", part)

    def words(self, *more: str, engine: Sequence[str] = ("--local", "2")) -> list[str]:
        return [
            *FLEET,
            *engine,
            "--flows",
            os.path.join(self.folder, "flows"),
            "--captures",
            self.captures,
            "--out",
            self.out,
            "--fgate",
            self.program,
            "--json",
            *more,
        ]

    def run(
        self,
        *more: str,
        engine: Sequence[str] = ("--local", "2"),
        under: Sequence[str] = (),
        **streams: Any,
    ) -> Ended:
        ended = subprocess.run(
            [*under, *self.words(*more, engine=engine)],
            stdout=subprocess.PIPE,
            stderr=subprocess.PIPE,
            check=False,
            timeout=300,
            env=environment(),
            **streams,
        )
        return Ended(ended.returncode, ended.stdout, ended.stderr)

    def start(
        self, *more: str, engine: Sequence[str] = ("--local", "2"), **streams: Any
    ) -> Process:
        return subprocess.Popen(
            self.words(*more, engine=engine),
            stdout=subprocess.PIPE,
            stderr=subprocess.PIPE,
            env=environment(),
            **streams,
        )

    def lane(self, flow: int, ending: str = "ts") -> bytes:
        with open(os.path.join(self.out, f"{flow}.{ending}"), "rb") as file:
            return file.read()

    def is_as(
        self, expected: dict[int, tuple[bytes, str]], flows: list[int] | None = None
    ) -> None:
        """Whether lanes and reports are those of one process, and nothing else lies
        about.
        """
        for flow in self.flows if flows is None else flows:
            lane, report = expected[flow]
            wanted(self.lane(flow) == lane, f"the lane of {flow} differs")
            same(self.lane(flow, "report").decode(), report, f"the report of {flow}")
        left = [
            os.path.join(folder, name)
            for folder, inner, names in os.walk(os.path.join(self.out, "work"))
            for name in [*inner, *names]
            if name.startswith(".")
        ]
        same(left, [], "what is left of tasks")

    def pieces(self) -> dict[str, int]:
        folder = os.path.join(self.out, "work/pieces")
        return {
            name: os.stat(os.path.join(folder, name)).st_ino
            for name in os.listdir(folder)
            if name.endswith(".trace")
        }


class Ended:
    """How a fleet ended, and what it told."""

    def __init__(self, status: int, told: bytes, errors: bytes) -> None:
        self.status, self.errors = status, errors.decode()
        self.told = [json.loads(line) for line in told.decode().splitlines()]

    def last(self) -> dict[str, Any]:
        wanted(
            self.told and "seconds" in self.told[-1],
            f"it has no last line: {self.errors[-500:]}",
        )
        last: dict[str, Any] = self.told[-1]
        return last

    def failed(self) -> list[Any]:
        return [
            one["failed"]
            for one in self.told
            if "failed" in one and isinstance(one["failed"], dict)
        ]

    def counts(self, *names: str) -> tuple[Any, ...]:
        return tuple(self.last()[name] for name in names)

    def is_well(self) -> None:
        same(
            (self.status, self.errors, self.failed()),
            (0, "", []),
            "status, errors and what failed",
        )


@contextlib.contextmanager
def a_night(flows: list[int], out: str | None = None) -> Iterator[Night]:
    with tempfile.TemporaryDirectory() as folder:
        yield Night(folder, flows, out)


def stalling(folder: str, command: str) -> str:
    """A program that stops in the middle of the first such command, until there is a
    file `go` or the folder is gone, and tells whose child it is in a file `worker`.
    """
    path = os.path.join(folder, "fgate")
    with open(path, "w", encoding="ascii") as file:
        file.write(
            f"""#!/bin/sh
if [ "$1" = {command} ] && [ "$2" != --help ] && mkdir {folder}/began 2> /dev/null; then
    worker=$PPID
    {{
        head -c 30000
        echo "$worker" > {folder}/told && mv {folder}/told {folder}/worker
        while [ -d {folder} ] && [ ! -e {folder}/go ]; do sleep 0.2; done
        cat
    }} | {Trial.program} "$@"
else
    exec {Trial.program} "$@"
fi
"""
        )
    os.chmod(path, 0o755)
    return path


def wrapped(folder: str, before: str) -> str:
    """A program that does this in a shell, and then is the one that is tried."""
    path = os.path.join(folder, "fgate")
    with open(path, "w", encoding="ascii") as file:
        file.write(f'#!/bin/sh\n{before}\nexec {Trial.program} "$@"\n')
    os.chmod(path, 0o755)
    return path


def read_when_there(path: str, seconds: float = 120) -> int:
    until = time.monotonic() + seconds
    while time.monotonic() < until:
        if os.path.exists(path):
            with open(path, encoding="ascii") as file:
                return int(file.read())
        time.sleep(0.05)
    raise AssertionError(
        f"there is no {os.path.basename(path)} after {seconds} seconds"
    )


def finished(process: Process, seconds: float = 240) -> Ended:
    told, errors = process.communicate(timeout=seconds)
    return Ended(process.returncode, told, errors)
