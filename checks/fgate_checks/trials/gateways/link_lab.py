"""Links to try a gateway on: made streams, senders, receivers and the gateway itself.
All is sent to addresses of this machine or of network namespaces that were made here.
"""

import collections
import contextlib
import json
import multiprocessing
import os
import re
import signal
import socket
import struct
import subprocess
import sys
import threading
import time
from collections.abc import Callable, Iterable, Sequence
from typing import Protocol, Any, IO, NamedTuple

from ..plain_model.traces import MAGIC, spelled
from ..program_runner import PROGRAM, TOP, error_of, output_of
from ..runs import records_of


GATEWAY = TOP / "gateway"
# The commands of the Python package, as they are called from the repository.
PYTHON = str(TOP / "python")
PACKET, PAYLOAD = 188, 7 * 188
PID, PMT_PID, NULL = 256, 4096, 0x1FFF
SECOND = 1_000_000_000
# Options of sockets that Python has no names for, and a time that the kernel tells.
RECEIVE_BUFFER_FORCE, TIMESTAMPS = 33, 35
STAMP = struct.Struct("qq")


class Trial:
    """What is tried: the program, as it is told when the trial begins."""

    program = PROGRAM


def command(module: str) -> list[str]:
    """The line that calls a command of the Python package."""
    return [sys.executable, "-m", f"fgate.{module}"]


def environment_of_commands() -> dict[str, str]:
    """The environment in which such a line finds the package."""
    return {**os.environ, "PYTHONPATH": PYTHON, "PYTHONDONTWRITEBYTECODE": "1"}


def checksum(section: bytes) -> bytes:
    """The CRC of a section."""
    left = 0xFFFFFFFF
    for byte in section:
        left ^= byte << 24
        for _ in range(8):
            left = (left << 1 ^ (0x04C11DB7 if left & 0x80000000 else 0)) & 0xFFFFFFFF
    return struct.pack(">I", left)


def table(pid: int, section: bytes) -> Callable[[int], bytes]:
    section += checksum(section)
    return lambda counter: (
        struct.pack(">BHBB", 0x47, 0x4000 | pid, 0x10 | counter, 0) + section
    ).ljust(PACKET, b"\xff")


PAT = table(0, struct.pack(">BHHBBBHH", 0, 0xB00D, 1, 0xC1, 0, 0, 1, 0xE000 | PMT_PID))
PMT = table(
    PMT_PID,
    struct.pack(
        ">BHHBBBHHBHH",
        2,
        0xB012,
        1,
        0xC1,
        0,
        0,
        0xE000 | PID,
        0xF000,
        0x06,
        0xE000 | PID,
        0xF000,
    ),
)


def made_stream(
    seconds: float, rate: float, start: float = 0.0, first: int = 0
) -> bytes:
    """A stream of this constant rate in bits a second, with a PCR every 20
    milliseconds. Each packet of PID 256 ends with its number, counted from `first`. Its
    clock begins at `start` seconds. It has a whole number of datagrams.
    """
    count = int(seconds * rate / 8 / PAYLOAD) * 7
    apart = max(1, int(0.02 * rate / 8 / PACKET))
    counters: collections.Counter[int] = collections.Counter()
    packets: list[bytes] = []
    filler = bytes(range(256))

    def counter(pid: int) -> int:
        counters[pid] += 1
        return (counters[pid] - 1) % 16

    for number in range(count):
        place = number % (5 * apart)
        if place in (1, 2):
            pid, make = ((0, PAT), (PMT_PID, PMT))[place - 1]
            packets.append(make(counter(pid)))
            continue
        tail = struct.pack(">Q", first + number)
        if number % apart == 0:
            clock = int((start + number * PACKET * 8 / rate) * 27_000_000)
            base, more = clock // 300 % 2**33, clock % 300
            field = struct.pack(
                ">BBIH", 7, 0x10, base >> 1, (base & 1) << 15 | 0x7E00 | more
            )
            head = struct.pack(">BHB", 0x47, PID, 0x30 | counter(PID)) + field
        else:
            head = struct.pack(">BHB", 0x47, PID, 0x10 | counter(PID))
        packets.append(head + filler[number % 64 :][: PACKET - len(head) - 8] + tail)
    return b"".join(packets)


def packets_of(stream: bytes) -> list[bytes]:
    return [stream[at : at + PACKET] for at in range(0, len(stream), PACKET)]


def without_nulls(stream: bytes) -> bytes:
    """The stream without null packets, which pacing may add."""
    return b"".join(one for one in packets_of(stream) if one[1:3] != b"\x1f\xff")


class Record(NamedTuple):
    """A datagram, the port on which it comes, and when, in seconds."""

    at: float
    port: int
    datagram: bytes


def trace_of(records: Iterable[Record]) -> bytes:
    """The trace of these records."""
    spell = ((int(one.at * 1e9) // 1000, one.port, one.datagram) for one in records)
    return MAGIC + spelled(spell)


def encoded(
    stream: bytes,
    flow: int,
    rate: float,
    columns: int = 10,
    rows: int = 10,
    **words: Any,
) -> list[Record]:
    """The datagrams of a stream with parity, by the program."""
    ended = subprocess.run(
        [
            Trial.program,
            "encode",
            f"columns={columns}",
            f"rows={rows}",
            f"rate={rate}",
            f"port={flow}",
            *(f"{name}={value}" for name, value in words.items()),
        ],
        input=stream,
        capture_output=True,
        check=True,
    )
    return [
        Record(at / 1_000_000, port, datagram)
        for at, port, datagram in records_of(ended.stdout)
    ]


def later(records: list[Record], seconds: float) -> list[Record]:
    return [one._replace(at=one.at + seconds) for one in records]


def send(
    records: list[Record],
    to: str = "127.0.0.1",
    interface: str | None = None,
    starts_at: float | None = None,
    stamps: Any = None,
) -> None:
    """Sends the records when they are due. Into `stamps`, an array, goes the nanosecond
    at which each was sent.
    """
    with socket.socket(socket.AF_INET, socket.SOCK_DGRAM) as sender:
        if interface:
            sender.setsockopt(
                socket.IPPROTO_IP, socket.IP_MULTICAST_IF, socket.inet_aton(interface)
            )
            sender.setsockopt(socket.IPPROTO_IP, socket.IP_MULTICAST_LOOP, 1)
        starts_at = starts_at or time.monotonic()
        for number, (at, port, datagram) in enumerate(records):
            left = starts_at + at - time.monotonic()
            if left > 0.001:
                time.sleep(left)
            if stamps is not None:
                stamps[number] = time.time_ns()
            sender.sendto(datagram, (to, port))


class Sender:
    """A process that sends records."""

    def __init__(self, records: list[Record], **more: Any) -> None:
        self.stamps = multiprocessing.get_context("fork").Array(
            "q", len(records), lock=False
        )
        self.process = multiprocessing.get_context("fork").Process(
            target=send, args=(records,), kwargs={**more, "stamps": self.stamps}
        )
        self.process.start()

    def wait(self) -> None:
        self.process.join()

    def end(self) -> None:
        self.process.kill()
        self.process.join()


class Datagrams(Protocol):
    """What takes a receiver's datagrams one by one, as a list does."""

    def append(self, datagram: bytes, /) -> None:
        """Takes the next one."""


class Receiver:
    """A thread that receives on a port: the payload of each datagram, and the
    nanosecond of its arrival.
    """

    def __init__(
        self,
        port: int,
        host: str = "127.0.0.1",
        is_rtp: bool = False,
        group: str | None = None,
        interface: str = "127.0.0.1",
    ) -> None:
        self.one = socket.socket(socket.AF_INET, socket.SOCK_DGRAM)
        try:
            self.one.setsockopt(socket.SOL_SOCKET, RECEIVE_BUFFER_FORCE, 64 << 20)
        except PermissionError:
            self.one.setsockopt(socket.SOL_SOCKET, socket.SO_RCVBUF, 64 << 20)
        self.one.setsockopt(socket.SOL_SOCKET, TIMESTAMPS, 1)
        if group:
            self.one.setsockopt(
                socket.IPPROTO_IP,
                socket.IP_ADD_MEMBERSHIP,
                socket.inet_aton(group) + socket.inet_aton(interface),
            )
        self.one.bind((group or host, port))
        self.one.settimeout(0.1)
        self.skip, self.is_open = 12 if is_rtp else 0, True
        self.stamps: list[int] = []
        self.payloads: list[bytes] = []
        self.taker: Datagrams = self.payloads
        self.sources: set[object] = set()
        self.thread = threading.Thread(target=self._receive, daemon=True)
        self.thread.start()

    def _receive(self) -> None:
        while self.is_open:
            try:
                datagram, notes, _, source = self.one.recvmsg(65535, 64)
            except socket.timeout:
                continue
            seconds, rest = STAMP.unpack_from(notes[0][2])
            self.stamps.append(seconds * SECOND + rest)
            self.taker.append(datagram[self.skip :])
            self.sources.add(datagram[8:12] if self.skip else source)

    def stream(self) -> bytes:
        return b"".join(self.payloads)

    def close(self) -> bytes:
        self.is_open = False
        self.thread.join()
        self.one.close()
        return self.stream()


def is_ready(told: dict[str, Any]) -> bool:
    """Whether an object that is told says that the gateway waits for what comes."""
    return told.get("event") == "ready"


class Gateway:
    """A gateway on its way, with all that it tells."""

    def __init__(
        self,
        *words: str,
        under: Sequence[str] = (),
        environment: dict[str, str] | None = None,
    ) -> None:
        self.said: list[str] = []
        self.lock = threading.Lock()
        self.process = subprocess.Popen(
            [
                *under,
                sys.executable,
                str(GATEWAY / "gateway"),
                "--fgate",
                Trial.program,
                "--json",
                *words,
            ],
            stdout=subprocess.PIPE,
            stderr=subprocess.PIPE,
            env={**os.environ, **(environment or {})},
        )
        self.errors: list[str] = []
        self.threads = [
            threading.Thread(target=self._hear, args=it, daemon=True)
            for it in (
                (output_of(self.process), self.said),
                (error_of(self.process), self.errors),
            )
        ]
        for one in self.threads:
            one.start()

    @staticmethod
    def _hear(pipe: IO[bytes], into: list[str]) -> None:
        for line in pipe:
            into.append(line.decode(errors="replace").rstrip("\n"))

    def told(self) -> list[Any]:
        return [json.loads(line) for line in list(self.said)]

    def wait_for(self, what: Callable[[Any], bool], seconds: float = 10) -> Any:
        """The first object told that `what` is true of, or None."""
        until = time.monotonic() + seconds
        while time.monotonic() < until:
            for one in self.told():
                if what(one):
                    return one
            if self.process.poll() is not None and not any(
                one.is_alive() for one in self.threads
            ):
                return None
            time.sleep(0.05)
        return None

    def wait_until_ready(self, seconds: float = 60) -> bool:
        """All parts wait for what comes: the recorders, and the outputs too, which take
        some time to start.
        """
        ready = self.wait_for(is_ready, seconds)
        time.sleep(1)
        return ready is not None

    def events(self, flow: int | None = None) -> list[str]:
        return [
            one["event"]
            for one in self.told()
            if "event" in one and (flow is None or one.get("flow") == flow)
        ]

    def reports(self, flow: int) -> list[Any]:
        return [
            one["report"]["flows"][0]
            for one in self.told()
            if "report" in one and one["flow"] == flow
        ]

    def counts(self, flow: int) -> dict[str, Any]:
        """The last that were told of the flow."""
        found: dict[str, Any] = {}
        for one in self.told():
            if one.get("flow") == flow and "in" in one:
                found = one
        return found

    def ask(self) -> None:
        """Has it tell the counts of all flows."""
        before = sum("in" in one for one in self.told())
        self.process.send_signal(signal.SIGUSR1)
        until = time.monotonic() + 5
        while (
            time.monotonic() < until
            and sum("in" in one for one in self.told()) == before
        ):
            time.sleep(0.02)
        time.sleep(0.05)

    def end(self, number: int = signal.SIGTERM, seconds: float = 30) -> int | None:
        """Its status after this signal, or None where it doesn't end."""
        if self.process.poll() is None:
            self.process.send_signal(number)
        try:
            status = self.process.wait(seconds)
        except subprocess.TimeoutExpired:
            self.process.kill()
            self.process.wait()
            status = None
        for one in self.threads:
            one.join(5)
        return status

    def parts(self, name: str | None = None) -> list[int]:
        """The processes that it and its parts have started, by id; those whose command
        line has this name.
        """
        found: list[int] = []
        children: dict[int, list[int]] = collections.defaultdict(list)
        for one in filter(str.isdigit, os.listdir("/proc")):
            with contextlib.suppress(OSError):
                with open(
                    f"/proc/{one}/stat", encoding="ascii", errors="replace"
                ) as file:
                    children[int(file.read().rpartition(")")[2].split()[1])].append(
                        int(one)
                    )
        waiting = [self.process.pid]
        while waiting:
            for child in children[waiting.pop()]:
                waiting.append(child)
                found.append(child)
        return [one for one in found if name is None or name in command_line(one)]


def command_line(process: int) -> str:
    with contextlib.suppress(OSError):
        with open(f"/proc/{process}/cmdline", "rb") as file:
            return file.read().replace(b"\0", b" ").decode(errors="replace")
    return ""


def processor_seconds(processes: Iterable[int]) -> float:
    """The processor time of these processes so far, and of what they waited for."""
    total = 0
    for one in processes:
        with contextlib.suppress(OSError):
            with open(f"/proc/{one}/stat", encoding="ascii", errors="replace") as file:
                total += sum(map(int, file.read().rpartition(")")[2].split()[11:15]))
    return total / os.sysconf("SC_CLK_TCK")


def memory(processes: Iterable[int]) -> int:
    """The memory of these processes in bytes."""
    total = 0
    for one in processes:
        with contextlib.suppress(OSError):
            with open(
                f"/proc/{one}/status", encoding="ascii", errors="replace"
            ) as file:
                total += (
                    sum(
                        int(size) for size in re.findall(r"VmRSS:\s*(\d+)", file.read())
                    )
                    * 1024
                )
    return total


def faults(stream: bytes) -> tuple[int | None, int | None]:
    """What `monitor` says of a stream: its packets and faults."""
    ended = subprocess.run(
        [Trial.program, "monitor"], input=stream, capture_output=True, check=False
    )
    words = ended.stdout.split()
    return (int(words[-3]), int(words[-1])) if ended.returncode == 0 else (None, None)
