"""Runs a built program in a folder of its own and gathers all that it leaves."""

import argparse
import array
import contextlib
import fcntl
import os
import shlex
import shutil
import signal
import subprocess
import tempfile
import termios
import time
from collections.abc import Iterator
from pathlib import Path
from typing import IO, NamedTuple, TypeVar


TOP = Path(__file__).resolve().parents[3]
PROGRAM = str(TOP / "crates/fgate/out/fgate")
SECONDS = 60
Lanes = dict[int, bytes]


def add_program(words: argparse.ArgumentParser) -> None:
    """Lets the program be told that a trial calls."""
    words.add_argument(
        "--program",
        default=PROGRAM,
        help="the program that is tried, crates/fgate/out/fgate where none is told",
    )


# What a pipe of a child has.
Text = TypeVar("Text", bytes, str)


class Ended(NamedTuple):
    """What a run left. The status is minus the signal where one ended it, and None
    where the time limit did. Lanes are by port, and `others` the names of whatever else
    is in the folder. `peak` is the most memory in bytes that was seen, or None.
    """

    status: int | None
    err: bytes
    out: bytes
    lanes: Lanes
    others: list[str]
    peak: int | None


def work_folder() -> tempfile.TemporaryDirectory[str]:
    """A new folder, in memory where there is one."""
    shared = "/dev/shm" if os.path.isdir("/dev/shm") else None
    return tempfile.TemporaryDirectory(dir=shared)


def empty(folder: str) -> None:
    shutil.rmtree(folder, ignore_errors=True)
    os.mkdir(folder)


def lanes_of(folder: str) -> tuple[Lanes, list[str]]:
    """The lanes in the folder by port, and the names of all else."""
    lanes: Lanes = {}
    others: list[str] = []
    for name in sorted(os.listdir(folder)):
        path, port = os.path.join(folder, name), name[:-3]
        if name.endswith(".ts") and port.isdigit() and os.path.isfile(path):
            with open(path, "rb") as file:
                lanes[int(port)] = file.read()
        else:
            others.append(name)
    return lanes, others


def read_file(path: str) -> bytes:
    with open(path, "rb") as file:
        return file.read()


def command_line(program: str, words: list[bytes]) -> str:
    """The words as a shell takes them, also where they are no text."""

    def quoted(word: bytes) -> str:
        text = word.decode("latin-1")
        if text.isascii():
            return shlex.quote(text)
        return (
            "$'"
            + "".join(
                f"\\x{byte:02x}"
                if byte > 126 or byte < 32 or byte in b"'\\"
                else chr(byte)
                for byte in word
            )
            + "'"
        )

    return " ".join([shlex.quote(program), *map(quoted, words)])


@contextlib.contextmanager
def time_limit(child: subprocess.Popen[bytes], seconds: int) -> Iterator[list[None]]:
    """Kills the child once so many seconds are over, and gives a list that then has as
    many ticks. They are counted one by one, so those in which this script is stopped
    itself don't count.
    """
    ticks: list[None] = []

    def tick(*_: object) -> None:
        ticks.append(None)
        if len(ticks) == seconds and child.returncode is None:
            os.kill(child.pid, signal.SIGKILL)

    old = signal.signal(signal.SIGALRM, tick)
    signal.setitimer(signal.ITIMER_REAL, 1, 1)
    try:
        yield ticks
    finally:
        signal.setitimer(signal.ITIMER_REAL, 0)
        signal.signal(signal.SIGALRM, old)


def wait_for(child: subprocess.Popen[bytes], seconds: int) -> int | None:
    """The child's status as `Ended` has it. It is killed after so many seconds."""
    with time_limit(child, seconds) as ticks:
        child.wait()
    return None if len(ticks) >= seconds else child.returncode


def peak_now(pid: int) -> int | None:
    """The most memory that a process has had so far, or None where it has ended."""
    try:
        with open(f"/proc/{pid}/status", encoding="ascii") as file:
            sizes = [line.split()[1] for line in file if line.startswith("VmHWM")]
    except OSError:
        return None
    return int(sizes[0]) * 1024 if sizes else None


class Pieces(NamedTuple):
    """How data goes into a pipe: in pieces of this size, and whether each is waited for
    until it is read.
    """

    size: int
    waits: bool


def input_of(child: subprocess.Popen[bytes]) -> IO[bytes]:
    """The pipe that is a child's standard input."""
    assert child.stdin is not None
    return child.stdin


def output_of(child: subprocess.Popen[Text]) -> IO[Text]:
    """The pipe that is a child's standard output."""
    assert child.stdout is not None
    return child.stdout


def error_of(child: subprocess.Popen[Text]) -> IO[Text]:
    """The pipe that is a child's standard error."""
    assert child.stderr is not None
    return child.stderr


def await_reading(child: subprocess.Popen[bytes]) -> None:
    """Waits until the child has read all that is in its pipe, or has ended."""
    left = array.array("i", [1])
    while left[0] and child.poll() is None:
        fcntl.ioctl(input_of(child).fileno(), termios.FIONREAD, left)
        time.sleep(0.0003)


def put(pipe: int, data: bytes) -> None:
    left = memoryview(data)
    while left:
        left = left[os.write(pipe, left) :]


def feed(child: subprocess.Popen[bytes], data: bytes, pieces: Pieces) -> int | None:
    """Writes the data to the child in pieces. It gives the child's peak once all is
    read, while it waits for more.
    """
    try:
        for at in range(0, len(data), pieces.size):
            put(input_of(child).fileno(), data[at : at + pieces.size])
            if pieces.waits:
                await_reading(child)
        await_reading(child)
        return peak_now(child.pid)
    except BrokenPipeError:
        return None
    finally:
        input_of(child).close()


def clear(folder: str) -> None:
    with os.scandir(folder) as entries:
        for entry in entries:
            if entry.is_dir(follow_symlinks=False):
                shutil.rmtree(entry.path)
            else:
                os.unlink(entry.path)


def contents_of(file: int) -> bytes:
    return os.pread(file, os.fstat(file).st_size, 0)


class Place:
    """A folder in which programs run one after another. Both outputs, and input that is
    no pipe, are files in memory.
    """

    def __init__(self, folder: str) -> None:
        os.mkdir(folder)
        self.folder = folder
        self.given, self.out, self.err = (
            os.memfd_create(name) for name in ("given", "out", "err")
        )

    def start(
        self,
        program: str,
        words: list[bytes],
        data: bytes,
        lanes: Lanes,
        pieces: Pieces | None = None,
    ) -> None:
        """Starts the program with these words (bytes each), where of all files only
        these lanes are there. The data is a file, or where there are `pieces` a pipe,
        into which `end` puts it.
        """
        clear(self.folder)
        for port, lane in lanes.items():
            Path(self.folder, f"{port}.ts").write_bytes(lane)
        for file, text in (
            (self.given, b"" if pieces else data),
            (self.out, b""),
            (self.err, b""),
        ):
            os.ftruncate(file, 0)
            os.pwrite(file, text, 0)
            os.lseek(file, 0, os.SEEK_SET)
        self.data, self.pieces = data, pieces
        self.child = subprocess.Popen(
            [program.encode(), *words],
            stdin=subprocess.PIPE if pieces else self.given,
            stdout=self.out,
            stderr=self.err,
            cwd=self.folder,
            bufsize=0,
        )

    def end(self, seconds: int = SECONDS) -> Ended:
        """What the run left that was started last."""
        with time_limit(self.child, seconds) as ticks:
            # What writes may wait for a program that hangs. Once that is killed, the
            # write fails.
            peak = feed(self.child, self.data, self.pieces) if self.pieces else None
            self.child.wait()
        status = None if len(ticks) >= seconds else self.child.returncode
        return Ended(
            status,
            contents_of(self.err),
            contents_of(self.out),
            *lanes_of(self.folder),
            peak,
        )
