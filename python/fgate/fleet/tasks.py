"""What a fleet's worker machines do: survey, cut, repair and look.

The engine carries this code to them, with that of the modules below it, so they need
Python's library and the program alone.

What a task leaves is written beside, under a name that begins with a dot, and renamed
when it is whole. A mark, a small file of JSON, says of what is whole which inputs it
was made from; it is written last.
"""

from __future__ import annotations

import collections
import contextlib
import errno
import hashlib
import os
import platform
import resource
import socket
import struct
import subprocess
import sys
import time
from collections.abc import Iterator, Sequence
from typing import IO, Any

from fgate.fleet.joins import send
from fgate.fleet.marks import (
    flow_is_whole,
    folder_beside,
    looks_of,
    piece_at,
    read_mark,
    size_of_piece,
    write_mark,
)
from fgate.fleet.pipes import (
    BLOCK,
    End,
    Process,
    Thread,
    end,
    hand_on,
    kill,
    start,
)
from fgate.traces import HEAD, HEAD_SIZE, MAGIC

#: What a task is to do, what came of it, a fault and a flow's numbers, as JSON has
#: them.
Job = dict[str, Any]
Came = dict[str, Any]
Fault = dict[str, Any]
Counts = dict[str, Any]

SURVEYED = 1 << 20  # bytes at the beginning of a file
# Statuses that say what the input is. With any other the work itself failed.
OF_CONTENT, TOO_LONG, WRITE_FAULT = (0, 4, 5, 8), 5, 3
# Below this room on a disk a fault of writing is the disk's, and no flow's.
FULL = 4 << 20
# As many files as a process needs to have open.
FILES = 128


class Ended(Exception):
    """A command failed: its fault says which, its status, and its own line."""

    def __init__(self, told: Fault) -> None:
        super().__init__(told)
        self.fault = told


def flow_words(flows: Sequence[int]) -> list[str]:
    """Give the program's words for these flows."""
    return [f"flow={flow}" for flow in flows]


def fault(command: str, status: int | None, line: str, **more: Any) -> Fault:
    """Give a fault of a command on this machine."""
    where = socket.gethostname()
    return {
        **more,
        "command": command,
        "status": status,
        "line": line,
        "machine": where,
    }


# ---- Progress ----


class Teller:
    """Tells the engine how many bytes a task has gone through.

    It does so at most once a second. Without an engine it is silent.
    """

    def __init__(self, topic: str, name: str) -> None:
        self.topic, self.name, self.bytes = topic, name, 0
        self.told_at = time.monotonic()
        self.worker: Any = None
        with contextlib.suppress(ImportError, ValueError):
            from distributed import get_worker

            self.worker = get_worker()

    def count(self, more: int) -> None:
        """Count so many bytes more."""
        self.bytes += more
        if self.worker and time.monotonic() - self.told_at >= 1:
            self.told_at = time.monotonic()
            self.worker.log_event(self.topic, [self.name, self.bytes])


# ---- Survey ----


def survey(job: Job) -> dict[int, int]:
    """Count the records of each port at the beginning of a file."""
    with open(job["path"], "rb") as file:
        head = file.read(SURVEYED)
    if head[:8] != MAGIC:
        both = {"stdin": subprocess.PIPE, "stdout": subprocess.PIPE}
        process = start(job["program"], "fromcap", **both)
        head, _ = process.communicate(head)
    counts: collections.Counter[int] = collections.Counter()
    place = 8
    while place + HEAD_SIZE <= len(head):
        _, port, size = struct.unpack_from(HEAD, head, place)
        counts[port] += 1
        place += HEAD_SIZE + size
    return dict(counts)


# ---- Cut ----


class Cutter:
    """Picks the records of each set out of one capture or trace.

    It does so by as many processes of the program as there are sets, and one more
    before those of several small sets, so that few of them read all.
    """

    def __init__(self, job: Job, folder: str) -> None:
        self.job, self.folder = job, folder
        self.processes: list[Process] = []
        self.threads: list[Thread] = []

    def pick(self, flows: Sequence[int], **streams: Any) -> Process:
        """Begin to pick for these flows."""
        process = start(self.job["program"], "pick", *flow_words(flows), **streams)
        self.processes.append(process)
        return process

    def begin(self, branch: Sequence[dict[str, Any]], **source: Any) -> Process:
        """Begin to pick for a branch, a set or several, and give the first process."""
        if len(branch) > 1:
            flows = [flow for one in branch for flow in one["flows"]]
            process = self.pick(flows, stdout=subprocess.PIPE, **source)
            sinks = self.sinks([[one] for one in branch])
            self.threads.append(Thread(hand_on, process.stdout, sinks))
            return process
        with open(os.path.join(self.folder, branch[0]["key"]), "wb") as file:
            return self.pick(branch[0]["flows"], stdout=file, **source)

    def sinks(self, branches: Sequence[Sequence[dict[str, Any]]]) -> list[IO[bytes]]:
        """Begin to pick for these branches from pipes, and give those."""
        begun = [self.begin(branch, stdin=subprocess.PIPE) for branch in branches]
        return [one.stdin for one in begun if one.stdin]

    def begin_all(self, is_trace: bool, teller: Teller) -> None:
        """Begin to read, and to pick for all branches."""
        path = self.job["path"]
        if is_trace:
            for branch in self.job["branches"]:
                with open(path, "rb") as file:
                    self.begin(branch, stdin=file)
            return
        with open(path, "rb") as file:
            streams: dict[str, Any] = {"stdin": file, "stdout": subprocess.PIPE}
            reader = start(self.job["program"], "fromcap", **streams)
        self.processes.append(reader)
        sinks = self.sinks(self.job["branches"])
        self.threads.append(Thread(hand_on, reader.stdout, sinks, teller.count))

    def cut(self, teller: Teller) -> tuple[str, list[End]]:
        """Cut, and give the first command and all ends, of which the first is its."""
        with open(self.job["path"], "rb") as file:
            is_trace = file.read(8) == MAGIC
        try:
            self.begin_all(is_trace, teller)
            have_all = all([one.answer() for one in self.threads])
            ends = [end(one) for one in self.processes]
            if not have_all and all(status in OF_CONTENT for status, _ in ends):
                raise OSError(errno.EPIPE, "a pick ended before its input")
            return "pick" if is_trace else "fromcap", ends
        except BaseException:
            kill(self.processes)
            raise


def first_time(path: str) -> int | None:
    """Give the time of a trace's first record, or None."""
    with open(path, "rb") as file:
        file.seek(8)
        head = file.read(HEAD_SIZE)
    if len(head) < HEAD_SIZE:
        return None
    return int(struct.unpack(HEAD, head)[0])


def cut(job: Job) -> Came:
    """Cut a capture or trace into a trace for each of these sets.

    Where that fails nothing is left.
    """
    try:
        sizes = cut_into(job, Teller(job["topic"], job["name"]))
    except Ended as told:
        return {"name": job["name"], "failed": [told.fault]}
    except OSError as told:
        wrong = fault("read or write", None, str(told), capture=job["name"])
        return {"name": job["name"], "failed": [wrong]}
    return {"name": job["name"], "failed": [], "sizes": sizes}


def find_folder(job: Job) -> None:
    """Raise OSError where the folder isn't the one that the fleet has.

    A worker that came late may lack it.
    """
    if job["token"] and read_mark(job["token"]) != job["topic"]:
        line = "it isn't the folder that the others share"
        raise OSError(errno.ENODEV, line, job["out"])


def cut_into(job: Job, teller: Teller) -> dict[str, int]:
    """Cut the pieces that aren't whole, and give the sizes of all."""
    find_folder(job)
    work = job["work"]
    keys = [one["key"] for branch in job["branches"] for one in branch]
    sizes = {key: size_of_piece(work, key) for key in keys}
    whole = {key: size for key, size in sizes.items() if size is not None}
    if len(whole) == len(sizes):
        return whole
    with folder_beside(os.path.join(work, "pieces")) as folder:
        command, ends = Cutter(job, folder).cut(teller)
        refuse_failed(job, command, ends)
        write_capture_mark(job, command, ends[0], [f"{folder}/{key}" for key in keys])
        return {key: publish_piece(work, folder, key) for key in keys}


def refuse_failed(job: Job, command: str, ends: Sequence[End]) -> None:
    """Raise Ended where a command failed, or where the capture isn't the same."""
    for number, (status, line) in enumerate(ends):
        if status not in OF_CONTENT:
            failed = command if number == 0 else "pick"
            raise Ended(fault(failed, status, line, capture=job["name"]))
    if looks_of(job["path"]) != job["looks"]:
        line = "it changed while it was read"
        raise Ended(fault(command, None, line, capture=job["name"]))


def write_capture_mark(
    job: Job, command: str, ended: End, pieces: Sequence[str]
) -> None:
    """Mark what is wrong with a capture of which the whole records count."""
    status, line = ended
    faults = [fault(command, status, line, capture=job["name"])] if status else []
    times = [time for time in map(first_time, pieces) if time is not None]
    what = {"name": job["name"], "faults": faults, "first": min(times, default=None)}
    write_mark(os.path.join(job["work"], "captures", f"{job['key']}.json"), what)


def publish_piece(work: str, folder: str, key: str) -> int:
    """Put a piece where it belongs, mark it as whole, and give its size."""
    size = os.stat(os.path.join(folder, key)).st_size
    os.rename(os.path.join(folder, key), piece_at(work, key))
    write_mark(os.path.join(work, "pieces", f"{key}.json"), {"bytes": size})
    return size


# ---- Repair ----


def run_repair(job: Job, flows: Sequence[int], folder: str, teller: Teller) -> End:
    """Repair these flows in a folder, and give how the program ended."""
    words = [*flow_words(flows), *job["words"], "workers=0"]
    with open(os.path.join(folder, "report"), "wb") as report:
        streams: dict[str, Any] = {"stdin": subprocess.PIPE, "stdout": report}
        process = start(job["program"], "repair", *words, **streams, cwd=folder)
    assert process.stdin
    try:
        # Where the program ended early it says why itself.
        with contextlib.suppress(BrokenPipeError):
            send(process.stdin, job["recorders"], teller.count)
        with contextlib.suppress(BrokenPipeError):
            process.stdin.close()
        return end(process)
    except BaseException:
        kill([process])
        raise


def room_in(folder: str) -> int:
    """Give how many bytes may still be written to a folder's disk."""
    found = os.statvfs(folder)
    return found.f_bavail * found.f_frsize


def parsed(words: Sequence[str]) -> dict[str, int]:
    """Read names and numbers that stand in turns."""
    return {name: int(number) for name, number in zip(words[::2], words[1::2])}


def counts_of(flow: int, words: Sequence[str]) -> Counts:
    """Give what a flow's first line says, with room for what the others say."""
    kinds = {"media": None, "column": None, "row": None}
    return {"port": flow, **parsed(words), **kinds, "runs": None, "gaps": 0}


def take_line(counts: Counts, kind: str, words: Sequence[str]) -> bool:
    """Add what a line says of its flow, and tell whether it says anything of it."""
    if kind in ("media", "column", "row"):
        counts[kind] = parsed(words[1:])
    elif kind == "runs":
        counts["runs"] = {"runs": int(words[1]), **parsed(words[2:])}
    elif kind == "gap":
        counts["gaps"] += 1
    return kind in ("flow", "media", "column", "row", "runs", "gap")


def cut_report(folder: str) -> dict[int, Counts]:
    """Write each flow's lines of a report to a file of its own.

    The answer has their numbers by flow, with the number of gaps. A report with many
    gaps costs no memory.
    """
    found: dict[int, Counts] = {}
    flow = 0
    with contextlib.ExitStack() as files:
        report = files.enter_context(
            open(os.path.join(folder, "report"), encoding="ascii")
        )
        file: IO[str] | None = None
        for line in report:
            kind, *words = line.split()
            if kind == "flow":
                if file:
                    file.close()
                flow = int(words[0])
                found[flow] = counts_of(flow, words[1:])
                path = os.path.join(folder, f"{flow}.report")
                file = files.enter_context(open(path, "w", encoding="ascii"))
            if file and take_line(found[flow], kind, words):
                file.write(line)
    return found


def publish(job: Job, flow: int, counts: Counts, folder: str) -> None:
    """Put a flow's lane and report where they belong, and mark them as whole."""
    mark: dict[str, Any] = {"key": job["keys"][flow], "counts": counts}
    for name, ending in (("lane", "ts"), ("report", "report")):
        place = os.path.join(job["out"], f"{flow}.{ending}")
        os.rename(os.path.join(folder, f"{flow}.{ending}"), place)
        mark[name] = looks_of(place)
    write_mark(os.path.join(job["work"], "flows", f"{flow}.json"), mark)


def publish_all(job: Job, folder: str) -> tuple[list[Counts], list[Fault]]:
    """Publish all flows of a repair, and give what is whole and what failed."""
    whole, failed = [], []
    for flow, counts in cut_report(folder).items():
        try:
            publish(job, flow, counts, folder)
            whole.append(counts)
        except OSError as told:
            line = told.strerror or str(told)
            failed.append(fault("rename", None, line, flow=flow))
    return whole, failed


def repair_flows(
    job: Job, flows: Sequence[int], teller: Teller
) -> tuple[list[Counts], list[Fault]]:
    """Repair these flows, and give the numbers of those that are whole, and faults.

    Where the program fails for many flows, each half is tried alone, so that one flow
    ends no other; but not where the disk is full or the records are too many, which no
    flow is to blame for.
    """
    with folder_beside(os.path.join(job["work"], "flows")) as folder:
        status, line = run_repair(job, flows, folder, teller)
        if status == 0:
            return publish_all(job, folder)
        is_full = status == WRITE_FAULT and room_in(folder) < FULL
        if len(flows) == 1 or status == TOO_LONG or is_full:
            return [], [fault("repair", status, line, flow=flow) for flow in flows]
    half = len(flows) // 2
    first, second = (
        repair_flows(job, some, teller) for some in (flows[:half], flows[half:])
    )
    return first[0] + second[0], first[1] + second[1]


def repair(job: Job) -> Came:
    """Repair a set: what it leaves are lanes, reports and marks of flows.

    Those that are whole, since it was done before and what came of it was lost, are
    left.
    """
    whole: list[Counts] = []
    failed: list[Fault] = []
    try:
        find_folder(job)
        left = []
        for flow in job["flows"]:
            mark = flow_is_whole(job["out"], job["work"], flow, job["keys"][flow])
            if mark:
                whole.append(mark["counts"])
            else:
                left.append(flow)
        if left:
            teller = Teller(job["topic"], job["name"])
            made, failed = repair_flows(job, left, teller)
            whole += made
    except OSError as told:
        done = {one["port"] for one in whole}
        failed = [
            fault("read or write", None, str(told), flow=flow)
            for flow in job["flows"]
            if flow not in done
        ]
    return {"name": job["name"], "whole": whole, "failed": failed}


# ---- Check ----


def digest(path: str) -> str:
    """Give the digest of a file."""
    found = hashlib.sha256()
    with open(path, "rb") as file:
        for block in iter(lambda: file.read(BLOCK), b""):
            found.update(block)
    return found.hexdigest()


def look_at_program(path: str) -> tuple[str, str | None]:
    """Give what is wrong with the program here, and its digest."""
    if not os.path.isfile(path):
        return f"there is no program {path}", None
    if not os.access(path, os.X_OK):
        return f"{path} may not be run", None
    try:
        ended = subprocess.run(
            [path, "pick", "--help"],
            stdin=subprocess.DEVNULL,
            capture_output=True,
            check=False,
        )
    except OSError as told:
        return f"{path} doesn't run: {told.strerror}", None
    return f"{path} has no pick" if ended.returncode else "", digest(path)


def look_at_folders(job: Job) -> Iterator[str]:
    """Tell what is wrong with the folders here."""
    for folder in job["captures"]:
        if not os.access(folder, os.R_OK | os.X_OK):
            yield f"there is no folder {folder} to read"
    if not job["token"]:
        return
    try:
        find_folder(job)
        with folder_beside(job["work"]):
            pass
    except OSError as wrong:
        yield f"{job['out']}: {wrong.strerror}"


def engine_here() -> str | None:
    """Give the engine's version on this machine, or None where there is none."""
    try:
        import distributed
    except ImportError:
        return None
    return str(distributed.__version__)


def look(job: Job) -> Came:
    """Tell what this machine has, and what it lacks."""
    wrong, found = look_at_program(job["program"])
    faults = ([wrong] if wrong else []) + list(look_at_folders(job))
    files = resource.getrlimit(resource.RLIMIT_NOFILE)[0]
    if files < FILES:
        faults.append(f"a process may have {files} files open, and needs {FILES}")
    return {
        "machine": socket.gethostname(),
        "python": platform.python_version(),
        "at": sys.executable,
        "engine": engine_here(),
        "digest": found,
        "faults": faults,
    }
