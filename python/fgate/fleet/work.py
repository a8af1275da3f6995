"""A run over the captures of a folder: what isn't whole is cut, and then repaired."""

import argparse
import contextlib
import fcntl
import os
import shutil
import time
import uuid
from collections.abc import Callable, Iterator, Mapping, Sequence
from typing import IO, Any

from fgate.fleet import engine, marks, plan, tasks, tell
from fgate.fleet.tasks import Counts, Fault, Job

FOLDERS = ("captures", "pieces", "flows")
#: Of so many captures at most the beginnings are surveyed.
MOST_SURVEYED = 64


class Held(Exception):
    """Another run is at work on the folder."""


class Folder:
    """The folder that gets the lanes, and in it what is kept between runs."""

    def __init__(self, out: str) -> None:
        self.out = os.path.abspath(out)
        self.work = os.path.join(self.out, "work")
        self.token = os.path.join(self.work, ".token")
        self.run = f"fleet-{uuid.uuid4().hex[:12]}"
        self.held: IO[str] | None = None

    def take(self) -> None:
        """Have it alone."""
        for name in FOLDERS:
            os.makedirs(os.path.join(self.work, name), exist_ok=True)
        self.held = open(os.path.join(self.work, "lock"), "w", encoding="ascii")
        try:
            fcntl.flock(self.held, fcntl.LOCK_EX | fcntl.LOCK_NB)
        except BlockingIOError:
            raise Held(f"another fleet is at work on {self.out}") from None
        self.clean()

    def clean(self) -> None:
        """Remove what tasks that died left."""
        for name in ("", *FOLDERS):
            folder = os.path.join(self.work, name)
            for one in os.listdir(folder):
                if one.startswith("."):
                    remove(os.path.join(folder, one))

    def leave_token(self) -> None:
        """Leave a file by which a worker sees that it shares this folder.

        It has the run's name.
        """
        marks.write_mark(self.token, self.run)

    def drop_pieces(self) -> None:
        """Remove the cut traces."""
        folder = os.path.join(self.work, "pieces")
        for one in os.listdir(folder):
            remove(os.path.join(folder, one))


def remove(path: str) -> None:
    """Remove a file or folder, which the run before may do at the same time."""
    if os.path.isdir(path):
        shutil.rmtree(path, ignore_errors=True)
        return
    with contextlib.suppress(FileNotFoundError):
        os.unlink(path)


class Program:
    """The program: its path, which is the same on all machines, and its digest."""

    def __init__(self, path: str) -> None:
        self.path = path
        self.wrong, self.digest = tasks.look_at_program(path)


class Progress:
    """What is at work, what was made and kept, and how far all that is."""

    def __init__(self) -> None:
        self.made = dict.fromkeys(["surveys", "cuts", "pieces", "repairs", "flows"], 0)
        self.kept = {"pieces": 0, "flows": 0}
        self.told_at = self.began = time.monotonic()
        self.begin("", [])

    def begin(self, kind: str, jobs: Sequence[Job]) -> None:
        """Begin with jobs of a kind."""
        self.kind, self.tasks, self.done = kind, len(jobs), 0
        self.bytes = sum(job.get("bytes", 0) for job in jobs)
        self.kind_began = time.monotonic()

    def is_due(self, period: int) -> bool:
        """Tell whether it is time to say how far all is."""
        return time.monotonic() - self.told_at >= period

    def told(self, done: int) -> dict[str, int | None]:
        """Say how far all is, with so many bytes done of this kind.

        What is left to repair is taken to be as long as what is left to cut, until that
        is known.
        """
        self.told_at = time.monotonic()
        done = min(done, self.bytes)
        took = max(time.monotonic() - self.kind_began, 0.001)
        left = self.bytes - done + (self.bytes if self.kind == "cuts" else 0)
        return {
            self.kind: self.done,
            "of": self.tasks,
            "pieces": self.made["pieces"] + self.kept["pieces"],
            "flows": self.made["flows"] + self.kept["flows"],
            "bytes": done,
            "rate": int(done / took),
            "left": int(left * took / done) if done else None,
        }


class Work:
    """What is to be done, is at work and has been done."""

    def __init__(
        self,
        asked: argparse.Namespace,
        client: engine.Client,
        voice: tell.Voice,
        folder: Folder,
        program: Program,
        machines: Sequence[str] | None,
    ) -> None:
        self.asked, self.client, self.voice = asked, client, voice
        self.folder, self.program = folder, program
        self.flows = plan.read_flows(asked.flows)
        self.recorders = plan.recorders_in(asked.captures)
        self.captures = [one for recorder in self.recorders for one in recorder]
        self.words = [
            f"{name}={getattr(asked, name)}"
            for name in ("window", "depth", "hold")
            if getattr(asked, name)
        ]
        self.tasks = engine.Tasks(client, folder.run, machines)
        self.progress = Progress()
        self.failed: list[Fault] = []
        self.counts: dict[int, Counts] = {}
        self.sizes: dict[str, int] = {}

    # ---- Keys ----

    def capture_key(self, capture: plan.Capture) -> str:
        """Give the key of what is made of a capture."""
        return plan.key_of(capture.name, capture.looks, self.program.digest)

    def piece_key(self, capture: plan.Capture, flows: Sequence[int]) -> str:
        """Give the key of a capture's piece for these flows."""
        return plan.key_of(self.capture_key(capture), sorted(flows))

    def flow_keys(self) -> dict[int, str]:
        """Give each flow's key, which differs where its inputs do."""
        inputs = plan.key_of(
            [[self.capture_key(one) for one in some] for some in self.recorders]
        )
        digest = self.program.digest
        return {
            flow: plan.key_of(inputs, self.words, digest, flow) for flow in self.flows
        }

    def job(self, name: str, **more: Any) -> Job:
        """Give a job with what all jobs have."""
        return {
            "name": name,
            "program": self.program.path,
            "work": self.folder.work,
            "out": self.folder.out,
            "token": self.folder.token,
            **more,
        }

    # ---- Tasks ----

    def do(
        self, kind: str, work: Callable[[Job], Any], jobs: Sequence[Job]
    ) -> Iterator[engine.Came]:
        """Have these jobs done by the engine, and give what came of each."""
        self.progress.begin(kind, jobs)
        self.tasks.bytes.clear()
        for job in jobs:
            self.tasks.begin(work, job)
        period = self.asked.stats_period
        while self.tasks.waiting:
            left = self.progress.told_at + period - time.monotonic()
            came = self.tasks.next(max(0.01, left))
            if came:
                self.progress.done += 1
                self.tasks.bytes[came[0]["name"]] = came[0].get("bytes", 0)
                yield came
            if self.progress.is_due(period):
                self.voice.counts(self.progress.told(sum(self.tasks.bytes.values())))

    def fail(self, faults: Sequence[Fault]) -> None:
        """Take down and tell faults."""
        for one in faults:
            self.failed.append(one)
            self.voice.failed(one)

    # ---- Sets ----

    def sets(self) -> list[list[int]]:
        """Give the flows in sets: those of the run before, or else by a survey."""
        path = os.path.join(self.folder.work, "plan.json")
        total = sum(one.looks[0] for one in self.captures)
        kept = self.kept_sets(path, total)
        if kept:
            return kept
        count = min(len(self.flows), self.asked.sets) or plan.number_of_sets(
            len(self.flows), total, engine.threads_of(self.client)
        )
        least = -(-len(self.flows) // plan.MOST_FLOWS)
        if count < least:
            raise plan.Wrong(f"{len(self.flows)} flows need {least} sets")
        records = self.survey() if count > 1 else {}
        found = plan.shared_out(self.flows, records, count)
        marks.write_mark(path, {"flows": self.flows, "sets": found})
        return found

    def kept_sets(self, path: str, total: int) -> list[list[int]]:
        """Give the sets of the run before where they still serve, or none."""
        kept = marks.read_mark(path)
        if not kept or kept["flows"] != self.flows:
            return []
        sets: list[list[int]] = kept["sets"]
        are_as_asked = self.asked.sets in (0, len(sets))
        are_enough = len(sets) >= plan.least_sets(len(self.flows), total)
        return sets if are_as_asked and are_enough else []

    def survey(self) -> dict[int, int]:
        """Count the records of each flow at the beginnings of the captures.

        It takes 64 of the captures where there are more.
        """
        apart = -(-len(self.captures) // MOST_SURVEYED)
        jobs = [
            self.job(one.name, path=one.path, bytes=min(one.looks[0], tasks.SURVEYED))
            for one in self.captures[::apart]
        ]
        records = dict.fromkeys(self.flows, 0)
        for _, counts, _ in self.do("surveys", tasks.survey, jobs):
            self.progress.made["surveys"] += 1
            found = counts or {}
            for flow in self.flows:
                ports = (flow, flow + 2, flow + 4)
                records[flow] += sum(found.get(port, 0) for port in ports)
        return records

    # ---- Steps ----

    def run(self) -> bool:
        """Do all of it, and tell whether all is whole and nothing failed."""
        keys = self.flow_keys()
        self.keep_whole_flows(keys)
        sets = self.sets() if len(self.counts) < len(self.flows) else []
        wanted = {
            number: [flow for flow in one if flow not in self.counts]
            for number, one in enumerate(sets)
        }
        left = {number: one for number, one in enumerate(sets) if wanted[number]}
        if self.cut(left):
            self.repair(left, wanted, keys)
        self.tell_captures()
        are_whole = len(self.counts) == len(self.flows)
        if are_whole and not self.asked.keep_pieces:
            self.folder.drop_pieces()
        self.folder.clean()
        self.end()
        return are_whole and not self.failed

    def keep_whole_flows(self, keys: Mapping[int, str]) -> None:
        """Take down the numbers of flows that are whole already."""
        out, work = self.folder.out, self.folder.work
        for flow in self.flows:
            mark = marks.flow_is_whole(out, work, flow, keys[flow])
            if mark:
                self.counts[flow] = mark["counts"]
        self.progress.kept["flows"] = len(self.counts)

    def missing_pieces(
        self, capture: plan.Capture, sets: Mapping[int, list[int]]
    ) -> list[plan.Piece]:
        """Give a capture's pieces that aren't whole, and note the others' sizes."""
        missing = []
        for flows in sets.values():
            key = self.piece_key(capture, flows)
            size = marks.size_of_piece(self.folder.work, key)
            if size is None:
                missing.append({"flows": flows, "key": key})
            else:
                self.sizes[key] = size
                self.progress.kept["pieces"] += 1
        return missing

    def cut_jobs(self, sets: Mapping[int, list[int]]) -> list[Job]:
        """Give a job for each capture of which a piece isn't whole."""
        jobs = []
        for capture in self.captures:
            missing = self.missing_pieces(capture, sets)
            if missing:
                job = self.job(
                    capture.name,
                    path=capture.path,
                    looks=capture.looks,
                    key=self.capture_key(capture),
                    branches=plan.branches_of(missing),
                    bytes=capture.looks[0],
                )
                jobs.append(job)
        return jobs

    def cut(self, sets: Mapping[int, list[int]]) -> bool:
        """Have the pieces of these sets made that aren't whole, and tell if all are."""
        are_whole = True
        for job, came, broke in self.do("cuts", tasks.cut, self.cut_jobs(sets)):
            faults = came["failed"] if came else []
            if broke:
                faults = [tasks.fault("cut", None, broke, capture=job["name"])]
            if faults:
                are_whole = False
                self.fail(faults)
            else:
                self.progress.made["cuts"] += 1
                self.progress.made["pieces"] += len(came["sizes"])
                self.sizes.update(came["sizes"])
        return are_whole

    def repair_job(
        self, number: int, flows: list[int], wanted: list[int], keys: Mapping[int, str]
    ) -> Job:
        """Give the job that repairs those flows of a set that are wanted."""
        pieces = [
            [self.piece_key(capture, flows) for capture in recorder]
            for recorder in self.recorders
        ]
        work = self.folder.work
        return self.job(
            f"{number}",
            flows=wanted,
            keys={flow: keys[flow] for flow in wanted},
            words=self.words,
            recorders=[[marks.piece_at(work, key) for key in some] for some in pieces],
            bytes=sum(self.sizes[key] for some in pieces for key in some),
        )

    def repair(
        self,
        sets: Mapping[int, list[int]],
        wanted: Mapping[int, list[int]],
        keys: Mapping[int, str],
    ) -> None:
        """Have the wanted flows repaired, the largest sets first."""
        jobs = [
            self.repair_job(number, flows, wanted[number], keys)
            for number, flows in sets.items()
        ]
        jobs.sort(key=lambda one: -int(one["bytes"]))
        for job, came, broke in self.do("repairs", tasks.repair, jobs):
            self.progress.made["repairs"] += 1
            if broke:
                self.fail(
                    [
                        tasks.fault("repair", None, broke, flow=flow)
                        for flow in job["flows"]
                    ]
                )
                continue
            self.fail(came["failed"])
            for counts in came["whole"]:
                self.counts[counts["port"]] = counts
                self.progress.made["flows"] += 1

    # ---- The end ----

    def tell_captures(self) -> None:
        """Tell what is wrong with captures of which the whole records count.

        Also told is where their names aren't in the order of their times.
        """
        for recorder in self.recorders:
            last: tuple[str, int] | None = None
            for capture in recorder:
                name = f"{self.capture_key(capture)}.json"
                mark = marks.read_mark(os.path.join(self.folder.work, "captures", name))
                if not mark:
                    continue
                self.fail(mark["faults"])
                if mark["first"] is None:
                    continue
                if last and mark["first"] < last[1]:
                    self.voice.event(
                        f"{capture.name} begins before {last[0]}: captures of several "
                        "recorders need a folder each"
                    )
                last = (capture.name, mark["first"])

    def row(self, flow: int) -> Counts:
        """Give what the table has of a flow."""
        if flow in self.counts:
            return {"whole": True, **self.counts[flow]}
        return {"port": flow, "whole": False}

    def end(self) -> None:
        """Write the tables, and tell what was made and kept."""
        took = time.monotonic() - self.progress.began
        made, kept = self.progress.made, self.progress.kept
        numbers = {
            "flows": len(self.flows),
            "whole": len(self.counts),
            "failed": len(self.failed),
        }
        rows = [self.row(flow) for flow in self.flows]
        captures = [{"name": one.name, "bytes": one.looks[0]} for one in self.captures]
        summary = {"seconds": round(took, 3), "made": made, "kept": kept, **numbers}
        tell.write_tables(self.folder.out, rows, captures, self.failed, summary)
        self.voice.counts(
            {
                **numbers,
                **{f"{name}_made": count for name, count in made.items()},
                **{f"{name}_kept": count for name, count in kept.items()},
                "seconds": round(took, 1),
            }
        )
