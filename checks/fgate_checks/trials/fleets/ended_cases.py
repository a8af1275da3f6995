"""Cases in which workers, disks or the fleet itself give out."""

import contextlib
import os
import signal
import subprocess
import tempfile
import time
from collections.abc import Iterator

from .nights import (
    Skipped,
    a_night,
    case,
    finished,
    in_time,
    link,
    one_process,
    read_when_there,
    same,
    stalling,
    trace_of,
    wanted,
)


def killed_while(command: str) -> None:
    flows = [5000, 5010, 5020, 5030]
    records = in_time([link(flow, 600) for flow in flows])
    with a_night(flows) as night:
        night.keep_parts(records)
        night.program = stalling(night.folder, command)
        running = night.start("--keep-pieces")
        try:
            os.kill(
                read_when_there(os.path.join(night.folder, "worker")), signal.SIGKILL
            )
            ended = finished(running)
        finally:
            running.kill()
            with open(os.path.join(night.folder, "go"), "w", encoding="ascii"):
                pass
        ended.is_well()
        night.is_as(one_process(records, flows))
        same(
            ended.counts("cuts_made", "pieces_made", "repairs_made", "flows_made"),
            (3, 6, 2, 4),
            "what was made",
        )


@case
def worker_killed_while_it_cuts() -> None:
    """Another one does its work, and nothing is left of it."""
    killed_while("pick")


@case
def worker_killed_while_it_repairs() -> None:
    """The same while it repairs."""
    killed_while("repair")


@contextlib.contextmanager
def small_disk(size: int) -> Iterator[str]:
    folder = tempfile.mkdtemp()
    mounted = subprocess.run(
        ["mount", "-t", "tmpfs", "-o", f"size={size}", "fleet", folder],
        stderr=subprocess.PIPE,
        check=False,
    )
    try:
        if mounted.returncode:
            raise Skipped(
                f"a small disk can't be made: {mounted.stderr.decode().strip()}"
            )
        yield folder
    finally:
        if not mounted.returncode:
            subprocess.run(["umount", folder], check=False)
        os.rmdir(folder)


@case
def full_disk() -> None:
    """First the pieces don't fit, then the lanes, and each time it is told. With more
    room the run goes on where it was.
    """
    flows = [5000, 5010, 5020, 5030]
    records = in_time([link(flow, 3000) for flow in flows])
    expected = one_process(records, flows)
    size = sum(len(lane) for lane, _ in expected.values())
    with small_disk(size // 2) as disk, a_night(
        flows, out=os.path.join(disk, "out")
    ) as night:
        night.keep_parts(records)
        ended = night.run()
        wanted(
            ended.failed()
            and all(
                one["status"] == 3 and one["line"] == "write fault"
                for one in ended.failed()
            ),
            f"faults: {ended.failed()}",
        )
        same(
            (ended.status, ended.counts("whole", "repairs_made")),
            (1, (0, 0)),
            "status, whole flows and repairs",
        )
        kept = night.pieces()
        subprocess.run(
            ["mount", "-o", f"remount,size={len(trace_of(records)) + size // 2}", disk],
            check=True,
        )
        ended = night.run()
        same(
            {one["status"] for one in ended.failed()},
            {3},
            "statuses when lanes don't fit",
        )
        wanted(
            0 < len(ended.failed()) <= 4 and ended.status == 1,
            "what failed when lanes don't fit",
        )
        wanted(
            kept.items() <= night.pieces().items(),
            "pieces that were whole are made anew",
        )
        whole = ended.counts("whole")[0]
        kept = night.pieces()
        night.is_as(
            expected,
            [
                flow
                for flow in flows
                if os.path.exists(os.path.join(night.out, f"{flow}.ts"))
            ],
        )
        subprocess.run(["mount", "-o", "remount,size=64m", disk], check=True)
        ended = night.run("--keep-pieces")
        ended.is_well()
        same(night.pieces(), kept, "pieces of the last run")
        same(
            ended.counts("cuts_made", "flows_kept", "flows_made"),
            (0, whole, 4 - whole),
            "what the last run made",
        )
        night.is_as(expected)


def interrupted_while(
    command: str, number: int, cuts_left: int, sets_left: int
) -> None:
    flows = [5000, 5010, 5020, 5030]
    records = in_time([link(flow, 600) for flow in flows])
    with a_night(flows) as night:
        night.keep_parts(records)
        night.program = stalling(night.folder, command)
        running = night.start("--keep-pieces", start_new_session=True)
        try:
            read_when_there(os.path.join(night.folder, "worker"))
            # The others end: one task of two or three is at work, and as many of its
            # kind as there are ended or wait for it.
            time.sleep(4)
            os.killpg(
                running.pid, number
            ) if number == signal.SIGINT else running.send_signal(number)
            ended = finished(running)
        finally:
            running.kill()
            with open(os.path.join(night.folder, "go"), "w", encoding="ascii"):
                pass
        same(
            (ended.status, ended.errors),
            (128 + number, ""),
            "status and errors after the signal",
        )
        time.sleep(1)
        kept, lanes = night.pieces(), [
            flow
            for flow in flows
            if os.path.exists(os.path.join(night.out, "work/flows", f"{flow}.json"))
        ]
        again = night.run("--keep-pieces")
        again.is_well()
        night.is_as(one_process(records, flows))
        wanted(
            kept.items() <= night.pieces().items(),
            "pieces that were whole are made anew",
        )
        same(
            again.counts(
                "cuts_made", "pieces_made", "pieces_kept", "flows_kept", "flows_made"
            ),
            (
                cuts_left,
                6 - len(kept),
                3 * sets_left - (6 - len(kept)),
                len(lanes),
                4 - len(lanes),
            ),
            "what was made",
        )


@case
def interrupt_while_it_cuts() -> None:
    """Ctrl-C in the middle of a cut. The next run goes on: one of three captures is
    left to cut.
    """
    interrupted_while("pick", signal.SIGINT, 1, 2)


@case
def interrupt_while_it_repairs() -> None:
    """SIGTERM in the middle of a repair. The next run goes on: nothing is left to cut,
    and one set to repair.
    """
    interrupted_while("repair", signal.SIGTERM, 0, 1)
