"""Cases of several machines, which are network namespaces where those can be made."""

from __future__ import annotations

import os
import signal
import subprocess
import time

from .nights import (
    Process,
    a_night,
    case,
    environment,
    finished,
    in_time,
    link,
    one_process,
    read_when_there,
    same,
    stalling,
)


class Machines:
    """A scheduler and two workers, each in a network namespace of its own on one
    bridge, or else as processes of this machine.
    """

    def __init__(self, folder: str) -> None:
        self.folder = folder
        self.spaces: list[str] = []
        self.processes: list[Process] = []
        self.host = "127.0.0.1"

    def make_spaces(self) -> None:
        name = f"fleet{os.getpid()}"
        try:
            for number in range(3):
                self.ip("netns", "add", f"{name}-{number}")
                self.spaces.append(f"{name}-{number}")
                self.ip("-n", self.spaces[number], "link", "set", "lo", "up")
            self.ip("-n", self.spaces[0], "link", "add", "bridge", "type", "bridge")
            self.ip(
                "-n", self.spaces[0], "addr", "add", "10.99.7.1/24", "dev", "bridge"
            )
            self.ip("-n", self.spaces[0], "link", "set", "bridge", "up")
            for number in (1, 2):
                self.ip(
                    "-n",
                    self.spaces[0],
                    "link",
                    "add",
                    f"to{number}",
                    "type",
                    "veth",
                    "peer",
                    "name",
                    "eth",
                    "netns",
                    self.spaces[number],
                )
                self.ip(
                    "-n",
                    self.spaces[0],
                    "link",
                    "set",
                    f"to{number}",
                    "master",
                    "bridge",
                    "up",
                )
                self.ip(
                    "-n",
                    self.spaces[number],
                    "addr",
                    "add",
                    f"10.99.7.{number + 1}/24",
                    "dev",
                    "eth",
                )
                self.ip("-n", self.spaces[number], "link", "set", "eth", "up")
            self.host = "10.99.7.1"
        except (OSError, subprocess.CalledProcessError):
            self.drop_spaces()

    def ip(self, *words: str) -> None:
        subprocess.run(
            ["ip", *words],
            check=True,
            stdout=subprocess.DEVNULL,
            stderr=subprocess.PIPE,
        )

    def drop_spaces(self) -> None:
        for one in self.spaces:
            subprocess.run(
                ["ip", "netns", "del", one], check=False, stderr=subprocess.DEVNULL
            )
        self.spaces = []

    def within(self, number: int) -> list[str]:
        return ["ip", "netns", "exec", self.spaces[number]] if self.spaces else []

    def start(self, number: int, *words: str) -> Process:
        log = open(
            os.path.join(self.folder, f"machine-{len(self.processes)}.log"),
            "w",
            encoding="ascii",
        )
        self.processes.append(
            subprocess.Popen(
                [*self.within(number), "/usr/bin/python3", "-m", *words],
                stdout=log,
                stderr=log,
                env=environment(),
            )
        )
        return self.processes[-1]

    def __enter__(self) -> Machines:
        self.make_spaces()
        self.start(
            0,
            "distributed.cli.dask_scheduler",
            "--host",
            self.host,
            "--port",
            "8797",
            "--no-dashboard",
        )
        for number in (1, 2):
            self.start_worker(number)
        return self

    def start_worker(self, number: int) -> Process:
        host = f"10.99.7.{number + 1}" if self.spaces else self.host
        return self.start(
            number,
            "distributed.cli.dask_worker",
            self.address(),
            "--host",
            host,
            "--nthreads",
            "1",
            "--no-nanny",
            "--no-dashboard",
            "--local-directory",
            os.path.join(self.folder, f"scratch-{number}"),
        )

    def address(self) -> str:
        return f"tcp://{self.host}:8797"

    def __exit__(self, *_: object) -> None:
        for one in self.processes:
            one.kill()
            one.wait()
        self.drop_spaces()


@case
def machines() -> str:
    """A scheduler and two workers, each in a network namespace or a process of its own.
    One worker dies for good while it repairs, and another one comes instead.
    """
    flows = list(range(5000, 5060, 10))
    records = in_time([link(flow, 400) for flow in flows])
    with a_night(flows) as night, Machines(night.folder) as some:
        night.keep_parts(records, 4)
        engine = ("--scheduler", some.address())
        night.program = stalling(night.folder, "repair")
        until = time.monotonic() + 60
        ended = night.run("--check", engine=engine, under=some.within(0))
        while time.monotonic() < until and len(ended.told) < 3:
            ended = night.run("--check", engine=engine, under=some.within(0))
        same((ended.status, len(ended.told)), (0, 3), "status and lines of --check")
        running = subprocess.Popen(
            [*some.within(0), *night.words(engine=engine)],
            stdout=subprocess.PIPE,
            stderr=subprocess.PIPE,
            env=environment(),
        )
        try:
            os.kill(
                read_when_there(os.path.join(night.folder, "worker")), signal.SIGKILL
            )
            some.start_worker(1)
            ended = finished(running)
        finally:
            running.kill()
            with open(os.path.join(night.folder, "go"), "w", encoding="ascii"):
                pass
        ended.is_well()
        night.is_as(one_process(records, flows))
        same(
            ended.counts("cuts_made", "repairs_made", "flows_made"),
            (4, 2, 6),
            "what was made",
        )
        here = "as processes of this machine, since network namespaces can't be made"
        return "" if some.spaces else here


@case
def scheduler_that_is_gone() -> None:
    """It says so, and the next run goes on."""
    flows = [5000, 5010]
    records = in_time([link(flow, 400) for flow in flows])
    with a_night(flows) as night, Machines(night.folder) as some:
        night.keep_parts(records)
        night.program = stalling(night.folder, "repair")
        running = subprocess.Popen(
            [
                *some.within(0),
                *night.words(
                    "--stats-period", "1", engine=("--scheduler", some.address())
                ),
            ],
            stdout=subprocess.PIPE,
            stderr=subprocess.PIPE,
            env=environment(),
        )
        try:
            read_when_there(os.path.join(night.folder, "worker"))
            some.processes[0].kill()
            ended = finished(running)
        finally:
            running.kill()
            with open(os.path.join(night.folder, "go"), "w", encoding="ascii"):
                pass
        same(
            (ended.status, ended.errors),
            (69, "fgate-fleet: the scheduler is gone\n"),
            "status and line",
        )
        again = night.run()
        again.is_well()
        night.is_as(one_process(records, flows))
        same(again.counts("cuts_made"), (0,), "cuts of the next run")
