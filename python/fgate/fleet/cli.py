"""Repairs many links by many processes, on one machine or several.

fgate-fleet (--scheduler ADDRESS | --local N) --flows FILE
            --captures FOLDER [--captures FOLDER ..] --out FOLDER
            [--window N] [--depth N] [--hold MICROSECONDS] [--fgate PATH] [--sets N]
            [--keep-pieces] [--json]
fgate-fleet --check (--scheduler ADDRESS | --local N) [--captures FOLDER ..]
            [--out FOLDER] [--fgate PATH]

It runs on Dask's distributed scheduler, Debian's python3-distributed. Where another
Python than Debian's has that, as in a virtual environment, call it by that one: python
-m fgate.fleet ... `--local N` starts N processes here. For `--scheduler`, start
dask-scheduler on one machine and dask-worker --nthreads 1 --nworkers N on each that is
to work; all see the folders and the program by the same path. `--check` tells what each
lacks.

FILE has the flows' ports, one or more on a line, and remarks behind a `#`. A folder of
captures has captures and traces of one recorder, in the order of their names; each
folder in it has those of another, and so has each further --captures. Recorders are
merged by the times of their records. Names that begin with a dot are left aside.

Each capture is cut by `fgate fromcap` and `fgate pick` into a trace for each set of at
most 64 flows, and each set is repaired by one `fgate repair workers=0`. The folder gets
PORT.ts and PORT.report of each flow, flows.txt and flows.json with all flows, and
failed.txt with what failed. What is kept for the next run is in its folder work. A run
that is started again makes what isn't whole, or was made from other captures, words or
another program.

The status is 0 where all is whole; 1 where something failed; 64 where the words can't
be read; 69 where a machine, a folder, the program or the package is missing; 130 and
143 after an interrupt, behind which it can be started again.
"""

from __future__ import annotations

import argparse
import os
import platform
import signal
import sys
from collections.abc import Mapping, Sequence
from typing import TYPE_CHECKING, Any, NoReturn

from fgate import command
from fgate.fleet import seed

if TYPE_CHECKING:
    # The engine takes long to read in, which the workers' seed does at the same time.
    from fgate.fleet import engine, tell, work

NAME = "fgate-fleet"
BAD_WORDS, UNAVAILABLE = 64, 69
SAME = "both need the same"


def add_engines(words: command.Parser) -> None:
    """Add the words that say who is to work."""
    engines = words.add_mutually_exclusive_group(required=True)
    engines.add_argument(
        "--scheduler",
        metavar="ADDRESS",
        help="the scheduler, as tcp://192.0.2.1:8786",
    )
    engines.add_argument(
        "--local",
        type=command.whole(1, 256),
        metavar="N",
        help="start so many processes on this machine",
    )
    words.add_argument(
        "--page",
        type=command.whole(0, 65535),
        default=0,
        metavar="PORT",
        help="with --local, the port of the engine's page; any",
    )
    words.add_argument(
        "--wait",
        type=command.whole(1, 3600),
        default=30,
        metavar="SECONDS",
        help="how long to wait for the scheduler and a worker; 30",
    )


def add_inputs(words: command.Parser) -> None:
    """Add the words that say what is to be done."""
    words.add_argument("--flows", metavar="FILE", help="the flows' media ports")
    words.add_argument(
        "--captures",
        action="append",
        default=[],
        metavar="FOLDER",
        help="a recorder's captures and traces",
    )
    words.add_argument(
        "--out", metavar="FOLDER", help="what gets lanes, reports and tables"
    )
    words.add_argument(
        "--check",
        action="store_true",
        help="tell what each machine has and lacks, and do nothing else",
    )
    words.add_argument(
        "--fgate",
        default="",
        metavar="PATH",
        help="the program; else the one on the path, or that of this clone",
    )


def add_settings(words: command.Parser) -> None:
    """Add the words that say how it is to be done."""
    for name, metavar, most in (
        ("--window", "N", 100),
        ("--depth", "N", 1000),
        ("--hold", "MICROSECONDS", 3_600_000_000),
    ):
        words.add_argument(
            name, type=command.whole(1, most), metavar=metavar, help="as of repair"
        )
    words.add_argument(
        "--sets",
        type=command.whole(1, 65531),
        default=0,
        metavar="N",
        help="how many sets; else by flows, bytes and processes",
    )
    words.add_argument(
        "--keep-pieces",
        action="store_true",
        help="keep the cut traces when all is whole",
    )
    words.add_argument(
        "--stats-period",
        type=command.whole(1, 86400),
        default=10,
        metavar="SECONDS",
        help="how often it tells how far it is; 10",
    )
    words.add_argument(
        "--json",
        action="store_true",
        help="tell it as JSON objects, one on each line",
    )


def read_words(arguments: Sequence[str] | None) -> argparse.Namespace:
    """Read the words of the command."""
    words = command.Parser(NAME, __doc__, BAD_WORDS)
    add_engines(words)
    add_inputs(words)
    add_settings(words)
    asked = words.parse_args(arguments)
    if not asked.check and not (asked.flows and asked.captures and asked.out):
        words.error("--flows, --captures and --out must be there")
    asked.captures = [os.path.abspath(one) for one in asked.captures]
    return asked


class Run:
    """A check or a run by a client of the engine."""

    def __init__(
        self, asked: argparse.Namespace, voice: tell.Voice, client: engine.Client
    ) -> None:
        from fgate.fleet import work

        self.asked, self.voice, self.client = asked, voice, client
        self.program = work.Program(command.program_at(asked.fgate))
        self.folder = work.Folder(asked.out or "")

    def look(self) -> dict[str, dict[str, Any]]:
        """Give what each worker has, by address; what differs from here is a fault."""
        from fgate.fleet import engine

        if self.asked.out:
            self.folder.leave_token()
        job = {
            "program": self.program.path,
            "captures": self.asked.captures,
            "out": self.folder.out,
            "work": self.folder.work,
            "token": self.folder.token if self.asked.out else "",
            "topic": self.folder.run,
        }
        found = engine.look_at_machines(self.client, job)
        for one in found.values():
            one["faults"] += differences(one, self.program)
        return found

    def tell_here(self) -> None:
        """Tell what this machine has."""
        from fgate.fleet import engine

        python = f"Python {platform.python_version()} at {sys.executable}"
        version = f"distributed {engine.VERSION}"
        self.voice.event(f"here: {python}, {version}: {self.program.wrong or 'ok'}")

    def tell_workers(self, found: Mapping[str, Mapping[str, Any]]) -> None:
        """Tell what each worker has and lacks."""
        for address, one in sorted(found.items()):
            python = f"Python {one['python']} at {one['at']}"
            faults = "; ".join(one["faults"]) or "ok"
            self.voice.event(
                f"worker {address} on {one['machine']}: {python}, distributed "
                f"{one['engine']}: {faults}"
            )

    def status(self) -> int:
        """Do what is asked for, and give the status."""
        from fgate.fleet import engine

        if self.asked.out:
            self.folder.take()
        if not self.asked.check and self.program.wrong:
            raise engine.Gone(self.program.wrong)
        found = self.look()
        fit = [address for address, one in found.items() if not one["faults"]]
        are_all_fit = len(fit) == len(found)
        if self.asked.check:
            self.tell_here()
            self.tell_workers(found)
            return 0 if are_all_fit and not self.program.wrong else UNAVAILABLE
        for address, one in found.items():
            if one["faults"]:
                faults = "; ".join(one["faults"])
                self.voice.event(
                    f"worker {address} on {one['machine']} does nothing: {faults}"
                )
        if not fit:
            raise engine.Gone("no worker can do anything: see --check")
        page = engine.page_of(self.client)
        self.voice.event(f"{len(fit)} workers; to watch: {page}")
        return self.status_of_work(None if are_all_fit else fit)

    def status_of_work(self, machines: Sequence[str] | None) -> int:
        """Do the work by these machines, or by all, and give the status."""
        from fgate.fleet import work

        one = work.Work(
            self.asked, self.client, self.voice, self.folder, self.program, machines
        )
        try:
            return 0 if one.run() else 1
        except BaseException:
            one.tasks.cancel()
            raise


def differences(worker: Mapping[str, Any], program: work.Program) -> list[str]:
    """Tell in what a worker differs from here."""
    from fgate.fleet import engine

    here = platform.python_version()
    version = engine.VERSION
    told = []
    if worker["digest"] and worker["digest"] != program.digest:
        told.append(f"{program.path} is another program than here")
    if worker["python"].rpartition(".")[0] != here.rpartition(".")[0]:
        told.append(f"its Python is {worker['python']}, and here {here}: {SAME}")
    if worker["engine"] != version:
        told.append(
            f"its distributed is {worker['engine']}, and here {version}: {SAME}"
        )
    return told


def end_at_signal(number: int, _: object) -> NoReturn:
    """End with the status that a shell gives to this signal."""
    sys.exit(128 + number)


def run(asked: argparse.Namespace) -> int:
    """Run the fleet, and give the status."""
    from fgate.fleet import engine, plan, tell, work

    try:
        with engine.client_of(asked) as client:
            return Run(asked, tell.Voice(NAME, asked.json), client).status()
    except plan.Wrong as told:
        print(f"{NAME}: {told}", file=sys.stderr)
        return BAD_WORDS
    except (engine.Gone, work.Held, OSError) as told:
        print(f"{NAME}: {told}", file=sys.stderr)
        return UNAVAILABLE


def main(arguments: Sequence[str] | None = None) -> int:
    """Read the words, run the fleet, and give the command's status."""
    asked = read_words(arguments)
    for number in (signal.SIGINT, signal.SIGTERM):
        signal.signal(number, end_at_signal)
    if asked.local:
        seed.sow()
    try:
        return run(asked)
    except ImportError as told:
        print(
            f"{NAME}: {sys.executable} has no {told.name}: apt-get install "
            "python3-distributed, or call it by the Python that has it",
            file=sys.stderr,
        )
        return UNAVAILABLE


if __name__ == "__main__":
    sys.exit(main())
