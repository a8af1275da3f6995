"""A verdict that takes no library of this repository on trust.

One check proves a crate and all crates below it from their sources. `rt ci` proves each
crate over the libraries of those below it, as they were built before. Here one check
reads the sources of all, and keeps nothing. Nothing can be built from it, so it is no
part of the gate. It prints what the kit's `rattle check` prints, whose last line says
`logic=proved`; the status is 0 then. Of fgate it takes some 80 processor minutes and
7 GB.
"""

from __future__ import annotations

import argparse
import os
import subprocess
import sys
from collections.abc import Mapping, Sequence
from pathlib import Path

from fgate_checks.repository import CRATES, crate_lines

Uses = Mapping[str, Sequence[str]]


def kit() -> Path:
    """The folder of the kit."""
    asked = subprocess.run(["rt", "doc"], capture_output=True, text=True, check=True)
    return Path(asked.stdout.strip()).parent


def stands_on() -> tuple[Uses, Uses]:
    """What each crate stands on: of this repository, and of the kit."""
    named = dict(crate_lines())
    own = {name: [it for it in uses if it in named] for name, uses in named.items()}
    kits = {
        name: ["std", *(it for it in uses if it not in named)]
        for name, uses in named.items()
    }
    return own, kits


def below(name: str, own: Uses) -> list[str]:
    """The crates below it, each after those that it stands on."""
    found: list[str] = []
    for it in own[name]:
        found += [low for low in [*below(it, own), it] if low not in found]
    return found


def root(name: str) -> Path:
    """The root file of a crate."""
    library = CRATES / name / "src/lib.rt"
    return library if library.exists() else library.with_name("main.rt")


def words_for(name: str, jobs: int) -> list[str]:
    """The command that checks a crate over the sources of those below it."""
    own, kits = stands_on()
    at, lower = kit(), below(name, own)
    libraries = {"core", *(it for one in [*lower, name] for it in kits[one])}
    words = [f"{at}/bin/rattle", "check", "--crate-name", name, str(root(name))]
    words += ["-L", f"dependency={at}/rlibs"]
    for it in sorted(libraries):
        words += ["--extern", f"{it}={at}/rlibs/{it}.rlib"]
    for it in lower:
        uses = ",".join(["core", *kits[it], *own[it]])
        words += ["--lib", f"{it}:{uses}={root(it)}"]
    words += ["--antt-project", f"{at}/rattle/logic/antt-project.json"]
    return words + ["--logic-built", f"{at}/logic_built", "--jobs", str(jobs)]


def main(arguments: Sequence[str]) -> int:
    """Checks the crate, and ends with the check's status."""
    words = argparse.ArgumentParser(
        prog="verdict",
        description=__doc__,
        formatter_class=argparse.RawDescriptionHelpFormatter,
    )
    words.add_argument("name", nargs="?", default="fgate", help="a crate; else fgate")
    words.add_argument("--jobs", type=int, default=len(os.sched_getaffinity(0)))
    asked = words.parse_args(arguments)
    if asked.name not in dict(crate_lines()):
        print(f"verdict: crates.txt has no crate {asked.name}", file=sys.stderr)
        return 2
    command = words_for(asked.name, asked.jobs)
    return subprocess.run(command, cwd=CRATES / asked.name, check=False).returncode
