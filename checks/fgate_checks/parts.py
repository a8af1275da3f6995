"""The parts of tools/test: what each runs, and how what it prints is counted."""

from __future__ import annotations

import os
import re
import subprocess
import sys
import tempfile
import time
from collections.abc import Callable, Mapping, Sequence
from dataclasses import dataclass
from pathlib import Path

from fgate_checks.repository import TOP

PYTHON = "/usr/bin/python3"  # Debian's, for which its packages are installed


@dataclass
class Count:
    """How many passed and failed."""

    passed: int
    failed: int

    def __add__(self, other: Count) -> Count:
        return Count(self.passed + other.passed, self.failed + other.failed)


def of_findings(text: str) -> Count:
    """Counts the lines that end with `ok` and with `WRONG`."""
    right = len(re.findall(r"^\w+ .*: ok$", text, re.M))
    return Count(right, len(re.findall(r"^\w+ .*: WRONG$", text, re.M)))


def of_unit_tests(text: str) -> Count:
    """Counts what checks/unit_tests tells last."""
    found = re.search(r"^unit tests: (\d+) of (\d+) passed", text, re.M)
    if found is None:
        return Count(0, 1)
    return Count(int(found[1]), int(found[2]) - int(found[1]))


def of_pytest(text: str) -> Count:
    """Counts what pytest tells last. A test that is skipped counts as failed."""
    lines = text.strip().splitlines()
    told = re.findall(r"(\d+) (\w+)", lines[-1]) if lines else []
    failed = sum(int(count) for count, what in told if FAILED.fullmatch(what))
    return Count(sum(int(it) for it, what in told if what == "passed"), failed)


FAILED = re.compile(r"failed|errors?|skipped")


def of_one(text: str) -> Count:
    """Counts a part that is right or wrong as a whole."""
    return Count(1, 0)


def judged(count: Count, status: int) -> Count:
    """A part's count beside its status: one that passed nothing has failed."""
    is_right = status == 0 and count.passed and not count.failed
    if is_right or count.failed:
        return count
    return Count(0 if status else count.passed, 1)


@dataclass
class Part:
    """A part: its name, the command, where it is run, and how it is counted."""

    name: str
    words: Sequence[str]
    counts: Callable[[str], Count] = of_one
    environment: Mapping[str, str] | None = None

    def run(self) -> Count:
        """Runs it, and tells how it ended; what it printed where it failed."""
        begun = time.monotonic()
        environment = {**os.environ, **(self.environment or {})}
        environment["PATH"] = f"/usr/bin:/bin:{environment['PATH']}"
        environment["PYTHONDONTWRITEBYTECODE"] = "1"
        with tempfile.TemporaryFile("w+", errors="replace") as told:
            try:
                status = subprocess.run(
                    self.words,
                    cwd=TOP,
                    stdin=subprocess.DEVNULL,
                    stdout=told,
                    stderr=subprocess.STDOUT,
                    env=environment,
                    check=False,
                ).returncode
            except OSError as fault:
                told.write(f"{self.words[0]}: {fault.strerror}\n")
                status = 127
            told.seek(0)
            text = told.read()
        count = judged(self.counts(text), status)
        seconds = time.monotonic() - begun
        end = f"{count.passed} passed, {count.failed} failed, {seconds:.0f} s"
        # In one write, so that parts that end together don't mix their lines.
        shown = text if count.failed else notes(text)
        sys.stdout.write(f"{shown}{self.name}: {end}\n")
        sys.stdout.flush()
        return count


def notes(text: str) -> str:
    """Of what a part printed that passed, the lines on what it left out."""
    lines = re.findall(r"^(?:left to .*|document .*: not run: .*)$", text, re.M)
    return "".join(f"{line}\n" for line in lines)


def scripts(folder: Path) -> list[str]:
    """The Python scripts of a folder that have no ending."""
    files = (it for it in sorted(folder.iterdir()) if it.is_file() and not it.suffix)
    return [str(it) for it in files if it.read_bytes().startswith(b"#!/usr/bin/env py")]


def sources() -> list[str]:
    """All that is held to one style: the packages, and the scripts of tools/."""
    tools = [*scripts(TOP / "tools"), str(TOP / "tools/kits_rt.py")]
    return ["checks", "python", *tools]


def of_types() -> list[Part]:
    """What mypy looks at: each package with its tests, and the scripts of tools/."""
    parts = []
    for name, package in (("checks", "fgate_checks"), ("python", "fgate")):
        config = f"{name}/pyproject.toml"
        words = [PYTHON, "-m", "mypy", "--config-file", config]
        folders = [f"{name}/{package}", f"{name}/tests"]
        parts.append(Part(f"types of {name}", [*words, *folders]))
    words = [PYTHON, "-m", "mypy", "--config-file", "checks/pyproject.toml"]
    words += ["--scripts-are-modules", "tools/kits_rt.py", *scripts(TOP / "tools")]
    path = {"MYPYPATH": "tools:checks"}
    return [*parts, Part("types of tools", words, environment=path)]


def of_style() -> list[Part]:
    """What flake8 and black look at."""
    flake8 = [PYTHON, "-m", "flake8", "--config", "checks/.flake8", *sources()]
    black = [PYTHON, "-m", "black", "--check", "--quiet", *sources()]
    black += ["--config", "checks/pyproject.toml"]
    return [Part("flake8", flake8), Part("black", black)]


def of_pytests() -> list[Part]:
    """The tests of the two packages."""
    words = [PYTHON, "-m", "pytest", "-q", "-rs", "-p", "no:cacheprovider"]
    return [
        Part(f"pytest of {name}", [*words, name], of_pytest)
        for name in ("python", "checks")
    ]


def all_parts(with_unit_tests: bool, with_both_builds: bool) -> list[Part]:
    """All parts, the longest first."""
    tests = Part("unit tests", ["checks/unit_tests"], of_unit_tests)
    cases = ["checks/program", *([] if with_both_builds else ["--first"])]
    return [
        *([tests] if with_unit_tests else []),
        Part("cases of the program", cases, of_findings),
        Part("documents", ["checks/documents"], of_findings),
        *of_pytests(),
        *of_types(),
        *of_style(),
        Part("pictures", ["checks/draw", "--check"]),
    ]
