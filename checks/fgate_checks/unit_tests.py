"""Runs the unit tests of all crates, unproved, from one build or two.

`rt try --test` compiles a crate and the sources of all below it, so one call for each
crate would compile the lowest crates again and again. Here the tests of all crates are
gathered in one crate (in two, side by side, where there is room), with modules named
for the crates that they come from, which is compiled and run with the checks of `rt
try`: it stops at an index out of bounds, an overflow, a failed unwrap or a bad access.
Nothing is proved: `rt ci` proves the tests and runs each as it is.

A few tests take minutes in a build with checks. They are left to `rt ci`, and told.
"""

from __future__ import annotations

import argparse
import os
import re
import shutil
import subprocess
import sys
import tempfile
from collections.abc import Iterator, Sequence
from concurrent.futures import ThreadPoolExecutor
from pathlib import Path

from fgate_checks.rattle_code import END, LITERAL, after_any, after_braces
from fgate_checks.repository import CRATES, TOP, crate_lines

GATHERED = "gathered_tests"
SECONDS = 280  # for all tests of a build
A_BUILD = 3 * 1024**2  # in the kilobytes of /proc/meminfo
# What takes minutes in a build with checks, each by its crate, its file and its name.
LEFT_OUT = (
    ("fg_trace_tests", "tests.rt", "each_cut_in_bytes"),
    ("fg_trace_tests", "tests.rt", "each_cut_in_pieces"),
)
TEST = re.compile(r"^ *#\[test\]\n", re.M)
ENDED = re.compile(r"^test (\S+) \.\.\. (\w+)", re.M)


class Unfit(Exception):
    """A crate whose tests can't be gathered."""


def without_test(text: str, name: str) -> str:
    """A file's text without one test."""
    head = rf"^ *#\[test\]\n(?: *(?:#|//).*\n)* *fn {name}\("
    found = re.search(head, text, re.M)
    if found is None:
        raise Unfit(f"there is no test {name} to be left out")
    body = after_any(text, found.end() - 1, END)
    return text[: found.start()] + text[after_braces(text, body, LITERAL) :]


def as_module(text: str) -> str:
    """A root file's text as that of a module."""
    return re.sub(r"^(//!|#!\[).*\n", "", text, flags=re.M)


def of_library(text: str, crate: str) -> str:
    """The text of a library's own tests, which name the library from outside."""
    text = re.sub(r"\buse super::\*;", f"use {crate}::*;", text)
    return re.sub(r"\bcrate::", f"{crate}::", text)


def copy_tests(crate: str, to: Path) -> None:
    """Copies the tests of a crate of tests as a module."""
    source = CRATES / crate / "src"
    (to / crate).mkdir()
    for file in source.rglob("*.rt"):
        text = file.read_text(encoding="utf-8")
        at = to / crate / file.relative_to(source)
        if file == source / "lib.rt":
            at, text = to / f"{crate}.rt", as_module(text)
        for place, within, name in LEFT_OUT:
            if file == CRATES / place / "src" / within:
                text = without_test(text, name)
        at.parent.mkdir(exist_ok=True, parents=True)
        at.write_text(text, encoding="utf-8")


def copy_own_tests(crate: str, to: Path) -> None:
    """Copies the tests that stand in a library."""
    file = CRATES / crate / "src/tests.rt"
    text = file.read_text(encoding="utf-8")
    if "super::super" in text or file.with_suffix("").is_dir():
        raise Unfit(f"{crate} has tests of another form than one file")
    (to / f"of_{crate}.rt").write_text(of_library(text, crate), encoding="utf-8")


def stray_tests(crate: str) -> Iterator[str]:
    """The files of a library that have tests beside src/tests.rt."""
    source = CRATES / crate / "src"
    for file in sorted(source.rglob("*.rt")):
        if file != source / "tests.rt" and TEST.search(file.read_text("utf-8")):
            yield file.relative_to(CRATES).as_posix()


def copy_library(crate: str, to: Path) -> None:
    """Copies a library's sources."""
    for part in ("src", "specs", "proofs"):
        if (CRATES / crate / part).is_dir():
            shutil.copytree(CRATES / crate / part, to / crate / part)


def crates_with_tests() -> list[str]:
    """The crates that have tests, each of a form that can be gathered."""
    found = []
    for name, _ in crate_lines():
        source = CRATES / name / "src"
        if name.endswith("_tests"):
            found.append(name)
            continue
        for file in stray_tests(name):
            raise Unfit(f"{file} has tests: they stand in src/tests.rt")
        if (source / "tests.rt").is_file():
            found.append(name)
    return found


def gather(folder: Path, wanted: Sequence[str]) -> Path:
    """Makes a repository of the libraries and one crate of the tests of some crates."""
    crates = folder / "crates"
    root = crates / GATHERED / "src"
    root.mkdir(parents=True)
    lines, modules, uses = [], [], dict[str, None]()
    for name, below in crate_lines():
        if (CRATES / name / "src/main.rt").is_file():
            continue
        is_of_tests = name.endswith("_tests")
        if not is_of_tests:
            copy_library(name, crates)
            lines.append(f"{name}: {' '.join(below)}")
        if name not in wanted:
            continue
        if is_of_tests:
            copy_tests(name, root)
            modules.append(name)
            uses |= dict.fromkeys(below)
        else:
            copy_own_tests(name, root)
            modules.append(f"of_{name}")
            uses |= dict.fromkeys([name, *below])
    lines.append(f"{GATHERED} tests_may=Threads+Wait: {' '.join(uses)}")
    (folder / "crates.txt").write_text("\n".join(lines) + "\n", encoding="utf-8")
    shutil.copy(TOP / "HANDLES", folder / "HANDLES")
    declared = "".join(f"#[cfg(test)]\nmod {name};\n" for name in modules)
    (root / "lib.rt").write_text(f"#![tactic(auto)]\n\n{declared}", encoding="utf-8")
    return crates / GATHERED


def shares() -> int:
    """How many builds run side by side: two, where processors and memory allow."""
    with open("/proc/meminfo", encoding="ascii") as lines:
        free = next(line for line in lines if line.startswith("MemAvailable"))
    has_room = int(free.split()[1]) > 2 * A_BUILD
    return 2 if has_room and len(os.sched_getaffinity(0)) > 2 else 1


def count(crate: Path) -> int:
    """How many tests the gathered crate has."""
    files = (crate / "src").rglob("*.rt")
    return sum(len(TEST.findall(file.read_text(encoding="utf-8"))) for file in files)


def run(crate: Path) -> tuple[int, int]:
    """Runs the tests, tells each line as it comes, and counts those that passed."""
    command = ["rt", "try", "--test", "--seconds", str(SECONDS)]
    passed = 0
    with subprocess.Popen(
        command, cwd=crate, stdout=subprocess.PIPE, stderr=subprocess.STDOUT, text=True
    ) as told:
        assert told.stdout is not None
        for line in told.stdout:
            print(line, end="", flush=True)
            ended = ENDED.match(line)
            passed += ended is not None and ended[2] == "ok"
    return told.returncode, passed


def run_share(wanted: Sequence[str]) -> tuple[int, int, int]:
    """Gathers and runs the tests of some crates: status, passed, and how many."""
    with tempfile.TemporaryDirectory() as folder:
        crate = gather(Path(folder), wanted)
        status, passed = run(crate)
        return status, passed, count(crate)


def main(arguments: Sequence[str]) -> int:
    """Runs the tests; the status is 0 where each that was gathered passed."""
    words = argparse.ArgumentParser(
        prog="unit_tests",
        description=__doc__,
        formatter_class=argparse.RawDescriptionHelpFormatter,
    )
    words.parse_args(arguments)
    try:
        every, number = crates_with_tests(), shares()
        parts = [every[first::number] for first in range(number)]
        with ThreadPoolExecutor(number) as pool:
            ended = list(pool.map(run_share, parts))
    except Unfit as fault:
        print(f"unit_tests: {fault}", file=sys.stderr)
        return 1
    for place, _, name in LEFT_OUT:
        print(f"left to rt ci: {place}, {name}")
    passed, wanted = sum(it[1] for it in ended), sum(it[2] for it in ended)
    print(f"unit tests: {passed} of {wanted} passed, {len(LEFT_OUT)} left to rt ci")
    is_right = passed == wanted and all(status == 0 for status, _, _ in ended)
    return 0 if is_right else 1
