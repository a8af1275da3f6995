"""Shows by an input that each must-fail edit changes what the code does.

That the prover refuses an edit shows nothing where the edited code does the
same as before. So `edits.txt` beside `checks/run` names an input for each
edit, in a line of one of these forms:

    CRATE/EDIT: test CRATE PATH     this test, which passes, fails
    CRATE/EDIT: example NAME        the program answers this worked example
                                    otherwise on standard output or by status
    CRATE/EDIT: open WHY            no input is named yet

An edit is applied to a copy of the crates, which `rt try` builds unproved.
With no flag each edit that has an input is tried, and with --sample some. No
gate runs it: a build is made for each edit, which takes a minute or more. It
is called by hand, after edits or the code they change were written anew.
"""

import argparse
import random
import re
import shutil
import subprocess
import sys
import tempfile
from collections.abc import Callable, Iterator
from concurrent.futures import ThreadPoolExecutor
from dataclasses import dataclass
from functools import partial
from pathlib import Path
from queue import Queue

from fgate_checks.repository import TOP
from fgate_checks.trials.built.examples import begun
from fgate_checks.trials.built.worked_reports import Example

TABLE = TOP / "checks" / "edits.txt"
SECONDS = 1200


class Unusable(Exception):
    """An edit, a line of the table or a build that says nothing."""


@dataclass(frozen=True)
class Edit:
    """A must-fail edit, and what the table says of it."""

    crate: str
    name: str
    kind: str
    words: tuple[str, ...]

    def __str__(self) -> str:
        return f"{self.crate}/{self.name}"


def table() -> list[Edit]:
    """The edits of the table, each on a line of its own."""
    found = []
    for line in TABLE.read_text().splitlines():
        if not line or line.startswith("#"):
            continue
        name, colon, said = line.partition(": ")
        crate, slash, edit = name.partition("/")
        words = tuple(said.split())
        right = {"test": len(words) == 3, "example": len(words) == 2, "open": True}
        if not colon or not slash or not words or not right.get(words[0], False):
            raise Unusable(f"edits.txt has a line of no known form: {line}")
        found.append(Edit(crate, edit, words[0], words[1:]))
    return found


def unlike_the_files(edits: list[Edit]) -> Iterator[str]:
    """Tells each edit that the table lacks, has twice, or that is no file."""
    named = [str(it) for it in edits]
    files = {
        f"{it.parent.parent.name}/{it.stem}"
        for it in TOP.glob("crates/*/must-fail/*.edit")
    }
    for name in sorted(files - set(named)):
        yield f"{name}: edits.txt has no line for it"
    for name in sorted(set(named) - files):
        yield f"{name}: edits.txt names it, and there is no such edit"
    for name in sorted({it for it in named if named.count(it) > 1}):
        yield f"{name}: edits.txt has more than one line for it"


def copy_of_crates(to: Path) -> None:
    """Copies what `rt try` reads of the crates."""
    for file in ("crates.txt", "HANDLES"):
        shutil.copy(TOP / file, to / file)
    for crate in (TOP / "crates").iterdir():
        for part in ("src", "specs"):
            if (crate / part).is_dir():
                shutil.copytree(crate / part, to / "crates" / crate.name / part)


def edited(edit: Edit) -> dict[str, str]:
    """The texts of the files that the edit changes, by their path in the crate."""
    folder = TOP / "crates" / edit.crate
    path, old, texts = "", "", dict[str, str]()
    for line in (folder / "must-fail" / f"{edit.name}.edit").read_text().split("\n"):
        kind, _, rest = line.partition(":")
        rest = rest.removeprefix(" ")
        if kind == "file":
            path = rest.strip()
            texts.setdefault(path, (folder / path).read_text())
        elif kind == "old":
            old = rest
        elif kind == "new":
            if texts[path].count(old) != 1:
                raise Unusable(f"an old text doesn't stand once in {path}")
            texts[path] = texts[path].replace(old, rest)
    return texts


def rt_try(copy: Path, crate: str, words: list[str]) -> str:
    """What `rt try` tells of the crate in the copy."""
    ended = subprocess.run(
        ["rt", "try", *words],
        cwd=copy / "crates" / crate,
        stdin=subprocess.DEVNULL,
        stdout=subprocess.PIPE,
        stderr=subprocess.STDOUT,
        errors="replace",
        timeout=SECONDS,
    )
    return ended.stdout


def results_of_tests(copy: Path, crate: str) -> dict[str, bool]:
    """Whether each test of the crate passes, but for those that gave no answer."""
    said = rt_try(copy, crate, ["--test"])
    found = {}
    for told in re.split(r"^test ", said, flags=re.M):
        result = re.match(r"(\S+) \.\.\. (\w+)$", told, re.M)
        if result and "time limit" not in told and "no-answer" not in told:
            found[result[1]] = result[2] == "ok"
    if not found:
        raise Unusable(f"no test of {crate} ran: {said.strip()[-300:]}")
    return found


def results_of_examples(copy: Path, cases: dict[str, Example]) -> dict[str, bool]:
    """Whether the program answers each example as it should."""
    with tempfile.TemporaryDirectory(prefix="edits-cases-") as room:
        folder = Path(room)
        for name, case in cases.items():
            (folder / name).write_bytes(case.given)
            (folder / f"{name}.args").write_text("\n".join(case.words.split()) + "\n")
            (folder / f"{name}.stdout").write_bytes(case.out)
        said = rt_try(copy, "fgate", ["--cases", str(folder)])
    found = {}
    for name, ended, rest in re.findall(r"^case=(\S+) (\S+)(.*)$", said, re.M):
        status = re.search(r"status=(\d+)", ended + rest)
        right = status is not None and int(status[1]) == cases[name].status
        found[name] = right and "output=differs" not in rest
    if not found:
        raise Unusable(f"no example ran: {said.strip()[-300:]}")
    return found


def results(copy: Path, edit: Edit) -> dict[str, bool]:
    """The results among which that of the edit's input is."""
    if edit.kind == "test":
        return results_of_tests(copy, edit.words[0])
    name = edit.words[0]
    return results_of_examples(copy, {name: begun()[name]})


def with_edit(copy: Path, edit: Edit, run: Callable[[], dict[str, bool]]) -> list[str]:
    """The names of what fails with the edit, which is then taken back."""
    texts = edited(edit)
    for path, text in texts.items():
        (copy / "crates" / edit.crate / path).write_text(text)
    try:
        return [name for name, passes in run().items() if not passes]
    finally:
        for path in texts:
            part = Path("crates") / edit.crate / path
            shutil.copy(TOP / part, copy / part)


def shows(copy: Path, edit: Edit) -> str:
    """Nothing where the edit's input shows it, or else why not."""
    try:
        failed = with_edit(copy, edit, lambda: results(copy, edit))
    except (Unusable, OSError, KeyError, subprocess.TimeoutExpired) as fault:
        return f"could not be tried: {fault}"
    if edit.words[-1] in failed:
        return ""
    return f"{' '.join(edit.words)} passes with it" + (
        f", and these fail: {', '.join(failed)}" if failed else ""
    )


def find(copy: Path, edit: Edit, crates: list[str]) -> list[str]:
    """Lines for the table: each test of the crates, or each example, that fails."""
    lines = []
    for crate in crates:
        run = partial(results_of_tests, copy, crate)
        form = f"test {crate}"
        if crate == "fgate":
            run = partial(results_of_examples, copy, begun())
            form = "example"
        try:
            failed = with_edit(copy, edit, run)
            lines += [f"{edit}: {form} {name}" for name in failed]
            lines += [] if failed else [f"# {edit}: nothing of {crate} fails"]
        except (Unusable, OSError, subprocess.TimeoutExpired) as fault:
            lines.append(f"# {edit}: {crate} could not be tried: {fault}")
    return lines


def each(edits: list[Edit], jobs: int, run: Callable[[Path, Edit], list[str]]) -> int:
    """Runs this for each edit, some at a time, and tells its lines as they come.
    The answer is how many lines there were."""
    lines = 0
    with tempfile.TemporaryDirectory(prefix="edits-") as room:
        copies: Queue[Path] = Queue()
        for number in range(jobs):
            copy = Path(room) / str(number)
            copy.mkdir()
            copy_of_crates(copy)
            copies.put(copy)

        def one(edit: Edit) -> list[str]:
            copy = copies.get()
            try:
                return run(copy, edit)
            finally:
                copies.put(copy)

        with ThreadPoolExecutor(jobs) as pool:
            for told in pool.map(one, edits):
                lines += len(told)
                for line in told:
                    print(line, flush=True)
    return lines


def chosen(edits: list[Edit], names: list[str]) -> list[Edit]:
    """The edits of these crates, or with these names; all where none is named."""
    return [it for it in edits if not names or it.crate in names or str(it) in names]


def try_each(edits: list[Edit], jobs: int) -> int:
    """Tries each edit, tells what shows it, and answers how many are not shown."""
    wrong = []

    def run(copy: Path, edit: Edit) -> list[str]:
        why = shows(copy, edit)
        wrong.extend([edit] if why else [])
        return [f"edit {edit}: {f'NOT SHOWN: {why}' if why else 'shown'}"]

    each(edits, jobs, run)
    return len(wrong)


def arguments_of(arguments: list[str]) -> argparse.Namespace:
    parser = argparse.ArgumentParser(prog="checks/edits", description=__doc__)
    parser.formatter_class = argparse.RawDescriptionHelpFormatter
    parser.add_argument("names", nargs="*", metavar="NAME", help="CRATE or CRATE/EDIT")
    parser.add_argument("--sample", type=int, metavar="N", help="try N of the edits")
    parser.add_argument("--seed", help="chooses the sample; else it is drawn")
    parser.add_argument("--jobs", type=int, default=1, help="builds at a time")
    parser.add_argument(
        "--table", action="store_true", help="compare table and files alone"
    )
    parser.add_argument(
        "--find",
        metavar="CRATES",
        help="print what fails of the tests of CRATE,.. with each edit NAME: "
        "lines for the table. fgate stands for the worked examples",
    )
    return parser.parse_args(arguments)


def main(arguments: list[str]) -> int:
    asked = arguments_of(arguments)
    try:
        edits = table()
    except Unusable as fault:
        print(f"edits: {fault}", file=sys.stderr)
        return 1
    if asked.find:
        crates = asked.find.split(",")
        run = partial(find, crates=crates)
        each(chosen(edits, asked.names), asked.jobs, run)
        return 0
    unlike = list(unlike_the_files(edits))
    for line in unlike:
        print(f"edits: {line}", file=sys.stderr)
    still_open = [it for it in edits if it.kind == "open"]
    tried = [it for it in chosen(edits, asked.names) if it.kind != "open"]
    if asked.table:
        tried = []
    elif asked.sample is not None:
        tried = random.Random(asked.seed).sample(tried, min(asked.sample, len(tried)))
    wrong = len(unlike) + try_each(tried, asked.jobs)
    print(
        f"edits: {len(edits)} in the table, {len(still_open)} of them open; "
        f"{len(tried)} tried, {wrong} wrong"
    )
    return 1 if wrong else 0
