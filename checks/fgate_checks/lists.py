"""Lists what is tried, which lemmas other crates cite, and what was measured."""

from __future__ import annotations

import re
from collections.abc import Iterable, Iterator
from pathlib import Path

from fgate_checks.repository import CRATES, TOP, crate_folders

TESTS = """# Tests and edits

Made by `checks/pages` from names. A test runs in the gate. An edit changes one line \
of code, and the prover has to refuse it; the crate's page shows the line and the \
function. `checks/program` tells its own cases as it runs.
"""
LEMMAS = """# Lemma files that other crates cite

Made by `checks/pages` from the proofs. What a crate's code does is told by its \
clauses. These files prove facts about definitions alone.

| Crate | File | Cited by |
|---|---|---|
"""
FIGURES = """# Figures

Made by `checks/pages` from `bench/*/figures.txt`. A line is a name, a value and a \
unit. Above lines stands what they were measured on, and a line holds for its own run \
alone: compare only lines of one block. `bench/keep NAME` runs a bench and keeps its \
figures; those of trials and of planted bodies are written by hand. None is a promise.
"""

TEST = re.compile(
    r"((?:^ *//[^\n]*\n)*)^ *#\[test\]\n(?:^ *(?:#|//)[^\n]*\n)*^ *fn (\w+)", re.M
)
CITED = re.compile(r"\bRattle\.(\w+)\.proofs\.([A-Z]\w*)\b")
FIGURE = re.compile(r"[a-z]\w* -?\d+(?:\.\d+)? \S.*")


def in_words(name: str) -> str:
    """A name as words."""
    return name.replace("_", " ")


def tests_in(text: str) -> list[str]:
    """The tests of a file: the words of their names, and the comments above them."""
    found = []
    for comment, name in TEST.findall(text):
        lines = (line.strip().lstrip("/").strip() for line in comment.splitlines())
        said = " ".join(lines).rstrip(".")
        found.append(in_words(name) + (f" ({said})" if said else ""))
    return found


def tests_of(crate: Path) -> Iterator[tuple[str, list[str]]]:
    """Each file with tests, and these."""
    for file in sorted((crate / "src").rglob("*.rt")):
        found = tests_in(file.read_text(encoding="utf-8"))
        if found:
            yield file.relative_to(crate).as_posix(), found


def edits_of(crate: Path) -> Iterator[str]:
    """Each edit's words, with the file that it changes."""
    for file in sorted((crate / "must-fail").glob("*.edit")):
        text = file.read_text(encoding="utf-8")
        where = re.findall(r"^file: *(\S*)", text, re.M)[0]
        yield f"{in_words(file.stem)} (`{where}`)"


def listed(words: Iterable[str]) -> str:
    """The words; those that differ by a number alone once, with how many they are."""
    alike: dict[str, list[str]] = {}
    for one in words:
        alike.setdefault(re.sub(r"\d+", "N", one), []).append(one)
    told: list[str] = []
    for pattern, some in alike.items():
        told += some if len(some) < 4 else [f"{pattern}, {len(some)} times"]
    return "; ".join(told) + "."


def tests_page() -> str:
    """The page of tests and edits."""
    crates = crate_folders()
    found = {it.name: (list(tests_of(it)), list(edits_of(it))) for it in crates}
    tests = {it: sum(len(some) for _, some in one) for it, (one, _) in found.items()}
    edits = {it: len(some) for it, (_, some) in found.items()}
    out = [TESTS, "| What | How many | In |", "|---|---|---|"]
    for what, counts in (("tests", tests), ("edits", edits)):
        many = sum(map(bool, counts.values()))
        out.append(f"| {what} | {sum(counts.values()):,} | {many} crates |")
    out += ["", "## Tests", ""]
    for name, (files, _) in found.items():
        rows = [f"- `{file}`: {listed(some)}" for file, some in files]
        out += [f"### {name}: {tests[name]}", "", *rows, ""] if rows else []
    out += ["## Edits", ""]
    for name, (_, changes) in found.items():
        rows = [f"- {change}" for change in changes]
        out += [f"### {name}, its edits: {len(rows)}", "", *rows, ""] if rows else []
    return "\n".join(out).rstrip("\n") + "\n"


def citations(crate: Path) -> Iterator[tuple[str, str]]:
    """The lemma files of other crates that a crate cites."""
    for file in sorted(crate.rglob("*.antt")):
        if "out" in file.relative_to(crate).parts:
            continue
        for other, name in CITED.findall(file.read_text(encoding="utf-8")):
            at = CRATES / other / "proofs" / f"{name}.antt"
            if other != crate.name and at.is_file():
                yield other, name


def lemmas_page() -> str:
    """The table of lemma files that other crates cite."""
    found: dict[tuple[str, str], dict[str, None]] = {}
    for crate in crate_folders():
        for cited in citations(crate):
            found.setdefault(cited, {})[crate.name] = None
    order = {crate.name: place for place, crate in enumerate(crate_folders())}
    rows = sorted(found, key=lambda one: (order[one[0]], one[1]))
    return LEMMAS + "".join(
        f"| {crate} | `{name}` | {', '.join(found[crate, name])} |\n"
        for crate, name in rows
    )


def told_figures(text: str, name: str) -> list[str]:
    """A file of figures: each block with what it was measured on."""
    out: list[str] = []
    is_open = False
    for line in text.splitlines():
        if line.startswith("on "):
            out += ["```", ""] if is_open else []
            out += [line[0].upper() + line[1:] + ":", ""]
            is_open = False
        elif FIGURE.fullmatch(line):
            out += [line] if is_open else ["```text", line]
            is_open = True
        else:
            raise ValueError(f"{name}: neither 'on ..' nor a figure: {line}")
    return out + (["```", ""] if is_open else [])


def figures_page() -> str:
    """The figures of all benches."""
    out = [FIGURES]
    for file in sorted((TOP / "bench").glob("*/figures.txt")):
        name = file.parent.relative_to(TOP).as_posix()
        out += [f"## {name}", "", *told_figures(file.read_text("utf-8"), name)]
    return "\n".join(out).rstrip("\n") + "\n"
