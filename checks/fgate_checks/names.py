"""Finds names of code in the documents that no file of the repository has.

It reads what stands in backticks in README.md, CONTRIBUTING.md and docs/*.md, blocks
left aside: names with an underscore, names with a capital, paths with `::`, and paths
of files. A name is there where a file of the repository has it as a word or in its own
path, and a path with `::` where one file has all its parts. A file is there by its path
or a part of it, and below a heading that names crates by its path in one of them. Where
a row of a table names such files, its first cell has names that stand in them, and so
has a paragraph of docs/MODEL.md that names files. Each slip is told with its place, and
the status is then 1.
"""

from __future__ import annotations

import argparse
import os
import re
from collections.abc import Iterator, Mapping, Sequence
from pathlib import Path

from fgate_checks.repository import TOP, documents

FOLDERS = ("crates", "tools", "python", "checks", "gateway", "bench", ".ci")
# Names of the kit and of other tools.
ELSEWHERE = {
    "net.core.rmem_max",
    "rtp_mpegts",
    "start_lib",
    "start_io",
    "transparent_hugepage",
}

# What a run writes or a reader makes, patterns of names, and kinds of files.
NOT_THERE = re.compile(
    r"(^|/)out(/|$)|\.ts$|[A-Z]{2,}|^/|\.\.|\*|^\.\w+$|^\w+\.(trace|report)$"
    r"|^(flows|failed)\.(txt|json)$|^docs/made"
)

NAME = re.compile(r"[A-Za-z]\w*(?:(?:::|\.)[A-Za-z]\w*)*")
PATH = re.compile(r"\.?[\w.]+(?:/[\w.]+)*/?")
WORD = re.compile(r"\w+")
TICKED = re.compile(r"`([^`]+)`")
ENDINGS = (".rt", ".antt", ".edit", ".md", ".txt", ".rs", ".py")
IN_A_CRATE = ("src/", "specs/", "proofs/", "must-fail/")


def is_name(word: str) -> bool:
    """Whether a word is a name of code and no word of the language."""
    is_type = re.match(r"[A-Z]\w*[a-z]", word) is not None
    return is_type or "_" in word and not word.isupper()


def is_path(text: str) -> bool:
    """Whether the text is a path of a file or a folder."""
    is_file = "/" in text or text.endswith(ENDINGS)
    return is_file and PATH.fullmatch(text) is not None


def files_below(folder: Path) -> Iterator[Path]:
    """The files of a folder. What was built is left aside."""
    for at, inner, found in os.walk(folder):
        inner[:] = [name for name in inner if name not in ("out", "__pycache__")]
        yield from (Path(at) / name for name in found)


class Known:
    """The words of each file of the repository and of its path, by its path."""

    def __init__(self) -> None:
        self.files: dict[str, set[str]] = {}
        for file in (it for name in FOLDERS for it in files_below(TOP / name)):
            place = file.relative_to(TOP).as_posix()
            is_this = file == Path(__file__).resolve()
            text = "" if is_this else file.read_bytes().decode("utf-8", "replace")
            self.files[place] = set(WORD.findall(f"{place} {text}"))
        crates = (TOP / "crates.txt").read_text(encoding="utf-8")
        self.files["crates.txt"] = set(WORD.findall(crates))
        for file in [*TOP.glob("*"), *(TOP / "docs").rglob("*")]:
            self.files.setdefault(file.relative_to(TOP).as_posix(), set())
        self.words = set().union(*self.files.values())

    def at(self, path: str, crates: Sequence[str]) -> list[str]:
        """The files that a path names: in these crates, where it is a crate's path."""
        path = path.rstrip("/")
        if crates and path.startswith(IN_A_CRATE):
            ends = tuple(f"crates/{crate}/{path}/" for crate in crates)
            return [file for file in self.files if f"{file}/".startswith(ends)]
        return [file for file in self.files if f"/{path}/" in f"/{file}/"]

    def has(self, name: str) -> bool:
        """Whether some file has a name, and one file all parts of a path with `::`."""
        pieces = re.split(r"::|\.", name)
        if "::" in name:
            return any(known.issuperset(pieces) for known in self.files.values())
        names = [piece for piece in pieces if is_name(piece)]
        return all(piece in self.words or piece in ELSEWHERE for piece in names)

    def missing(self, text: str, crates: Sequence[str]) -> Iterator[str]:
        """The names within one pair of backticks that no file has."""
        for part in text.split():
            part = part.strip(",;()[]{}<>\"'&")
            if not part or part in ELSEWHERE:
                continue
            if is_path(part):
                if not NOT_THERE.search(part) and not self.at(part, crates):
                    yield part
            else:
                yield from (it for it in NAME.findall(part) if not self.has(it))

    def misplaced(self, line: str, page: Path, crates: Sequence[str]) -> Iterator[str]:
        """The names of a line that none of the files has that the line names."""
        told = names_of(line, page)
        paths = [it for it in TICKED.findall(line) if is_path(it)]
        sources = [it for it in paths if it.endswith((".antt", ".rt"))]
        named = [file for path in sources for file in self.at(path, crates)]
        if told and named:
            known = set[str]().union(*(self.files[file] for file in named))
            yield from (name for name in told if name not in known)


def names_of(line: str, page: Path) -> list[str]:
    """The names in a row's first cell, or in a paragraph on the model."""
    if line.startswith("| `"):
        found = TICKED.findall(line.split("|")[1])
        return [name for name in found if WORD.fullmatch(name)]
    if page.name == "MODEL.md":
        found = TICKED.findall(line)
        return [name for name in found if WORD.fullmatch(name) and is_name(name)]
    return []


def crates_of(line: str, crates: Sequence[str]) -> Sequence[str]:
    """The crates that the sections from a heading on speak of."""
    named = re.findall(r"\bfg_\w+|\bfgate\b", line)
    return named or (crates if line.startswith("###") else [])


def lines_outside_blocks(page: Path) -> Iterator[tuple[int, str]]:
    """The lines of a document that stand in no block, each with its number."""
    is_inside = False
    for number, line in enumerate(page.read_text(encoding="utf-8").split("\n"), 1):
        if line.startswith("```"):
            is_inside = not is_inside
        if not is_inside:
            yield number, line


def slips() -> Iterator[str]:
    """Each slip, with its place."""
    known = Known()
    for page in documents():
        crates: Sequence[str] = []
        for number, line in lines_outside_blocks(page):
            if line.startswith("#"):
                crates = crates_of(line, crates)
            place = f"{page.relative_to(TOP)}:{number}"
            for text in TICKED.findall(line):
                for name in known.missing(text, crates):
                    yield f"{place}: no file has {name}"
            for name in known.misplaced(line, page, crates):
                yield f"{place}: the files named there don't have {name}"


def main(arguments: Sequence[str]) -> int:
    """Tells each slip."""
    words = argparse.ArgumentParser(
        prog="names",
        description=__doc__,
        formatter_class=argparse.RawDescriptionHelpFormatter,
    )
    words.parse_args(arguments)
    found: Mapping[str, None] = dict.fromkeys(slips())
    for slip in found:
        print(slip)
    return 1 if found else 0
