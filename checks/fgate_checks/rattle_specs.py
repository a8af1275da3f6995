"""Reads files of specs: their heads, and their public definitions with comments."""

from __future__ import annotations

import re
from dataclasses import dataclass
from pathlib import Path

from fgate_checks.rattle_code import plain


def definition(text: str, name: str) -> str | None:
    """A definition of a file of specs, with the comment above it."""
    lines = text.split("\n")
    for number, line in enumerate(lines):
        if re.match(
            r"(?:abbrev |unfoldable )*pub (?:record )?" + re.escape(name) + r" *:", line
        ):
            first, last = number, number
            while first and lines[first - 1].startswith("--"):
                first -= 1
            while last + 1 < len(lines) and lines[last + 1].strip():
                last += 1
            return "\n".join(lines[first : last + 1])
    return None


HEADS = re.compile(
    r"(?P<margin> *)(?:(?:abbrev|unfoldable) +)*pub +"
    r"(?:(?:record|data) +)?(?P<name>[^\s:({]+)"
)
MADE = re.compile(r" *(?:(?:abbrev|unfoldable) +pub|pub +(?:record|data)) ")
HANDED = re.compile(r"pub use Rattle\.([\w.]+)\.\{([^}]*)\}")
INTERNAL = re.compile(r"No public contract\s+cites\b")


@dataclass
class Definition:
    """A public definition of a file of specs. Without a name it is a comment."""

    name: str
    comment: list[str]
    lines: list[str]

    def shown(self) -> str:
        """Its name, with its arguments where its head or one equation names them."""
        lines = [line.strip() for line in self.lines]
        head = " ".join(lines)
        if re.match(r"pub +record ", head):
            told = re.split(r"\) : Type|\bwhere\b", head)[0] + ")"
            groups = re.findall(r"\(([^():]+):", told)
            return " ".join([self.name, *(it for one in groups for it in one.split())])
        begun = f"{self.name} "
        sides = [
            it.split(" =")[0] for it in lines if it.startswith(begun) and " =" in it
        ]
        if len(sides) != 1:
            return self.name
        words = sides[0].split()[1:]
        is_simple = all(re.fullmatch(r"[a-z]\w*'?", word) for word in words)
        return sides[0] if is_simple else self.name


class Specs:
    """A file of specs: its head, what it hands on, and its definitions in order."""

    def __init__(self, text: str) -> None:
        lines = text.split("\n")
        size = next((at for at, it in enumerate(lines) if not it.startswith("--")), 0)
        self.head = plain(lines[:size], "--")
        self.handed: list[tuple[str, str]] = []
        self.found: list[Definition] = []
        self.margin, self.comment, self.is_alone = "", list[str](), False
        self.entry: Definition | None = None
        for line in [*lines[size:], ""]:
            self.read(line)

    @property
    def is_internal(self) -> bool:
        """Whether no public contract cites the file, as its head says."""
        return INTERNAL.search(self.head) is not None

    def read(self, line: str) -> None:
        """Reads one line behind the head."""
        if line.startswith("module "):
            self.margin = "  "
        elif self.margin and re.match(r"[a-z]", line):
            self.margin = ""
        self.handed += [(used[1], used[2]) for used in HANDED.finditer(line)]
        head = HEADS.match(line) if MADE.match(line) else None
        if not line.strip():
            self.end_part()
        elif line.startswith(self.margin + "--"):
            self.comment = [*self.comment, line] if self.is_alone else [line]
            self.entry, self.is_alone = None, True
        elif head and head["margin"] == self.margin:
            shown = line[len(self.margin) :]
            self.entry = Definition(head["name"], self.comment, [shown])
            self.found.append(self.entry)
            self.is_alone = False
        else:
            self.is_alone = False
            if self.entry:
                self.entry.lines.append(line[len(self.margin) :])

    def end_part(self) -> None:
        """Ends what an empty line parts, and keeps a comment that stood alone."""
        if self.comment and self.is_alone:
            self.found.append(Definition("", self.comment, []))
        self.comment, self.entry, self.is_alone = [], None, False


def spec_files(crate: Path) -> list[Path]:
    """The files of a crate's specs, in the order of specs/Lib.antt.

    Those that it doesn't name stand behind them.
    """
    folder = crate / "specs"
    if not (folder / "Lib.antt").is_file():
        return []
    named = re.findall(
        r"^pub mod (\w+)", (folder / "Lib.antt").read_text(encoding="utf-8"), re.M
    )
    files = [folder / (name + ".antt") for name in named]
    return files + sorted(
        file
        for file in folder.glob("*.antt")
        if file not in files and file.name != "Lib.antt"
    )
