"""Where things stand in the repository."""

from __future__ import annotations

import re
from collections.abc import Iterator
from pathlib import Path

TOP = Path(__file__).resolve().parents[2]
CRATES = TOP / "crates"
PROGRAM = CRATES / "fgate/out/fgate"


def documents() -> list[Path]:
    """The documents that are written by hand, but for the list of changes."""
    guides = sorted((TOP / "docs").glob("*.md"))
    return [TOP / "README.md", TOP / "CONTRIBUTING.md", *guides]


def crate_lines() -> Iterator[tuple[str, list[str]]]:
    """Each crate of crates.txt with what it stands on, the lowest first."""
    for line in (TOP / "crates.txt").read_text(encoding="utf-8").splitlines():
        if line and not line.startswith("#"):
            head, _, uses = line.partition(":")
            yield re.split(r" ", head)[0], uses.split()


def crate_folders() -> list[Path]:
    """The folders of the crates, in the order of crates.txt."""
    return [CRATES / name for name, _ in crate_lines()]
