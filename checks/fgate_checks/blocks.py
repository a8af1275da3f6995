"""The fenced blocks and the tables of a document."""

from __future__ import annotations

import re
from collections.abc import Sequence
from dataclasses import dataclass


@dataclass
class Block:
    """A fenced block, with what stands above it."""

    line: int
    indent: str
    language: str
    above: str
    said: str
    text: str = ""

    @property
    def why_not_run(self) -> str | None:
        """Why the block isn't run, where a line above it says so."""
        found = re.fullmatch(r"<!-- not run: (.*) -->", self.above)
        return found[1] if found else None


def begun(number: int, fence: re.Match[str], above: Sequence[str]) -> Block:
    """A block that begins, with the line right above it and the last one that says."""
    said = (it.strip() for it in reversed(above))
    spoken = (it for it in said if it and not it.startswith("<!--"))
    near = above[-1].strip() if above else ""
    return Block(number, fence[1], fence[2], near, next(spoken, ""))


def blocks(text: str) -> list[Block]:
    """The fenced blocks of a document, in order."""
    found: list[Block] = []
    inside: Block | None = None
    above: list[str] = []
    for number, line in enumerate(text.splitlines(), 1):
        fence = re.fullmatch(r"( *)```(.*)", line)
        if inside is not None and fence:
            inside, above = None, []
        elif inside is not None:
            inside.text += re.sub("^" + inside.indent, "", line) + "\n"
        elif fence:
            inside = begun(number, fence, above)
            found.append(inside)
        else:
            above.append(line)
    return found


def commands(text: str) -> list[tuple[Block, str | None]]:
    """Each block `sh` with what it has to print.

    A block of another language that has no business there comes with none.
    """
    waiting: Block | None = None
    found: list[tuple[Block, str | None]] = []
    for block in blocks(text):
        if block.language == "text" and waiting is not None:
            found[-1] = (waiting, block.text)
            waiting = None
        elif block.language == "sh":
            waiting = block
            found.append((block, ""))
        elif block.language:
            found.append((block, None))
        else:
            waiting = None
    return found


def cells_of(line: str) -> list[str]:
    """The cells of a table's row, none where the line is no row."""
    if not line.startswith("|"):
        return []
    return [cell.strip() for cell in line.strip().strip("|").split("|")]


def rows(text: str, *heads: str) -> list[list[str]]:
    """The rows of the tables whose head has these first cells, each as its cells."""
    found: list[list[str]] = []
    is_inside = False
    for line in text.splitlines():
        cells = cells_of(line)
        if not cells:
            is_inside = False
        elif cells[: len(heads)] == list(heads):
            is_inside = True
        elif is_inside and not set(line) <= set("|-: "):
            found.append(cells)
    return found
