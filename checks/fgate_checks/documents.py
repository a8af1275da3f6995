"""Checks README.md, CONTRIBUTING.md, CHANGELOG.md and docs/*.md.

A fenced block `sh` of README.md and docs/GUIDE.md is run, and the block `text` behind
it is what it has to print on standard output and standard error. One with no such block
prints nothing. Each has to end with status 0. A block below the line `<!-- not run: WHY
-->` is left out, and told with its reason. A block with another language is wrong, one
with none is no command.

Each link has to lead to a file and a heading that are there, and each name of code in
backticks has to be in a file of the repository. Each finding is a line that ends with
`ok` or `WRONG`, and the status is 0 where all are ok.
"""

from __future__ import annotations

import argparse
import sys
from collections.abc import Iterator, Sequence
from dataclasses import dataclass

from fgate_checks import blocks, examples, links, names
from fgate_checks.repository import PROGRAM, TOP, documents

WITH_COMMANDS = ("README.md", "docs/GUIDE.md")


@dataclass
class Finding:
    """What was looked at, whether it is right, and what is wrong. None is neither."""

    name: str
    is_right: bool | None
    text: str = ""

    def tell(self) -> None:
        """Prints a line on it, and what is wrong on standard error."""
        if self.is_right is None:
            print(f"document {self.name}: {self.text}", flush=True)
            return
        if not self.is_right:
            print(self.text, end="", file=sys.stderr, flush=True)
        verdict = "ok" if self.is_right else "WRONG"
        print(f"document {self.name}: {verdict}", flush=True)


def of_links() -> Iterator[Finding]:
    """Each document's links."""
    for page in [*documents(), TOP / "CHANGELOG.md"]:
        wrong = "".join(
            f"{page.name}: {to} leads nowhere\n" for to in links.broken(page)
        )
        yield Finding(f"{page.name}, its links", not wrong, wrong)


def of_names() -> Finding:
    """The names of code in the documents."""
    wrong = "".join(f"{slip}\n" for slip in names.slips())
    return Finding("names of code", not wrong, wrong)


def of_blocks() -> Iterator[Finding]:
    """Each block of commands, run in order in one shell."""
    commands: list[tuple[str, blocks.Block, str]] = []
    for document in WITH_COMMANDS:
        text = (TOP / document).read_text(encoding="utf-8")
        before = len(commands)
        for block, wanted in blocks.commands(text):
            name = f"{document}:{block.line}"
            if wanted is None:
                yield Finding(f"{name}, a block of {block.language}", False)
            elif block.why_not_run:
                yield Finding(name, None, f"not run: {block.why_not_run}")
            else:
                commands.append((name, block, wanted))
        if len(commands) == before:
            yield Finding(f"{document} has no block that is run", False)
    printed = examples.run(TOP, [block for _, block, _ in commands])
    for (name, _, wanted), told in zip(commands, printed):
        yield Finding(name, wanted == told, f"wanted:\n{wanted}printed:\n{told}")


def findings(with_blocks: bool) -> Iterator[Finding]:
    """All that is looked at."""
    yield from of_links()
    yield of_names()
    if with_blocks:
        yield from of_blocks()


def main(arguments: Sequence[str]) -> int:
    """Checks all, and tells each finding."""
    words = argparse.ArgumentParser(
        prog="documents",
        description=__doc__,
        formatter_class=argparse.RawDescriptionHelpFormatter,
    )
    help_of_blocks = "look at links and names alone, without the built program"
    words.add_argument("--without-blocks", action="store_true", help=help_of_blocks)
    with_blocks = not words.parse_args(arguments).without_blocks
    if with_blocks and not PROGRAM.exists():
        print("document crates/fgate/out/fgate isn't built: WRONG")
        return 1
    status = 0
    for finding in findings(with_blocks):
        finding.tell()
        status = 1 if finding.is_right is False else status
    return status
