"""Makes a page for a crate: its public functions, definitions and must-fail edits.

A function is public where a path from the crate's root leads to it by `pub` alone. A
program has no such function, and shows `main` and those of its free functions that have
clauses. A method of an `impl` of a trait stands there where it has clauses of its own,
and a public trait with its members that exist in proofs alone. Test modules are left
out. The definitions are those of the files that specs/Lib.antt names, in its order. A
file whose head says that no public contract cites it is shown by its head alone.
"""

from __future__ import annotations

import argparse
import re
import sys
from collections.abc import Sequence
from pathlib import Path

from fgate_checks.rattle_code import Clause, Item, plain
from fgate_checks.rattle_crate import Crate, all_crates
from fgate_checks.rattle_specs import Definition, Specs, spec_files
from fgate_checks.repository import TOP

HEAD = """# {name}

Made by `checks/pages` from `crates/{name}`. Each public function stands with what its \
comment says and with its clauses as the code has them. A comment in the code above \
clauses holds for those below it up to the next comment or empty line, and stands here \
in the same place. Where a clause is a definition's name, the definition follows. A \
trait stands with its members that exist in proofs alone. After the functions come the \
definitions, file by file.
"""
DEFINITIONS = """A file's own comment stands at its head. A definition stands with the \
comment above it, which holds for all below it up to the next comment or empty line, \
and with its text where it has none. A file that no public contract cites is shown by \
its head alone."""
EDITS = """Each changes one line of code; a second one only names what the first \
needs."""


def fenced(text: str, margin: str = "") -> list[str]:
    """The text as a block."""
    lines = [margin + line for line in text.split("\n")]
    return [f"{margin}```text", *lines, f"{margin}```", ""]


def dedented(text: str) -> str:
    """A clause's text as its file has it, moved to the left."""
    first, *others = text.split("\n")
    return "\n".join([first, *("    " + line.strip() for line in others)])


def told_clauses(clauses: Sequence[Clause]) -> list[str]:
    """The clauses in blocks, each below the comment that holds for it."""
    out: list[str] = []
    above: str | None = None
    block: list[str] = []
    for clause in clauses:
        if clause.comment != above:
            out += fenced("\n".join(block)) if block else []
            out += [clause.comment, ""] if clause.comment else []
            above, block = clause.comment, []
        block.append(dedented(clause.text))
    return out + (fenced("\n".join(block)) if block else [])


def told(crate: Crate, name: str, item: Item) -> list[str]:
    """A function or a trait, with what its contract says."""
    out = [f"### `{name}`", "", *([item.doc, ""] if item.doc else [])]
    if item.kind == "trait":
        ghosts = [part.text for part in item.items if part.kind == "ghost"]
        members = [text for text in ghosts if not text.startswith("ghost use")]
        return out + (fenced("\n\n".join(members)) if members else [])
    out += told_clauses(item.clauses) if item.clauses else ["No clause.", ""]
    for body, file, text in crate.definitions(item):
        if text:
            out += [f"`{body}` in `{file.relative_to(TOP)}`:", "", *fenced(text)]
    return out


def told_definition(made: Definition) -> list[str]:
    """A definition by its comment, or by its text where it has none."""
    comment = " ".join(plain(made.comment, "--").split("\n"))
    if not made.name:
        return [comment, ""]
    if comment:
        return [f"- `{made.shown()}`: {comment}", ""]
    return [f"- `{made.name}`:", "", *fenced("\n".join(made.lines), "  ")]


def told_file(crate: Crate, file: Path) -> list[str]:
    """A file of specs: its head, what it hands on, and its definitions."""
    specs = Specs(file.read_text(encoding="utf-8"))
    out = [f"### `{file.relative_to(crate.folder)}`", ""]
    for part in specs.head.split("\n\n"):
        out += fenced(part) if "   " in part else [part, ""]
    if specs.is_internal:
        return out
    for place, names in specs.handed:
        shown = ", ".join(f"`{name.strip()}`" for name in names.split(","))
        out += [f"Handed on from `{place.replace('.specs.', '::')}`: {shown}.", ""]
    return out + [line for made in specs.found for line in told_definition(made)]


def told_specs(crate: Crate) -> list[str]:
    """The section of a crate's definitions."""
    files = spec_files(crate.folder)
    out = [line for file in files for line in told_file(crate, file)]
    return ["## Definitions", "", DEFINITIONS, "", *out] if out else []


class Edit:
    """A must-fail edit: the file that it changes, its lines, and the functions."""

    def __init__(self, crate: Crate, file: Path) -> None:
        text = file.read_text(encoding="utf-8")
        found = re.search(r"^file: *(.*)$", text, re.M)
        if found is None:
            raise ValueError(f"{file}: no line says which file it changes")
        self.name, self.where = file.stem, found[1].strip()
        self.pairs = re.findall(r"^old: ?(.*)\nnew: ?(.*)$", text, re.M)
        source = crate.folder / self.where
        places = [crate.texts.get(source, "").find(old) for old, _ in self.pairs]
        names = [crate.around(source, at) for at in places if at >= 0]
        self.functions = list(dict.fromkeys(name for name in names if name))

    def told(self) -> list[str]:
        """The edit as a page shows it."""
        names = ", ".join(f"`{name}`" for name in self.functions)
        inside = f"in {names}" if names else "outside all functions"
        out = [f"`{self.name}`, {inside} of `{self.where}`:", "", "```diff"]
        for old, new in self.pairs:
            out += [f"- {old.strip()}", f"+ {new.strip()}"]
        return [*out, "```", ""]


def page(crate: Crate) -> str:
    """The page of a crate."""
    out = [HEAD.format(name=crate.name)]
    shown: Path | None = None
    for one in crate.functions():
        file = one.item.file.relative_to(crate.folder)
        if file != shown:
            shown = file
            out += [f"## `{file}`", ""]
        out += told(crate, one.name, one.item)
    out += told_specs(crate)
    edits = sorted((crate.folder / "must-fail").glob("*.edit"))
    out += ["## Edits that the prover has to refuse", "", EDITS, ""] if edits else []
    for edit in edits:
        out += Edit(crate, edit).told()
    return "\n".join(out).rstrip("\n") + "\n"


def main(arguments: Sequence[str]) -> int:
    """Prints the pages of the crates that are named."""
    words = argparse.ArgumentParser(
        prog="contracts",
        description=__doc__,
        formatter_class=argparse.RawDescriptionHelpFormatter,
    )
    words.add_argument("crate", nargs="+", help="a crate, as fg_trace")
    asked = words.parse_args(arguments)
    crates = {crate.name: crate for crate in all_crates()}
    for name in asked.crate:
        if name not in crates:
            print(f"contracts: there is no crate {name}", file=sys.stderr)
            return 2
        print(page(crates[name]), end="")
    return 0
