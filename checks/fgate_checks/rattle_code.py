"""Reads Rattle's sources: the items of a file, with their clauses and comments."""

from __future__ import annotations

import re
from collections.abc import Iterable
from dataclasses import dataclass, field
from pathlib import Path

LITERAL = re.compile(
    r"""//[^\n]* | /\*.*?\*/ | b?r(\#*)".*?"\1 | b?"(?:\\.|[^"\\])*"
    | b?'(?:\\[^\n']*?|[^\\'\n])' | '\w+""",
    re.S | re.X,
)
TERM = re.compile(r'//[^\n]*|"(?:\\.|[^"\\])*"', re.S)
OPENS, CLOSES = "([{", ")]}"


def after_braces(text: str, at: int, literal: re.Pattern[str]) -> int:
    """The place behind the bracket that closes the one at `at`."""
    depth = 0
    while at < len(text):
        found = literal.match(text, at)
        if found and found.end() > at:
            at = found.end()
            continue
        if text[at] in OPENS:
            depth += 1
        elif text[at] in CLOSES:
            depth -= 1
            if depth == 0:
                return at + 1
        at += 1
    raise ValueError("a bracket is not closed")


def after_any(text: str, at: int, stops: re.Pattern[str]) -> int:
    """The first place outside all brackets where the text matches `stops`."""
    while at < len(text):
        found = LITERAL.match(text, at)
        if found and found.end() > at:
            at = found.end()
            continue
        if stops.match(text, at):
            return at
        at = after_braces(text, at, LITERAL) if text[at] in "([" else at + 1
    raise ValueError("an item has no end")


END = re.compile(r"[;{]")
CLAUSE_OR_BODY = re.compile(r"\b(?:requires|ensures|ghost)\b|[;{]")
CLAUSE = re.compile(
    r"(requires|ensures)(\*?)\s*([\w«»']*)\s*(?=\{)|ghost\s+\w+\s*:\s*(?=\{)"
)
ITEM = re.compile(
    r"(?P<seen>pub(?:\([^)]*\))?\s+)?(?:(?:const|async|unsafe|extern|default)\s+)*"
    r"(?P<kind>fn|struct|enum|union|trait|mod|use|impl|type|const|static|"
    r"macro_rules!|ghost)\b!?\s*(?P<name>\w*)"
)
MACRO = re.compile(r"[\w:]+!")


@dataclass
class Clause:
    """A clause of a contract, with the comment that holds for it."""

    kind: str
    name: str
    text: str
    comment: str | None

    @property
    def body(self) -> str:
        """What stands between its braces, in one line."""
        return " ".join(self.text[self.text.index("{") + 1 : -1].split())


@dataclass
class Item:
    """A function, a type, a trait, an `impl`, a module or a re-export."""

    kind: str
    name: str
    is_public: bool
    doc: str
    file: Path
    start: int
    end: int = 0
    text: str = ""
    items: list[Item] = field(default_factory=list)
    clauses: list[Clause] = field(default_factory=list)


def plain(lines: Iterable[str], mark: str) -> str:
    """A comment's text, whose links to code are names here."""
    text = "\n".join(line.strip()[len(mark) :].strip() for line in lines)
    return re.sub(r"\[(`[^`]+`)\](?:\([^)]*\))?", r"\1", text)


def comment_above(text: str) -> str | None:
    """The comment that holds for what follows: none where an empty line parts them."""
    part = re.split(r"\n[ \t]*\n", text)[-1]
    lines = [line for line in part.split("\n") if line.strip().startswith("//")]
    return plain(lines, "//") if lines else None


def comment_right_above(text: str, at: int) -> str | None:
    """The comment of the lines that end right above a place, if there is one."""
    lines: list[str] = []
    for line in reversed(text[:at].split("\n")[:-1]):
        if not line.strip().startswith("//"):
            break
        lines.insert(0, line)
    return plain(lines, "//") if lines else None


def first_clause_sign(text: str, at: int) -> int:
    """The place of the next sign that is neither blank nor in a line comment."""
    while text[at].isspace() or text.startswith("//", at):
        at = text.index("\n", at) if text.startswith("//", at) else at + 1
    return at


def read_clauses(text: str, at: int) -> tuple[list[Clause], int]:
    """The clauses between a signature and its body, and where the body begins."""
    clauses: list[Clause] = []
    comment = comment_right_above(text, at)
    while True:
        last, at = at, first_clause_sign(text, at)
        above = comment_above(text[last:at])
        if above is not None:
            comment = above
        elif re.search(r"\n[ \t]*\n", text[last:at]):
            comment = None
        if text[at] in ";{":
            return clauses, at
        found = CLAUSE.match(text, at)
        if not found:
            raise ValueError("no clause: " + text[at : at + 60])
        end = after_braces(text, found.end(), TERM)
        kind, name = found.group(1) or "ghost", found.group(3) or ""
        clauses.append(Clause(kind, name, text[at:end], comment))
        at = end


class Reader:
    """Reads the items of a file, or of a module, a trait or an `impl` in it."""

    def __init__(self, text: str, file: Path) -> None:
        self.text, self.file = text, file
        self.doc: list[str] = []
        self.is_test = False

    def items(self, at: int, end: int) -> list[Item]:
        """The items from one place to another, without those of tests."""
        found: list[Item] = []
        self.doc, self.is_test = [], False
        while at < end:
            if self.text[at].isspace():
                at += 1
            elif self.text.startswith("//", at):
                at = self.after_comment(at, end)
            elif self.text[at] == "#":
                at = self.after_attribute(at)
            else:
                at = self.read_one(at, found)
        return found

    def after_comment(self, at: int, end: int) -> int:
        """Keeps a line of documentation, and answers where its line ends."""
        stop = self.text.find("\n", at)
        stop = stop if stop >= 0 else end
        if self.text.startswith("///", at):
            self.doc.append(self.text[at:stop])
        return stop

    def after_attribute(self, at: int) -> int:
        """Notes whether an attribute says that what follows is of tests."""
        stop = after_braces(self.text, self.text.index("[", at), LITERAL)
        shown = self.text[at:stop]
        self.is_test = self.is_test or "cfg(test)" in shown or shown == "#[test]"
        return stop

    def read_one(self, at: int, found: list[Item]) -> int:
        """Reads one item, and answers where it ends."""
        head = ITEM.match(self.text, at)
        if not head:
            return self.after_macro(at)
        seen = (head.group("seen") or "").strip() == "pub"
        doc = plain(self.doc, "///")
        item = Item(head["kind"], head["name"], seen, doc, self.file, at)
        is_test = self.is_test
        item.end = read_body(self.text, item, head)
        if not is_test:
            found.append(item)
        self.doc, self.is_test = [], False
        return item.end

    def after_macro(self, at: int) -> int:
        """The place behind a macro's call that stands as an item."""
        if not MACRO.match(self.text, at):
            shown = self.text[at : at + 60]
            raise ValueError(f"{self.file}: no item that is known: {shown}")
        stop = after_any(self.text, at, END)
        self.doc, self.is_test = [], False
        if self.text[stop] == ";":
            return stop + 1
        return after_braces(self.text, stop, LITERAL)


def read_items(text: str, at: int, end: int, file: Path) -> list[Item]:
    """The items of a file, or of a part of it."""
    return Reader(text, file).items(at, end)


def with_comment(text: str, start: int, end: int) -> str:
    """What stands there with the comment above it, moved to the left."""
    lines = text[text.rindex("\n", 0, start) + 1 : end].split("\n")
    for line in reversed(text[: text.rindex("\n", 0, start)].split("\n")):
        if not line.strip().startswith("//"):
            break
        lines.insert(0, line)
    margin = len(lines[0]) - len(lines[0].lstrip())
    return "\n".join(line[margin:] for line in lines)


def end_of(text: str, at: int, literal: re.Pattern[str]) -> int:
    """The place of the semicolon that ends an item without a body."""
    while text[at] != ";":
        found = literal.match(text, at)
        if found and found.end() > at:
            at = found.end()
        else:
            at = after_braces(text, at, literal) if text[at] in OPENS else at + 1
    return at


def read_body(text: str, item: Item, found: re.Match[str]) -> int:
    """Reads what follows an item's name, and answers where the item ends."""
    if item.kind == "fn":
        stop = after_any(text, found.end(), CLAUSE_OR_BODY)
        item.clauses, stop = read_clauses(text, stop)
        return stop + 1 if text[stop] == ";" else after_braces(text, stop, LITERAL)
    if item.kind in ("use", "const", "static", "type"):
        stop = end_of(text, found.end(), LITERAL)
        item.text = " ".join(text[found.start("name") : stop].split())
        return stop + 1
    if item.kind == "ghost":
        stop = end_of(text, found.end(), TERM)
        item.text = with_comment(text, item.start, stop + 1)
        return stop + 1
    stop = after_any(text, found.end("kind"), END)
    if text[stop] == ";":
        return stop + 1
    item.text = " ".join(text[found.end("kind") : stop].split())
    behind = after_braces(text, stop, LITERAL)
    if item.kind in ("trait", "impl", "mod"):
        item.items = read_items(text, stop + 1, behind - 1, item.file)
    return behind


def without_generics(text: str) -> str:
    """`Seat<S>` as `Seat`, wherever it stands."""
    while True:
        less = re.sub(r"<[^<>]*>", "", text.replace("->", ""))
        if less == text:
            return text.strip()
        text = less


def split_impl(text: str) -> tuple[str | None, str]:
    """The trait, or none, and the type of an `impl`, of what stands behind the word."""
    if text.startswith("<"):
        depth = 0
        for at, sign in enumerate(text):
            depth += (sign == "<") - (sign == ">" and text[at - 1] != "-")
            if depth == 0:
                text = text[at + 1 :].strip()
                break
    text = re.split(r"\swhere\s", text)[0]
    found = re.match(r"(.*?)\sfor\s(.*)$", text)
    return (
        (found.group(1).strip(), found.group(2).strip())
        if found
        else (None, text.strip())
    )
