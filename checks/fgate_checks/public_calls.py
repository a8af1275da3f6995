"""Tells of each public call whether its clauses say why it refuses, and what it leaves.

It prints each call that may refuse and has no clause on the cause, or none on what a
refusal leaves. checks/pages makes the table of all calls. What a public call is, and
what its clauses are, is read as checks/contracts reads them.
"""

from __future__ import annotations

import argparse
import re
from collections.abc import Iterator, Mapping, Sequence

from fgate_checks.rattle_code import (
    CLAUSE_OR_BODY,
    ITEM,
    LITERAL,
    Clause,
    Item,
    after_any,
    after_braces,
)
from fgate_checks.rattle_crate import Crate, Shown, all_crates
from fgate_checks.repository import TOP

HEAD = """# Public calls

Made by `checks/pages` from the crates. One row for each public call, but for laws, \
which do nothing. The clauses themselves stand in the crate's page.

- **Memory**: *takes* where the call is given an allocator or can answer want of \
memory, of which no clause says more.
- **Returns**: *proved* where neither the call nor its type has a handle that waits or \
starts threads; a call that is generic over a trait of this repository returns where \
that trait's calls do. Else *not claimed*.
- **Cause**: the clauses that speak of the answer. Where the call can refuse, those \
that speak of success alone are left out, and so are those that say only what a \
refusal leaves. *free* stands where memory is all that can be refused.
- **Leaves**: the clauses that speak of what a call leaves of what it may change, but \
for those of success alone. *-* stands where it can't refuse, or changes nothing that \
its caller keeps.
- *gap* stands where there is no such clause. `1` stands for a clause without a name, \
the only one.

A call counts as one that can refuse where it answers a `Result`, an `Option`, one of \
this repository's enumerations, or a structure that shows one. All this is read off \
signatures and the form of clauses; whether a clause is exact is read in it. The \
project's PROOFS.md tells of the gaps.
"""

WAITS = re.compile(r"\b(?:Wait|Threads|Abort|HostRuntime)\b")
SUCCESS = re.compile(r"(?:IfOk|OnOk|IfSome|OnSome)\s+result\b")
ALWAYS = re.compile(r"IsOk\s+result$")
REFUSAL = re.compile(r"(?:IfErr|OnErr|IfNone|OnNone)\s+result\b")
ONE_FAULT = re.compile(r"IfErr\s+result \(λ (\w+)\. \1 ≡ \w+\.(?!Memory)\w+\)$")
COUNTED = re.compile(
    r"\b(?:CountsFault|CountsFaults|Counts|next_count|IsFault|after_fault)\b"
)


Choices = Mapping[str, Sequence[str]]


def split_at_commas(text: str) -> list[str]:
    """The parts between the commas that stand in no bracket."""
    parts, depth, last = [], 0, 0
    for at, sign in enumerate(text):
        if sign in "([{<":
            depth += 1
        elif sign in ")]}" or sign == ">" and text[at - 1] not in "-=":
            depth -= 1
        elif sign == "," and depth == 0:
            parts.append(text[last:at].strip())
            last = at + 1
    return [part for part in parts + [text[last:].strip()] if part]


def arguments_of(text: str) -> list[str]:
    """The arguments of a type, as `T` and `Fault` of `Result<T, Fault>`."""
    if "<" not in text:
        return []
    return split_at_commas(text[text.index("<") + 1 : text.rindex(">")])


class Call:
    """A public call, with what its signature says."""

    def __init__(self, crate: Crate, shown: Shown, choices: Choices) -> None:
        item = shown.item
        self.name, self.item, self.choices = shown.name, item, choices
        text = crate.texts[item.file]
        found = ITEM.match(text, item.start)
        if found is None:
            raise ValueError("no signature: " + self.name)
        stop = after_any(text, found.end(), CLAUSE_OR_BODY)
        self.head = re.sub(r"//[^\n]*", "", text[found.end() : stop]).strip()
        opened = self.opened()
        closed = after_braces(self.head, opened, LITERAL)
        self.parameters = split_at_commas(self.head[opened + 1 : closed - 1])
        behind = self.head[closed:].strip()
        behind = behind[2:] if behind.startswith("->") else ""
        self.answer = re.split(r"\bwhere\b", behind)[0].strip()
        self.waits = bool(WAITS.search(self.head) or WAITS.search(shown.holder))
        self.ensures = [clause for clause in item.clauses if clause.kind == "ensures"]

    def opened(self) -> int:
        """The place of the bracket that opens the parameters."""
        depth = 0
        for at, sign in enumerate(self.head):
            if sign == "<":
                depth += 1
            elif sign == ">" and self.head[at - 1] not in "-=":
                depth -= 1
            elif sign == "(" and depth == 0:
                return at
        raise ValueError("no parameters: " + self.name)

    def changed(self) -> list[str]:
        """The names of the parameters that the call may change and its caller keeps."""
        names = []
        for parameter in self.parameters:
            name, _, kind = parameter.partition(":")
            if re.match(r"&(?:'\w+ )?mut self$", parameter):
                names.append("self")
            elif re.match(r"&(?:'\w+ )?mut\b", kind.strip()):
                names.append(name.strip())
        return names

    def fault(self) -> str | None:
        """The type of a refusal, of a call that answers a `Result`."""
        is_result = re.match(r"(?:\w+::)*Result<", self.answer)
        given = arguments_of(self.answer) if is_result else []
        return given[-1].split("::")[-1] if given else None

    def takes_memory(self) -> bool:
        """Whether it is given an allocator, or can answer want of memory."""
        given = re.search(r"\bGlobal\b|\bAllocGlobal\b", " ".join(self.parameters))
        return bool(given) or "AllocError" in self.answer or self.may_lack_memory()

    def may_lack_memory(self) -> bool:
        """Whether its fault can be want of memory.

        The type has it, and no clause says that the fault is another one.
        """
        others = any(ONE_FAULT.match(clause.body) for clause in self.ensures)
        return "Memory" in self.choices.get(self.fault() or "", ()) and not others

    def is_free(self) -> bool:
        """Whether want of memory is all that can be refused."""
        return self.fault() == "AllocError" and not self.answers_a_choice()

    def answers_a_choice(self) -> bool:
        """Whether its answer is an option or one of the enumerations."""
        given = arguments_of(self.answer) if self.fault() else [self.answer]
        names = re.findall(r"\w+", given[0]) if given else []
        return "Option" in names or any(name in self.choices for name in names)

    def refuses(self) -> bool:
        """Whether it can refuse."""
        if any(ALWAYS.match(clause.body) for clause in self.ensures):
            return False
        return bool(self.fault()) or self.answers_a_choice()

    def shown(self, clause: Clause) -> str:
        """A clause by its name."""
        return f"`{clause.name or 1}`"

    def is_success(self, clause: Clause) -> bool:
        """Whether a clause speaks of success alone."""
        return self.refuses() and bool(SUCCESS.match(clause.body))

    def causes(self) -> Iterator[Clause]:
        """The clauses on the answer's cause.

        Behind want of memory another choice may stand, of which a success speaks.
        """
        within = self.fault() == "AllocError" and self.answers_a_choice()
        for clause in self.ensures:
            body = clause.body
            if not re.search(r"\bresult\b", body):
                continue
            if self.is_success(clause) and not within:
                continue
            is_left = REFUSAL.match(body) and re.search(r"\.new\b", body)
            if not is_left or COUNTED.search(body):
                yield clause

    def left(self, name: str) -> Iterator[Clause]:
        """The clauses on what is left of a parameter where the call refuses."""
        for clause in self.ensures:
            is_told = re.search(r"\b" + re.escape(name) + r"\.new\b", clause.body)
            if is_told and not self.is_success(clause):
                yield clause

    def leaves(self) -> list[Clause]:
        """The clauses on what is left of all that the call may change."""
        named: list[Clause] = []
        for name in self.changed():
            named += [clause for clause in self.left(name) if clause not in named]
        return [clause for clause in self.ensures if clause in named]

    def cause_cell(self) -> str:
        """The table's cell on the cause."""
        found = list(self.causes())
        if found:
            return ", ".join(self.shown(clause) for clause in found)
        if not self.answer:
            return "-"
        return "free" if self.is_free() else "gap"

    def leaves_cell(self) -> str:
        """The table's cell on what a refusal leaves."""
        if not self.refuses() or not self.changed():
            return "-"
        found = self.leaves()
        return ", ".join(self.shown(clause) for clause in found) or "gap"

    def gaps(self) -> Iterator[str]:
        """What no clause says."""
        if self.cause_cell() == "gap":
            yield "no clause on its answer"
        if self.refuses():
            for name in self.changed():
                if not list(self.left(name)):
                    yield f"no clause on what a refusal leaves of `{name}`"

    def row(self) -> str:
        """The table's row."""
        memory = "takes" if self.takes_memory() else "none"
        returns = "not claimed" if self.waits else "proved"
        cells = [f"`{self.name}`", memory, returns]
        return f"| {' | '.join([*cells, self.cause_cell(), self.leaves_cell()])} |"


def choices_of(crates: Sequence[Crate]) -> Choices:
    """The enumerations with their variants, and each structure that shows one."""
    choices: dict[str, Sequence[str]] = {}
    structures: dict[str, list[str]] = {}
    modules = [items for crate in crates for items in crate.modules.values()]
    for item in (item for items in modules for item in items):
        if item.kind == "enum":
            choices[item.name] = re.findall(r"^\w+", "\n".join(parts_of(item)), re.M)
        elif item.kind == "struct":
            structures[item.name] = parts_of(item)
    shown = {name: () for name, it in structures.items() if shows_one(it, choices)}
    return {**choices, **shown}


def parts_of(item: Item) -> list[str]:
    """The variants of an enumeration, or the fields of a structure that names them."""
    text = item.file.read_text(encoding="utf-8")[item.start : item.end]
    if "{" not in text:
        return []
    inside = text[text.index("{") + 1 : text.rindex("}")]
    return split_at_commas(re.sub(r"//[^\n]*|#\[[^\]]*\]", "", inside))


def shows_one(fields: Sequence[str], choices: Choices) -> bool:
    """Whether all fields are public, and one is an enumeration."""
    kinds = [field.split(":")[-1].strip() for field in fields]
    is_open = all(field.startswith("pub ") for field in fields)
    return is_open and any(kind in choices for kind in kinds)


def calls_of(crate: Crate, choices: Choices) -> Iterator[Call]:
    """The public calls of a crate, as its page has them, without laws."""
    for shown in crate.functions():
        if shown.module[:1] != ("laws",) and shown.item.kind == "fn":
            yield Call(crate, shown, choices)


def every_call() -> Iterator[tuple[Crate, list[Call]]]:
    """Each crate with its public calls."""
    crates = all_crates()
    choices = choices_of(crates)
    for crate in crates:
        yield crate, list(calls_of(crate, choices))


def page() -> str:
    """The table of all public calls."""
    lines = HEAD.split("\n")
    heads = ["| Call | Memory | Returns | Cause | Leaves |", "|---|---|---|---|---|"]
    for crate, calls in every_call():
        if calls:
            rows = [call.row() for call in calls]
            lines += [f"## {crate.name}", "", *heads, *rows, ""]
    return "\n".join(lines).rstrip("\n") + "\n"


def main(arguments: Sequence[str]) -> int:
    """Prints the calls of which a clause is missing."""
    words = argparse.ArgumentParser(
        prog="public_calls",
        description=__doc__,
        formatter_class=argparse.RawDescriptionHelpFormatter,
    )
    words.parse_args(arguments)
    for _, calls in every_call():
        for call in calls:
            for gap in call.gaps():
                print(f"{call.item.file.relative_to(TOP)}: {call.name}: {gap}")
    return 0
