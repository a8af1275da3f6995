"""Manual pages of the program and its commands, as roff.

They are made of what the program tells by `--help`, with examples that are blocks of
docs/GUIDE.md, and with the statuses of docs/FORMATS.md.
"""

from __future__ import annotations

import re
import textwrap
from collections.abc import Iterator, Sequence

from fgate_checks.blocks import commands, rows
from fgate_checks.program_help import Command, Help

EXAMPLES, LINES, PRINTED = 3, 9, 12  # of a page, of an example, of what it prints
FED = r"for ((?:\w+, )*\w+(?: (?:and|or) \w+)?) (a \w+|the text of \w+)"
MARKS = {
    "\\": "\\e",
    "-": "\\-",
    "'": "\\(aq",
    "`": "\\(ga",
    "^": "\\(ha",
    "~": "\\(ti",
    '"': "\\(dq",
}


def escaped(text: str) -> str:
    """Text that roff takes as it stands."""
    told = "".join(MARKS.get(one, one) for one in text)
    return re.sub(r"^([.])", r"\\&\1", told, flags=re.M)


def without_marks(text: str) -> str:
    """A document's text without its marks."""
    text = re.sub(r"<!--.*?-->", "", text)
    text = re.sub(r"\[([^\]]+)\]\([^)]*\)", r"\1", text)
    return text.replace("**", "").replace("`", "")


def wrapped(text: str) -> str:
    """Running text as roff, in lines of at most 80 bytes."""
    lines: list[str] = []
    for width in range(72, 0, -4):
        parts = textwrap.wrap(
            text, width, break_long_words=False, break_on_hyphens=False
        )
        lines = [escaped(part) for part in parts]
        if all(len(line) <= 80 for line in lines):
            break
    return "".join(line + "\n" for line in lines)


def what_it_reads(told: str, command: Command) -> str:
    """What the command reads, of the help's sentence on standard input."""
    if command.reads_nothing:
        return "nothing"
    for words, thing in re.findall(FED, told.split(". ")[0] + "."):
        if command.word in re.findall(r"\w+", words):
            return str(thing)
    found = re.match(r"Standard input is (a \w+)", told)
    return found[1] if found else "nothing"


def synopsis(command: Command, reads: str) -> str:
    """How the command is called, with each name that has to be there."""
    needed = [
        f"\\fI{name.name}\\fR=\\fIN\\fR" for name in command.names if name.is_needed
    ]
    given = [] if reads == "nothing" else [f"< \\fI{reads.split()[1]}\\fR"]
    words = [*needed, "[\\fINAME\\fR=\\fIVALUE\\fR ..]", *given]
    return f".B fgate {command.word}\n{' '.join(words)}\n"


def options(command: Command) -> str:
    """The names with their values, and what they mean."""
    told = "".join(
        f".TP\n\\fB{name.name}=\\fR\\fI{escaped(name.values)}\\fR\n"
        f"{wrapped(name.meaning)}"
        for name in command.names
    )
    return f"They may stand in any order.\n{told}"


def last_sentence(line: str) -> str:
    """The last sentence above a block, which says what the example is."""
    line = re.sub(r"^(?:\d+\.|[-*]) +", "", line)
    if not line or line.startswith(("|", "#", "!")):
        return ""
    return without_marks(re.split(r"(?<=[.?!:]) +(?=[A-Z`*])", line)[-1])


def example(said: str, lines: Sequence[str], printed: Sequence[str]) -> str:
    """What stands above an example, its lines, and what they print if that is short."""
    told = [("$ " if line[:1] != " " else "  ") + line for line in lines]
    if list(printed) != [""] and len(printed) <= PRINTED:
        told += printed
    head = f".PP\n{wrapped(said)}" if said else ""
    text = escaped("\n".join(told) + "\n")
    return f"{head}.PP\n.RS 4\n.nf\n{text}.fi\n.RE\n"


def examples(guide: str, word: str) -> str:
    """The first blocks of the guide that call the command, as roff."""
    found: list[str] = []
    for block, printed in commands(guide):
        lines = block.text.rstrip("\n").split("\n")
        is_of = re.search(rf"\bfgate {word}\b", block.text)
        if block.language == "sh" and len(lines) <= LINES and is_of:
            told = (printed or "").rstrip("\n").split("\n")
            found.append(example(last_sentence(block.said), lines, told))
        if len(found) == EXAMPLES:
            break
    return re.sub(r"^\.PP\n", "", "".join(found))


def statuses(formats: str, command: Command | None) -> str:
    """The statuses with each one's line on standard error; with no command all."""
    told, seen = "", set[str]()
    for status, line, comes, *_ in rows(formats, "Status", "Line"):
        of = re.match(r"((?:`\w+`,? ?(?:and )?)+): ", comes)
        if command and of:
            if command.word not in re.findall(r"\w+", of[1]):
                continue
            comes = comes[of.end() :]
        if status == "1":
            page = "fgate(1)" if command else "DIAGNOSTICS"
            line, comes = "`words: ..`", f"the words are faulty, as {page} tells"
        is_told = status == "1" and "1" in seen
        if is_told or command and command.reads_nothing and status in ("2", "5"):
            continue
        seen.add(status)
        comes = re.sub(r'(under ["[]\w+[^ ,.;:]*)', r"\1 in docs/FORMATS.md", comes)
        shown = status if line == "none" else f"{status}, {without_marks(line)}"
        told += f".TP\n.B {escaped(shown)}\n{wrapped(without_marks(comes))}"
    return told


def diagnostics(program: Help, formats: str) -> str:
    """The lines that the help has of faulty words. What it leaves FORMATS.md tells."""
    head, *lines = program.faults.split("\n")
    explained = {
        without_marks(line): without_marks(comes)
        for _, line, comes, *_ in rows(formats, "Status", "Line")
    }
    told = wrapped(f"Status 1 comes with one of these lines on {head.rstrip(':')}.")
    for row in lines:
        line, _, meaning = row.strip().partition("  ")
        meaning = meaning.strip() or explained.get(line, "")
        told += f".TP\n.B {escaped(line)}\n{wrapped(meaning)}"
    return told


def also(names: Sequence[str]) -> str:
    """The other pages to see."""
    return "".join(
        f".BR {escaped(name)} (1){'' if name == names[-1] else ','}\n" for name in names
    )


def page(name: str, about: str, version: str, day: str, parts: dict[str, str]) -> str:
    """A page of its parts, those that have no text left out."""
    number = version.split()[-1]
    title = f'.TH {escaped(name).upper()} "1" "{day}" "fgate {number}" "fgate"\n'
    told = [title, f".SH NAME\n{escaped(name)} \\- {escaped(about)}\n"]
    for head, text in parts.items():
        shown = f'"{head}"' if " " in head else head
        told += [f".SH {shown}\n{text}"] if text else []
    return "".join(told)


def main_page(program: Help, guide: str, formats: str, day: str) -> str:
    """The page of the program: how it is called, its commands, and what it tells."""
    calls = [re.sub("^fgate ", "", line) for line in program.usage]
    rows_of_commands = "".join(
        f".TP\n\\fB{it.word}\\fR\n{wrapped(it.about)}" for it in program.commands
    )
    parts = {
        "SYNOPSIS": ".br\n".join(f".B fgate\n{escaped(call)}\n" for call in calls),
        "DESCRIPTION": wrapped(" ".join(program.streams.split("\n"))),
        "COMMANDS": re.sub(r"^\.PP\n", "", rows_of_commands),
        "EXIT STATUS": statuses(formats, None),
        "DIAGNOSTICS": diagnostics(program, formats),
        "EXAMPLES": examples(guide, "repair"),
        "SEE ALSO": also([f"fgate-{it.word}" for it in program.commands]),
    }
    return page("fgate", program.about, program.version, day, parts)


def command_page(
    program: Help, command: Command, guide: str, formats: str, day: str
) -> str:
    """The page of a command: what it does, its words, examples, and its statuses."""
    reads = what_it_reads(" ".join(program.streams.split("\n")), command)
    about = command.about[:1].upper() + command.about[1:]
    is_given = reads != "nothing"
    given = f"Standard input is {reads}." if is_given else "It reads nothing."
    parts = {
        "SYNOPSIS": synopsis(command, reads),
        "DESCRIPTION": wrapped(f"{about}. {given}"),
        "OPTIONS": options(command),
        "EXIT STATUS": statuses(formats, command),
        "EXAMPLES": examples(guide, command.word),
        "SEE ALSO": also(["fgate"]),
    }
    name = f"fgate-{command.word}"
    return page(name, command.about, program.version, day, parts)


def pages(
    program: Help, guide: str, formats: str, day: str
) -> Iterator[tuple[str, str]]:
    """Each page's name and text, of the program and of each command."""
    yield "fgate.1", main_page(program, guide, formats, day)
    for command in program.commands:
        text = command_page(program, command, guide, formats, day)
        yield f"fgate-{command.word}.1", text
