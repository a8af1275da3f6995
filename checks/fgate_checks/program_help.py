"""What the program says of itself: its commands, and the words that each takes."""

from __future__ import annotations

import re
import subprocess
from pathlib import Path

COMMAND = re.compile(r"fgate (\w+): (.*)")
NAME = re.compile(r"  (\w+)=(\S+) +(.*); (needed|default (\S+))")
OFTEN = re.compile(r"(.*), up to (\d+) times")


class HelpFault(Exception):
    """The program can't be asked, or its help reads otherwise than it did."""


class Name:
    """A name that may stand before an equals sign, with its values and meaning."""

    def __init__(self, row: str) -> None:
        found = NAME.fullmatch(row)
        if found is None:
            raise HelpFault(f"the help of a name reads otherwise: {row}")
        self.name, self.values, about = found[1], found[2], found[3]
        often = OFTEN.fullmatch(about)
        self.about = often[1] if often else about
        self.most = int(often[2]) if often else 1
        self.is_needed = found[4] == "needed"
        self.choices = self.values.split("|") if "|" in self.values else []
        self.meaning = row.strip().split(maxsplit=1)[1]


class Command:
    """A command: its word, what the help says of it, and its names."""

    def __init__(self, text: str) -> None:
        head, *rows = text.rstrip("\n").split("\n")
        found = COMMAND.fullmatch(head)
        if found is None:
            raise HelpFault(f"the help of a command reads otherwise: {head}")
        self.word, self.about = found[1], found[2]
        self.names = [Name(row) for row in rows]

    @property
    def reads_nothing(self) -> bool:
        """Whether it takes no limit for its input, since it has none."""
        return all(name.name != "max" for name in self.names)


class Help:
    """The help of the program in its parts."""

    def __init__(self, text: str, version: str) -> None:
        self.version = version.strip()
        parts = text.rstrip("\n").split("\n\n")
        self.about = re.sub("^fgate: ", "", parts[0])
        lines = parts[1].split("\n")
        self.usage = [re.sub("^usage:", "", line).strip() for line in lines]
        self.streams = parts[2]
        self.told = [part for part in parts if COMMAND.match(part)]
        faults = [part for part in parts if part.startswith("standard error")]
        if not self.told or not faults:
            raise HelpFault("the help tells no command, or no line of faults")
        self.faults = faults[0]
        self.commands = [Command(part) for part in self.told]


def asked(program: Path, *words: str) -> str:
    """What the program prints when it is asked."""
    command = [str(program), *words]
    try:
        return subprocess.run(
            command,
            stdin=subprocess.DEVNULL,
            capture_output=True,
            text=True,
            check=True,
        ).stdout
    except OSError as fault:
        raise HelpFault(f"{program}: {fault.strerror}") from fault
    except subprocess.CalledProcessError as fault:
        told = f"{' '.join(command)} ended with {fault.returncode}"
        raise HelpFault(told) from fault


def help_of(program: Path) -> Help:
    """The help of a program, each command's own compared with its part of it."""
    found = Help(asked(program, "--help"), asked(program, "--version"))
    for command, part in zip(found.commands, found.told):
        if asked(program, command.word, "--help") != part + "\n":
            told = f"fgate {command.word} --help isn't its part of fgate --help"
            raise HelpFault(told)
    return found
