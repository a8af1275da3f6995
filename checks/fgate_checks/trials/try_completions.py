"""Tries the completions that are made of the program's help, in bash, zsh and fish
themselves.

Bash and zsh run in a terminal of their own, in which each case's line is typed and all
that may follow is inserted; fish tells by `complete -C`. Each case prints a line that
ends with `ok` or `WRONG`, and the status is 0 where all are ok. A shell that isn't
there is told, and fails.
"""

import argparse
import os
import pty
import select
import shutil
import subprocess
import sys
import tempfile
import time
from collections.abc import Iterator, Sequence
from pathlib import Path

from ..completions import scripts
from ..program_help import help_of
from .program_runner import add_program


SHELLS = ("bash", "zsh", "fish")
SECONDS = 20
COMMANDS = (
    "repair encode drill inspect sample fromcap tocap monitor prove check plan survey "
    "pick --help --version"
)
# What is typed, and the words that may then stand where it ends.
CASES = (
    ("fgate ", COMMANDS),
    ("fgate re", "repair"),
    ("fgate p", "prove plan pick"),
    ("fgate --v", "--version"),
    ("fgate plan ", "burst= most= fec= --help"),
    ("fgate plan burst=6 ", "most= fec="),
    ("fgate encode f", "fec="),
    ("fgate encode fec=", "fec=column fec=both"),
    ("fgate encode fec=b", "fec=both"),
    ("fgate drill columns=10 layout=", "layout=block layout=staggered"),
    ("fgate drill columns=10 col", ""),
    ("fgate survey fo", "format="),
    ("fgate survey format=", "format=lines format=json"),
    ("fgate repair flow=5000 flo", "flow="),
    ("fgate prove flow=5000 flo", ""),
    ("fgate repair flow=", ""),
    ("fgate repair fec", ""),
    ("fgate repair flow=5000 < li", "link.trace"),
    ("fgate fromcap < night.pcap | fgate pi", "pick"),
    ("fgate repair < link.trace flo", "flow="),
    ("fgate repair flow=5000 2> li", "link.trace"),
    ("fgate repair flow=5000 <li", "link.trace"),
    ("LC_ALL=C fgate re", "repair"),
    ("fgate drill --h", "--help"),
    ("fgate nothing ", ""),
)
BASH = r"""
PS1=; HISTFILE=; source {made}/fgate
bind 'set bell-style none'; bind '"\C-g": insert-completions'
bind -x '"\C-t": printf %s "$READLINE_LINE" > {told}.new; mv {told}.new {told}'
"""
ZSH = r"""
PS1=; fpath=({made} $fpath); autoload -Uz compinit; compinit -u -D; setopt no_beep
every() {{ _main_complete; compstate[insert]=all; compstate[list]= }}
tell() {{ print -rn -- "$BUFFER" > {told}.new; mv {told}.new {told} }}
zle -C every complete-word every; bindkey '^G' every; zle -N tell
bindkey '^T' tell; bindkey '^U' kill-whole-line
"""
TERMINALS = {
    "bash": (["bash", "--norc", "--noprofile", "-i"], BASH),
    "zsh": (["zsh", "-f", "-i"], ZSH),
}


class Terminal:
    """A shell in a terminal of its own, which tells its line into a file."""

    def __init__(
        self, command: list[str], settings: str, folder: Path, made: Path
    ) -> None:
        self.told = folder.parent / "told"
        self.process, self.ends = pty.fork()
        if self.process == 0:
            os.chdir(folder)
            os.environ.update(
                TERM="vt100", LC_ALL="C.UTF-8", HOME=str(folder), INPUTRC="/dev/null"
            )
            os.execvp(command[0], command)
        script = folder.parent / "settings"
        script.write_text(settings.format(made=made, told=self.told))
        os.write(self.ends, f". {script}; cd {folder}; echo > {self.told}\n".encode())
        self.answer()

    def answer(self) -> str:
        """What the shell wrote into the file. What it prints is dropped."""
        end = time.monotonic() + SECONDS
        while not self.told.exists():
            if time.monotonic() > end:
                sys.exit("try_completions: the shell doesn't answer")
            if select.select([self.ends], [], [], 0.02)[0]:
                os.read(self.ends, 65536)
        said = self.told.read_text()
        self.told.unlink()
        return said

    def line(self, typed: str) -> str:
        """The line, once all that may follow what is typed is inserted."""
        os.write(self.ends, typed.encode() + b"\x07\x14")
        said = self.answer()
        os.write(self.ends, b"\x05\x15")
        return said

    def close(self) -> None:
        os.write(self.ends, b"exit\n")
        os.close(self.ends)
        os.waitpid(self.process, 0)


def words_of(typed: str, line: str) -> list[str]:
    """The words that were inserted in place of the one that was begun: bash leaves out
    what stands up to an `=`.
    """
    begun = typed.rsplit(" ", 1)[1]
    if line.strip() == typed.strip():
        return []
    kept = begun.split("=")[0] + "=" if "=" in begun else ""
    words = line[len(typed) - len(begun) :].lstrip("<").split()
    return [word if word.startswith(kept) else kept + word for word in words]


def asked_in_terminal(shell: str, folder: Path, made: Path) -> Iterator[list[str]]:
    """For each case what the shell inserts."""
    terminal = Terminal(*TERMINALS[shell], folder, made)
    for typed, _ in CASES:
        yield words_of(typed, terminal.line(typed))
    terminal.close()


def asked_of_fish(folder: Path, made: Path) -> Iterator[list[str]]:
    for typed, _ in CASES:
        told = subprocess.run(
            [
                "fish",
                "--no-config",
                "-c",
                f"source {made}/fgate.fish; complete -C $argv[1]",
                typed,
            ],
            cwd=folder,
            capture_output=True,
            text=True,
            env={**os.environ, "HOME": str(folder)},
        )
        yield [line.split("\t")[0] for line in told.stdout.splitlines()] + [
            told.stderr
        ] * bool(told.stderr)


def tried(shell: str, work: str, made: Path) -> bool:
    """Whether all cases are right in the shell."""
    if shutil.which(shell) is None:
        print(f"{shell}: isn't there: WRONG")
        return False
    folder = Path(work, shell, "folder")
    folder.mkdir(parents=True)
    (folder / "link.trace").touch()
    answers, right = (
        asked_of_fish(folder, made)
        if shell == "fish"
        else asked_in_terminal(shell, folder, made),
        True,
    )
    for (typed, wanted), words in zip(CASES, answers):
        is_right = sorted(words) == sorted(wanted.split())
        print(f"{shell} {typed!r}: {'ok' if is_right else f'WRONG: {words}'}")
        right = is_right and right
    return right


def main(arguments: Sequence[str]) -> int:
    words = argparse.ArgumentParser(
        prog="try_completions",
        description=__doc__,
        formatter_class=argparse.RawDescriptionHelpFormatter,
    )
    words.add_argument(
        "shells",
        nargs="*",
        metavar="SHELL",
        help=f"of these shells alone: {', '.join(SHELLS)}",
    )
    add_program(words)
    asked = words.parse_args(arguments)
    for shell in asked.shells:
        if shell not in SHELLS:
            words.error(f"{shell} is no shell that is tried")
    told = help_of(Path(asked.program).resolve())
    with tempfile.TemporaryDirectory() as work:
        made = Path(work, "completions")
        made.mkdir()
        for name, text in scripts(told).items():
            (made / name).write_text(text)
        results = [tried(shell, work, made) for shell in asked.shells or SHELLS]
    return 0 if all(results) else 1
