"""What all commands have in common: their help, their version and the program."""

import argparse
import os
import shutil
from collections.abc import Callable
from typing import NoReturn

from fgate import __version__

#: The status of a command whose words can't be read, but for the fleet.
FAULTY_WORDS = 2
#: Where a checkout of the repository has the built program.
OF_CHECKOUT = os.path.join(
    os.path.dirname(os.path.abspath(__file__)), "../../crates/fgate/out/fgate"
)


class Parser(argparse.ArgumentParser):
    """Reads a command's words, and answers ``--help`` and ``--version``."""

    def __init__(
        self, name: str, description: str | None, faulty_words: int = FAULTY_WORDS
    ) -> None:
        super().__init__(
            prog=name,
            description=description,
            formatter_class=argparse.RawDescriptionHelpFormatter,
            allow_abbrev=False,
        )
        self.faulty_words = faulty_words
        version = f"{name} {__version__}"
        self.add_argument("--version", action="version", version=version)

    def error(self, message: str) -> NoReturn:
        """Ends the command with one line on what is wrong with its words."""
        self.exit(self.faulty_words, f"{self.prog}: words: {message}\n")


def whole(least: int, greatest: int) -> Callable[[str], int]:
    """Give the reader of a word that is a whole number within these limits."""

    def read(text: str) -> int:
        if not text.isdecimal() or not least <= int(text) <= greatest:
            raise argparse.ArgumentTypeError(f"{text} isn't {least} to {greatest}")
        return int(text)

    return read


def program_at(asked: str) -> str:
    """Give the path of the program that is to be run.

    It is the one that was asked for, or else the one on the path, or else the one that
    this checkout has built.
    """
    if asked:
        return os.path.abspath(asked)
    on_path = shutil.which("fgate")
    return os.path.abspath(on_path if on_path else OF_CHECKOUT)
