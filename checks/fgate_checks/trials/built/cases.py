"""A case: a call of the program, and what has to be left by it."""

import os
import resource
import signal
import subprocess
from collections.abc import Callable, Iterable, Mapping
from pathlib import Path
from typing import Any

from ..program_runner import empty

# What a case has as its input: the bytes of a file, or a file or folder.
Given = bytes | Path
# What is in the folder, by name; where the bytes are None they aren't compared.
Files = Mapping[str, bytes | None]
NOTHING: Files = {}
# The program gets no more time for a case.
SECONDS = 120


class Cases:
    """Runs cases of one build in a folder of its own, and tells of each whether it is
    right.
    """

    def __init__(self, program: str, work: Path) -> None:
        self.program, self.work = os.path.abspath(program), work
        self.folder, self.output = work / "folder", work / "out"
        self.begun, self.wrong = 0, 0

    def tell(self, name: str, is_right: bool) -> None:
        """Tells a case by a line."""
        result = "ok" if is_right else "WRONG"
        print(f"case {name} of {Path(self.program).name}: {result}", flush=True)
        self.wrong += not is_right

    def count(self, name: str, is_right: bool) -> None:
        """Counts a case and tells it."""
        self.begun += 1
        self.tell(name, is_right)

    def begin(self, before: Mapping[str, bytes] | None = None) -> None:
        """Empties the folder, but for these files."""
        empty(str(self.folder))
        for name, data in (before or {}).items():
            (self.folder / name).write_bytes(data)

    def opened(self, given: Given) -> int:
        """A descriptor from which the input is read."""
        if isinstance(given, Path):
            return os.open(given, os.O_RDONLY)
        path = self.work / "input"
        path.write_bytes(given)
        return os.open(path, os.O_RDONLY)

    def run(
        self,
        given: Given,
        words: Iterable[str | bytes],
        output: Path | None = None,
        before_it: Callable[[], None] | None = None,
        called: bytes | None = None,
    ) -> int:
        """Runs the program in the folder, and gives its status. Standard output goes to
        a file, and `before_it` is done before the child is the program, which may be
        called by another name.
        """
        source = self.opened(given)
        with open(output or self.output, "wb") as out:
            with open(self.work / "err", "wb") as err:
                ended = subprocess.run(
                    [called or self.program, *words],
                    executable=self.program,
                    stdin=source,
                    stdout=out,
                    stderr=err,
                    cwd=self.folder,
                    preexec_fn=before_it,
                    check=False,
                    timeout=SECONDS,
                )
        os.close(source)
        return ended.returncode

    def is_left(self, line: str, out: bytes | None, files: Files | None) -> bool:
        """Whether the line stands on standard error, the bytes on standard output, and
        just these files in the folder. What is None isn't compared.
        """
        if (self.work / "err").read_bytes() != line.encode():
            return False
        if out is not None and self.output.read_bytes() != out:
            return False
        if files is None:
            return True
        return {path.name for path in self.folder.iterdir()} == set(files) and all(
            data is None or (self.folder / name).read_bytes() == data
            for name, data in files.items()
        )

    def told(
        self,
        name: str,
        given: Given,
        words: Iterable[str | bytes],
        status: int = 0,
        line: str = "",
        out: bytes | None = b"",
        files: Files | None = NOTHING,
        before: Mapping[str, bytes] | None = None,
        **how: Any,
    ) -> None:
        """A case that ends so, writes these bytes, and leaves just these files."""
        self.begin(before)
        ended = self.run(given, words, **how)
        self.count(name, ended == status and self.is_left(line, out, files))


def under(limit: int, value: int) -> Callable[[], None]:
    """What a child does before it is the program: takes this value of a limit, and is
    told of no file that gets too large.
    """

    def take() -> None:
        signal.signal(signal.SIGXFSZ, signal.SIG_IGN)
        resource.setrlimit(limit, (value, value))

    return take
