"""Tries tools/install in a folder that stands for a machine: with DESTDIR and without,
twice, beside files of others, and what `--uninstall` leaves.

Each case prints a line that ends with `ok` or `WRONG`, and the status is 0 where all
are ok.
"""

import argparse
import hashlib
import os
import shutil
import stat
import subprocess
import tempfile
from collections.abc import Callable, Iterator, Sequence
from pathlib import Path
from typing import NamedTuple

from ..launchers import entry_points
from .program_runner import TOP, add_program

GATEWAY = ("gateway", "record_link")
UNIT = "lib/systemd/system/fgate@.service"


class Seen(NamedTuple):
    """The rights of what stands somewhere, and its bytes or where it leads, where it
    has any.
    """

    mode: int
    data: bytes | str | None


class Machine:
    """A folder that stands for a machine, and the installer."""

    def __init__(self, work: Path, program: Path) -> None:
        self.work, self.program = work, program

    def install(self, *words: str | Path, root: Path | None = None) -> tuple[int, str]:
        """The status and all that is said of a call of tools/install, which takes the
        program that is tried where no word is about one.
        """
        places = {name: text for name, text in os.environ.items() if name != "DESTDIR"}
        if root:
            places["DESTDIR"] = str(root)
        told = subprocess.run(
            [TOP / "tools/install", "--program", self.program, *words],
            capture_output=True,
            text=True,
            env=places,
            check=False,
        )
        return told.returncode, told.stdout + told.stderr

    def stands(self, folder: Path | None = None) -> dict[str, Seen]:
        """All that stands below a folder."""
        top = folder or self.work
        return {
            path.relative_to(top).as_posix(): Seen(
                stat.S_IMODE(path.lstat().st_mode), held_by(path)
            )
            for path in top.rglob("*")
        }


def held_by(path: Path) -> bytes | str | None:
    """The bytes of a file, where a link leads, and nothing of a folder."""
    if path.is_symlink():
        return os.readlink(path)
    return path.read_bytes() if path.is_file() else None


def commands() -> list[str]:
    """All commands that are installed beside the program."""
    return [*GATEWAY, *entry_points(TOP)]


def said(*words: str | Path, **where: str) -> subprocess.CompletedProcess[str]:
    """What a command says in this environment."""
    return subprocess.run(
        [str(word) for word in words],
        capture_output=True,
        text=True,
        stdin=subprocess.DEVNULL,
        env={**os.environ, **where},
        check=False,
    )


def installs(machine: Machine) -> Iterator[bool]:
    """All is there, the second call changes nothing, and nothing is left."""
    work = machine.work
    yield machine.install(root=work)[0] == 0
    first = machine.stands()
    status, told = machine.install(root=work)
    yield status == 0 and machine.stands() == first
    yield {line.split()[0] for line in told.splitlines()} == {"there", "gateway:"}
    yield {f"usr/local/bin/{name}" for name in (*commands(), "fgate")} <= set(first)
    yield machine.install("--uninstall", root=work)[0] == 0 and machine.stands() == {}
    yield machine.install("--uninstall", root=work)[0] == 1


def runs(machine: Machine) -> Iterator[bool]:
    """Each command runs from where it was installed, and leaves nothing there."""
    prefix = machine.work / "opt/fgate"
    yield machine.install(prefix)[0] == 0
    before = machine.stands(prefix)
    path = f"{prefix}/bin:{os.environ['PATH']}"
    version = said(machine.program, "--version").stdout
    yield said("fgate", "--version", PATH=path).stdout == version != ""
    for command in commands():
        told = said(command, "--help", PATH=path)
        yield told.returncode == 0 and "usage" in told.stdout.lower()
    unit = (prefix / UNIT).read_text()
    gateway = f"{prefix}/lib/fgate/gateway/gateway --fgate {prefix}/lib/fgate/fgate "
    yield f"ExecStart={gateway}" in unit
    manual = said("man", "-M", prefix / "share/man", "-w", "fgate-repair")
    yield manual.returncode == 0 or not shutil.which("man")
    yield machine.stands(prefix) == before
    yield machine.install("--uninstall", prefix)[0] == 0 and not prefix.exists()


def found(machine: Machine) -> Iterator[bool]:
    """Fish, zsh and bash find what is theirs where it was installed."""
    prefix = machine.work / "usr"
    yield machine.install(prefix)[0] == 0
    if shutil.which("fish"):
        where = {"PATH": f"{prefix}/bin:/usr/bin:/bin", "HOME": str(machine.work)}
        where["XDG_DATA_DIRS"] = f"{prefix}/share"
        told = said("fish", "-c", "complete -C 'fgate re'", **where)
        yield told.stdout.split("\t")[0] == "repair"
    if shutil.which("zsh"):
        functions = f"fpath=({prefix}/share/zsh/site-functions $fpath)"
        loads = "autoload -Uz compinit; compinit -u -D"
        command = f"{functions}; {loads}; print $_comps[fgate]"
        yield said("zsh", "-f", "-c", command).stdout == "_fgate\n"
    script = f"{prefix}/share/bash-completion/completions/fgate"
    told = said("bash", "-c", f". {script}; complete -p fgate")
    yield "complete -F" in told.stdout


def spares(machine: Machine) -> Iterator[bool]:
    """What another one put there isn't touched, and nothing is written."""
    work = machine.work
    other = work / "usr/local/bin/gateway"
    other.parent.mkdir(parents=True)
    other.write_text("another's\n")
    before = machine.stands()
    status, told = machine.install(root=work)
    yield status == 1 and str(other) in told and machine.stands() == before
    other.unlink()
    yield machine.install(root=work)[0] == 0
    unit = work / "usr/local" / UNIT
    unit.write_text(unit.read_text() + "# changed\n")
    changed = machine.stands()
    yield machine.install(root=work)[0] == 1 and machine.stands() == changed
    status, told = machine.install("--uninstall", root=work)
    yield status == 0 and f"left {unit}, which was changed since\n" in told
    left = [path for path, seen in machine.stands().items() if seen.data is not None]
    yield left == [f"usr/local/{UNIT}"]


def follows(machine: Machine) -> Iterator[bool]:
    """A file that a later version hasn't goes, and one of it that is new comes."""
    yield machine.install(root=machine.work)[0] == 0
    root = machine.work / "usr/local"
    old, new, listed = root / "bin/old", root / "bin/gateway", "lib/fgate/installed"
    old.write_text("old\n")
    digest = hashlib.sha256(old.read_bytes()).hexdigest()
    text = (root / listed).read_text()
    (root / listed).write_text(f"{digest} bin/old\n{text}")
    new.unlink()
    status, told = machine.install(root=machine.work)
    yield status == 0 and not old.exists()
    yield f"removed {old}\n" in told and f"installed {new}\n" in told


def refuses(machine: Machine) -> Iterator[bool]:
    """Words that can't be read, a program that isn't there, a folder that no unit can
    name, one that can't be written.
    """
    work = machine.work
    yield machine.install("--prefix", work)[0] == 2
    yield machine.install("a", "b")[0] == 2
    status, told = machine.install("--program", work / "none", root=work)
    yield status == 1 and "tools/prove fgate" in told and machine.stands() == {}
    yield machine.install(work / "two words")[0] == 1
    (work / "file").touch()
    status, told = machine.install(work / "file")
    yield status == 1 and "Traceback" not in told
    yield machine.install("--help")[0] == 0


CASES: tuple[Callable[[Machine], Iterator[bool]], ...] = (
    *(installs, runs, found, spares, follows, refuses),
)


def main(arguments: Sequence[str]) -> int:
    words = argparse.ArgumentParser(
        prog="try_install",
        description=__doc__,
        formatter_class=argparse.RawDescriptionHelpFormatter,
    )
    add_program(words)
    asked = words.parse_args(arguments)
    right = True
    for case in CASES:
        with tempfile.TemporaryDirectory() as work:
            machine = Machine(Path(work), Path(asked.program).resolve())
            results = list(case(machine))
        right = all(results) and right
        told = "ok" if all(results) else f"WRONG: {results}"
        print(f"install {case.__name__}: {told}", flush=True)
    return 0 if right else 1
