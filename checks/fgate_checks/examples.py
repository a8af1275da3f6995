"""Runs the command lines of documents as a reader would, in one shell.

The shell stands in a folder that is like the top of the repository after README's
first command: what an earlier block wrote or set is there. In it
crates/fgate/out/fgate is the built program, and `tools/prove` has nothing left to
prove. The commands of the package of python/ and of gateway/, and `fgate` itself, are
found by their installed names.
"""

from __future__ import annotations

import os
import shutil
import subprocess
import sys
import tempfile
from collections.abc import Sequence
from pathlib import Path

from fgate_checks.blocks import Block
from fgate_checks.launchers import entry_points, launcher

SECONDS = 300  # for all of them, on a machine that may be busy
FOLDERS = ("bench", "checks", "docs", "gateway", "python", "tools")


def make_folder(repository: Path, folder: Path) -> None:
    """What the commands need, as it stands in a fresh clone after the first command."""
    (folder / "crates/fgate/out").mkdir(parents=True)
    program = "crates/fgate/out/fgate"
    shutil.copy(repository / program, folder / program)
    shutil.copytree(repository / "crates/fgate/data", folder / "crates/fgate/data")
    for name in FOLDERS:
        if (repository / name).is_dir():
            shutil.copytree(repository / name, folder / name, symlinks=True)
    (folder / "tools/prove").write_text("#!/bin/sh\n", encoding="utf-8")


def make_commands(top: Path, folder: Path) -> None:
    """The commands by their installed names."""
    folder.mkdir()
    (folder / "fgate").symlink_to(top / "crates/fgate/out/fgate")
    for name, target in entry_points(top).items():
        file = folder / name
        file.write_text(launcher(target, top / "python", sys.executable), "utf-8")
        file.chmod(0o755)
    for file in sorted((top / "gateway").glob("*")):
        if file.is_file() and os.access(file, os.X_OK):
            (folder / file.name).symlink_to(file)


def shell_script(work: Path, commands: Sequence[Block]) -> str:
    """A script that runs each block in one shell, and keeps output and status."""
    lines = ['cd "$1" || exit', "exec < /dev/null"]
    for number, block in enumerate(commands):
        (work / f"{number}.sh").write_text(block.text, encoding="utf-8")
        run = f'eval "$(cat {work}/{number}.sh)"'
        lines.append(f"{run} > {work}/{number}.out 2>&1")
        lines.append(f"echo $? > {work}/{number}.status")
    return "\n".join(lines) + "\n"


def printed_by(work: Path, number: int) -> str:
    """What a block printed, with a line on its status where that isn't 0."""
    status = work / f"{number}.status"
    if not status.exists():
        return "(not run to its end)\n"
    told = (work / f"{number}.out").read_text(encoding="utf-8", errors="replace")
    code = status.read_text(encoding="utf-8").strip()
    return told if code == "0" else f"{told}(status {code})\n"


def run(repository: Path, commands: Sequence[Block]) -> list[str]:
    """What each block printed."""
    with tempfile.TemporaryDirectory() as folder:
        work = Path(folder)
        make_folder(repository, work / "top")
        make_commands(work / "top", work / "bin")
        path = f"{work}/bin:{os.environ['PATH']}"
        script = shell_script(work, commands)
        try:
            subprocess.run(
                ["bash", "-c", script, "bash", str(work / "top")],
                timeout=SECONDS,
                env={**os.environ, "LC_ALL": "C", "PATH": path},
                check=False,
            )
        except subprocess.TimeoutExpired:
            print(f"documents: not done within {SECONDS} seconds", file=sys.stderr)
        return [printed_by(work, number) for number in range(len(commands))]
