"""Launchers call what they name, and only where they are called themselves."""

import runpy
import subprocess
from pathlib import Path

import pytest

from fgate_checks.launchers import entry_points, launcher
from fgate_checks.repository import TOP

PYTHON = "/usr/bin/python3"


@pytest.mark.parametrize("name", entry_points(TOP))
def test_launcher_calls_the_command(name: str, tmp_path: Path) -> None:
    """Each command of the package tells its own version."""
    path = tmp_path / name
    path.write_text(launcher(entry_points(TOP)[name], TOP / "python", PYTHON))
    path.chmod(0o755)
    told = subprocess.run(
        [path, "--version"], capture_output=True, text=True, check=False
    )
    assert (told.returncode, told.stderr) == (0, "")
    assert told.stdout.split()[0] == name


def test_launcher_that_is_read_calls_nothing(tmp_path: Path) -> None:
    """The workers of a fleet read the script that started them: it doesn't end them."""
    path = tmp_path / "launcher"
    path.write_text(launcher("sys:exit", tmp_path))
    runpy.run_path(str(path), run_name="__mp_main__")
