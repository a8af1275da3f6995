"""Each check is called by a file of its name, and tells what it does."""

import os
import subprocess
from pathlib import Path

import pytest

CHECKS = Path(__file__).resolve().parents[1]
NAMES = sorted(
    path.name
    for path in CHECKS.iterdir()
    if path.is_file() and os.access(path, os.X_OK) and path.name != "run"
)


@pytest.mark.parametrize("name", NAMES)
def test_help(name: str) -> None:
    told = subprocess.run(
        [CHECKS / name, "--help"], capture_output=True, text=True, check=False
    )
    assert (told.returncode, told.stderr) == (0, "")
    assert told.stdout.startswith("usage: ")


def test_each_file_calls_its_check() -> None:
    """The files are alike, so none can call another's check."""
    assert len({(CHECKS / name).read_bytes() for name in NAMES}) == 1
