"""What several tests need: the built program, and folders with what they write."""

import os
from pathlib import Path

import pytest

from tests import links


@pytest.fixture(scope="session")
def program() -> str:
    """Give the path of the built program, or skip the test where there is none."""
    path = links.program_path()
    if not os.access(path, os.X_OK):
        pytest.skip(f"there is no built program {path}: FGATE_PROGRAM names one")
    return path


@pytest.fixture(autouse=True)
def _within_folder(tmp_path: Path, monkeypatch: pytest.MonkeyPatch) -> None:
    """Run each test in a folder of its own, in which commands find the package."""
    monkeypatch.chdir(tmp_path)
    monkeypatch.setenv("PYTHONPATH", str(links.PACKAGE))
