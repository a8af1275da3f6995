"""An installation into a folder of its own, which leaves nothing behind it."""

from pathlib import Path

from fgate_checks.trials.try_install import Machine, installs, refuses


def test_all_is_installed_and_removed(program: str, tmp_path: Path) -> None:
    assert all(installs(Machine(tmp_path, Path(program))))


def test_what_cannot_be_done_is_refused(program: str, tmp_path: Path) -> None:
    assert all(refuses(Machine(tmp_path, Path(program))))
