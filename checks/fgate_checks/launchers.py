"""Launchers for the commands of the Python package."""

from __future__ import annotations

import tomllib
from pathlib import Path


def entry_points(repository: Path) -> dict[str, str]:
    """The package's commands, each with the function that it calls."""
    text = (repository / "python/pyproject.toml").read_text(encoding="utf-8")
    scripts = tomllib.loads(text)["project"].get("scripts", {})
    return {str(name): str(target) for name, target in scripts.items()}


def packages(repository: Path) -> list[str]:
    """The names of the packages that python/pyproject.toml installs."""
    text = (repository / "python/pyproject.toml").read_text(encoding="utf-8")
    return [str(name) for name in tomllib.loads(text)["tool"]["setuptools"]["packages"]]


def launcher(target: str, folder: Path, python: str = "/usr/bin/env python3") -> str:
    """A script that calls the function of a package that stands in the folder.

    It is guarded, since the workers of a fleet read it too.
    """
    module, _, function = target.partition(":")
    return (
        f"#!{python}\n"
        "import sys\n"
        "\n"
        f"sys.path.insert(0, {str(folder)!r})\n"
        "sys.dont_write_bytecode = True\n"
        f"from {module} import {function}\n"
        "\n"
        'if __name__ == "__main__":\n'
        f"    sys.exit({function}())\n"
    )
