"""What all commands have in common."""

import tomllib
from importlib import import_module

import pytest

import fgate
from tests import links

MODULES = {
    "check_cases": 2,
    "fleet": 64,
    "make_trace": 2,
    "plan_table": 2,
    "replay_link": 2,
    "report_json": 2,
}


def name_of(module: str) -> str:
    """Give the command's name."""
    return f"fgate-{module.replace('_', '-')}"


@pytest.mark.parametrize("module", MODULES)
def test_help_names_the_command_and_ends_well(module: str) -> None:
    """The help is on standard output."""
    ended = links.call(module, "--help")
    assert (ended.status, ended.errors) == (0, "")
    assert ended.out.startswith(f"usage: {name_of(module)}")
    assert "status is" in " ".join(ended.out.split())


@pytest.mark.parametrize("module", MODULES)
def test_version_is_the_package_s(module: str) -> None:
    """Each command has the same version."""
    wanted = f"{name_of(module)} {fgate.__version__}\n"
    assert links.call(module, "--version") == (0, wanted, "")


@pytest.mark.parametrize("module", MODULES)
def test_faulty_words_are_told_on_one_line(module: str) -> None:
    """Unknown words end with the command's status for them."""
    ended = links.call(module, "--frob")
    assert (ended.status, ended.out) == (MODULES[module], "")
    assert ended.errors.startswith(f"{name_of(module)}: words: ")
    assert ended.errors.count("\n") == 1


def test_entry_points_are_there() -> None:
    """Each command of pyproject.toml is a function, and none is left out."""
    project = tomllib.loads((links.PACKAGE / "pyproject.toml").read_text())["project"]
    assert sorted(project["scripts"]) == [name_of(module) for module in sorted(MODULES)]
    for place in project["scripts"].values():
        module, _, function = place.partition(":")
        assert callable(getattr(import_module(module), function))


def test_version_is_the_program_s(program: str) -> None:
    """The package and the program have one version."""
    assert links.fgate(program, "--version").decode() == f"fgate {fgate.__version__}\n"
