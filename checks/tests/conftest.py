"""What the tests have in common: the built program."""

import os

import pytest

from fgate_checks.trials.program_runner import PROGRAM


@pytest.fixture(scope="session")
def program() -> str:
    """The program as it was built last; tests that call it are left out without it."""
    if not os.access(PROGRAM, os.X_OK):
        pytest.skip("crates/fgate/out/fgate isn't built")
    return PROGRAM
