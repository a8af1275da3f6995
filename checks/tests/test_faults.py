"""Short groups of `fail_calls`, which tries an outside that fails."""

import pytest

from fgate_checks.trials import fail_calls


@pytest.mark.parametrize("group", ["writes", "closed"])
def test_an_outside_that_fails(
    group: str, program: str, capsys: pytest.CaptureFixture[str]
) -> None:
    assert fail_calls.main(["--only", group, "--program", program]) == 0
    assert capsys.readouterr().out.splitlines()[-1].endswith(" passed, 0 failed")


def test_another_program_fails(capsys: pytest.CaptureFixture[str]) -> None:
    assert fail_calls.main(["--only", "closed", "--program", "/bin/false"]) == 1
    assert "WRONG" in capsys.readouterr().out
