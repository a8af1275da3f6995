"""Short runs of `fuzz` and `many_workers`, and what the model answers by itself."""

from pathlib import Path

import pytest

from fgate_checks.trials import fuzz, many_workers
from fgate_checks.trials.built.examples import begun
from fgate_checks.trials.fuzzing.cases import CASES, case_of
from fgate_checks.trials.plain_model.commands import answer

# So many cases of each of the thirteen commands.
EACH = 16


@pytest.mark.parametrize("command", list(CASES))
def test_commands_answer_as_the_model(
    command: str,
    program: str,
    tmp_path: Path,
    monkeypatch: pytest.MonkeyPatch,
    capsys: pytest.CaptureFixture[str],
) -> None:
    monkeypatch.chdir(tmp_path)
    words = [str(EACH), "--seed", "7", "--only", command, "--program", program]
    assert fuzz.main(words) == 0
    assert capsys.readouterr().out == f"{EACH} cases, 0 differed\n"


def test_a_case_is_drawn_again_alike() -> None:
    assert case_of(3, 11, None, False) == case_of(3, 11, None, False)


def test_another_program_differs(
    tmp_path: Path,
    monkeypatch: pytest.MonkeyPatch,
    capsys: pytest.CaptureFixture[str],
) -> None:
    monkeypatch.chdir(tmp_path)
    words = ["3", "--only", "plan", "--program", "/bin/false"]
    assert fuzz.main(words) == 1
    assert capsys.readouterr().out.endswith("3 cases, 3 differed\n")
    assert (tmp_path / "fuzz-1-0/wanted.out").exists()


def test_the_model_answers_the_worked_examples() -> None:
    for name, example in begun().items():
        words = [word.encode() for word in example.words.split()]
        found = answer(words, example.given)
        assert (found.status, found.line) == (
            example.status,
            example.told.decode(),
        ), name
        if found.out is not None:
            assert found.out == example.out, name
        if example.lanes is not None:
            assert found.lanes == example.lanes, name


def test_workers_change_nothing(
    program: str,
    tmp_path: Path,
    monkeypatch: pytest.MonkeyPatch,
    capsys: pytest.CaptureFixture[str],
) -> None:
    monkeypatch.chdir(tmp_path)
    assert many_workers.main(["40", "--program", program]) == 0
    assert capsys.readouterr().out == "40 runs beside workers, 0 differed\n"
