"""The table of matrices."""

from pathlib import Path

import pytest

from fgate import plan_table
from tests import links

HEAD = "columns rows    fec   overhead burst datagrams       delay depth\n"
LINE = "      5   10   both     30.0 %     5        50     52.6 ms   145\n"


def answer(_: str, burst: int, most: int, fec: str) -> tuple[int, int] | None:
    """Answer one question with a matrix, and all others with none."""
    return (5, 10) if (burst, most, fec) == (3, 30, "both") else None


def test_table_and_plot_of_one_matrix(
    monkeypatch: pytest.MonkeyPatch, capsys: pytest.CaptureFixture[str]
) -> None:
    """The table has a line for the matrix, and the plot a dot."""
    monkeypatch.setattr(plan_table, "chosen", answer)
    assert plan_table.main(["--svg", "plot.svg"]) == 0
    assert capsys.readouterr().out == HEAD + LINE
    plot = Path("plot.svg").read_text()
    assert plot.startswith("<svg ") and plot.count("<circle") == 1


def test_questions_to_the_program(program: str) -> None:
    """The program's answers are read."""
    assert plan_table.chosen(program, 5, 30, "both") == (6, 8)
    assert plan_table.chosen(program, 20, 1, "both") is None


def test_program_that_answers_a_fault(tmp_path: Path) -> None:
    """Its line is told."""
    program = links.script(tmp_path / "fgate", "echo 'words: no command' >&2\nexit 1\n")
    ended = links.call("plan_table", "--program", program)
    assert ended == (1, "", "fgate-plan-table: words: no command\n")
