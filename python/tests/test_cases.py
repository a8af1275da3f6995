"""The judge of gap cases by their text alone."""

import pytest

from fgate import cases

WHOLE = b"""\
case 5000 0 16
known 0 5
known 7 2
known 11 5
line 4 1 4
line 8 1 4
line 1 4 4
line 2 4 4
open 5 2
open 9 2
end
"""
MOST = 2**40


def test_case_that_proves_its_holes() -> None:
    """Each line that speaks of a hole speaks of two."""
    assert cases.check(WHOLE, MOST) == ("case 0 yes\n", 0, "")
    twice = cases.check(WHOLE + WHOLE, MOST)
    assert twice == ("case 0 yes\ncase 1 yes\n", 0, "")


@pytest.mark.parametrize(
    ("old", "new", "answer"),
    [
        (b"open 9 2", b"open 9 1", "alone 1"),
        (b"open 5 2", b"open 4 3", "known 4"),
        (b"known 7 2", b"known 5 2", "disorder"),
        (b"known 0 5", b"known 0 0", "disorder"),
        (b"open 5 2\nopen 9 2", b"open 16 2", "disorder"),
        (b"open 5 2\nopen 9 2\n", b"", "disorder"),
        (b"line 4 1 4", b"line 4 0 4", "disorder"),
        (b"line 4 1 4", b"line 4 20 6", "disorder"),
        (b"line 4 1 4", b"line 4611686018427387905 1 4", "disorder"),
    ],
)
def test_case_that_proves_nothing(old: bytes, new: bytes, answer: str) -> None:
    """The first thing that is wrong is told."""
    told = cases.check(WHOLE.replace(old, new), MOST)
    assert told == (f"case 0 {answer}\n", 10, "unproved case 0")


@pytest.mark.parametrize(
    ("text", "line"),
    [
        (b"frob\n", 0),
        (WHOLE.replace(b"known 0 5", b"known 0 05"), 1),
        (WHOLE.replace(b"known 0 5", b"known  0 5"), 1),
        (WHOLE.replace(b"case 5000", b"case 65536"), 0),
        (WHOLE.replace(b"line 4 1 4", b"line 4 256 4"), 4),
        (WHOLE.replace(b"open 5 2\n", b"open 5 2\nknown 5 2\n"), 9),
        (WHOLE.replace(b"end\n", b""), 9),
        (WHOLE[:-1], 10),
        (b"\n" + WHOLE, 0),
        (WHOLE.replace(b"end", b"case 5000 16 16"), 10),
    ],
)
def test_text_that_is_not_of_cases(text: bytes, line: int) -> None:
    """The first line that doesn't fit is told."""
    _, status, told = cases.check(text, MOST)
    assert (status, told) == (11, f"not a case at line {line}")


def test_case_with_too_many_lines() -> None:
    """The last of the most lines can only be the end."""
    lines = b"".join(b"line 4 1 4\n" for _ in range(cases.LINES))
    text = WHOLE.replace(b"line 8 1 4\n", lines)
    assert cases.check(text, MOST)[1:] == (11, f"not a case at line {cases.LINES - 1}")


def test_whole_cases_before_the_limit_are_judged() -> None:
    """What is longer than allowed is told from the line on that doesn't fit in."""
    told = cases.check(WHOLE + WHOLE, len(WHOLE) + 3)
    assert told == ("case 0 yes\n", 5, f"too long at byte {len(WHOLE)}")
