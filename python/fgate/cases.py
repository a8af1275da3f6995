"""Judges gap cases by their text alone, for whoever doubts the program.

A case says what a receiver had when it gave up on some datagrams of an RTP stream that
is protected by parity (SMPTE ST 2022-1): which positions it knew, of which positions
each parity datagram tells the sum, and which positions are holes. A parity datagram
gives the word at one unknown position where it knows all others. So the holes are
proved where none of them is known, and each parity datagram that speaks of a hole
speaks of two at least: then none ever is the only unknown one.

A position is a datagram's number in its stream. For each case a text has these lines:

  case PORT MARK COUNT     the flow, and the window: COUNT positions from MARK on
  known FIRST LENGTH       positions with a word, as runs that rise with gaps between
  line BASE OFFSET NA      a parity datagram speaks of NA positions, each OFFSET from
                           the one before, from BASE on
  open FIRST LENGTH        the holes, as such runs
  end

This file stands on Python's library alone, and knows nothing of the program.
"""

import re
from collections.abc import Sequence

#: A kind of line, and the numbers behind it.
Line = tuple[bytes, tuple[int, ...]]
#: The lines of a case from `case` to `end`.
Case = list[Line]

LIMIT = 2**62  # the greatest position
LINES = 10_000  # the most lines of a case, of which the last is `end`
NUMBERS = {b"case": 3, b"known": 2, b"line": 3, b"open": 2, b"end": 0}
ORDER = list(NUMBERS)
FORM = {
    kind: re.compile(kind + rb" (0|[1-9][0-9]{0,18})" * count)
    for kind, count in NUMBERS.items()
}
#: Below which the numbers of such a line are.
FIELDS = {b"case": (2**16, 10**19, 2**32), b"line": (10**19, 2**8, 2**8)}


def read(line: bytes) -> Line | None:
    """Give the kind and numbers of a line, or None where it is no line of a case."""
    kind = line.split(b" ", 1)[0]
    found = FORM[kind].fullmatch(line) if kind in FORM else None
    if not found:
        return None
    numbers = tuple(map(int, found.groups()))
    if any(n >= most for n, most in zip(numbers, FIELDS.get(kind, ()))):
        return None
    return kind, numbers


def fits(case: Case, line: Line | None) -> bool:
    """Tell whether a line may stand behind these lines of a case."""
    if line is None or (len(case) == LINES - 1 and line[0] != b"end"):
        return False
    if not case:
        return line[0] == b"case"
    return line[0] != b"case" and ORDER.index(line[0]) >= ORDER.index(case[-1][0])


def cases_of(lines: Sequence[bytes]) -> tuple[list[Case], int | None, bool]:
    """Read whole cases.

    The answer has the cases, the number of the first line that doesn't fit, or None,
    and whether a case is unfinished.
    """
    cases: list[Case] = []
    case: Case = []
    for number, text in enumerate(lines):
        line = read(text)
        if line is None or not fits(case, line):
            return cases, number, bool(case)
        case.append(line)
        if line[0] == b"end":
            cases.append(case)
            case = []
    return cases, None, bool(case)


def numbers_of(case: Case, kind: bytes) -> list[tuple[int, ...]]:
    """Give the numbers of a case's lines of one kind."""
    return [numbers for one, numbers in case if one == kind]


def in_order(runs: list[tuple[int, ...]]) -> bool:
    """Tell whether runs have positions, and rise with a gap before the next."""
    return all(
        length >= 1 and first + length - 1 <= LIMIT for first, length in runs
    ) and all(one[0] + one[1] < other[0] for one, other in zip(runs, runs[1:]))


def inside(runs: list[tuple[int, ...]], position: int) -> bool:
    """Tell whether a position is in one of the runs."""
    return any(first <= position < first + length for first, length in runs)


def is_shape(base: int, offset: int, count: int) -> bool:
    """Tell whether a parity datagram can speak of these positions."""
    return (
        1 <= offset <= 20
        and 1 <= count <= 20
        and (count - 1) * offset <= 99
        and base <= LIMIT
    )


def judge(case: Case) -> str:
    """Say of a case whether it proves its holes, or what is wrong with it."""
    _, mark, size = case[0][1]
    known, lines, holes = (
        numbers_of(case, kind) for kind in (b"known", b"line", b"open")
    )
    shaped = all(is_shape(*line) for line in lines)
    claims = any(
        first < mark + size and mark < first + length for first, length in holes
    )
    if not (in_order(known) and in_order(holes) and shaped and claims):
        return "disorder"
    both = [
        max(one[0], other[0])
        for one in known
        for other in holes
        if max(one[0], other[0]) < min(sum(one), sum(other))
    ]
    if both:
        return f"known {min(both)}"
    for number, (base, offset, count) in enumerate(lines):
        if sum(inside(holes, base + j * offset) for j in range(count)) == 1:
            return f"alone {number}"
    return "yes"


def read_text(text: bytes, most: int) -> tuple[list[Case], int, str]:
    """Read the cases of a text of at most so many bytes.

    The answer has the whole cases, the status that `fgate check` gives of the text
    alone, and its line, which is empty where the status is 0.
    """
    *lines, rest = text[:most].split(b"\n")
    cases, bad, unfinished = cases_of(lines)
    if bad is None and len(text) <= most and (rest or unfinished):
        bad = len(lines) if rest else len(lines) - 1
    if bad is not None:
        return cases, 11, f"not a case at line {bad}"
    if len(text) > most:
        return cases, 5, f"too long at byte {most - len(rest)}"
    return cases, 0, ""


def answers_to(cases: list[Case]) -> tuple[list[str], int, str]:
    """Judge cases: a line for each, the status of all, and the first fault."""
    answers = [judge(case) for case in cases]
    lines = [f"case {number} {answer}" for number, answer in enumerate(answers)]
    wrong = [number for number, answer in enumerate(answers) if answer != "yes"]
    return lines, 10 if wrong else 0, f"unproved case {wrong[0]}" if wrong else ""


def check(text: bytes, most: int) -> tuple[str, int, str]:
    """Answer as `fgate check` does: its output, its status and its line of error."""
    cases, status, line = read_text(text, most)
    lines, unproved, first = answers_to(cases)
    told = "".join(line + "\n" for line in lines)
    return (told, status, line) if status else (told, unproved, first)
