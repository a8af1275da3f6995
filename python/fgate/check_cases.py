"""Judges gap cases without the program, and tells which of a report's gaps they prove.

fgate-check-cases [--cases FILE] [max=BYTES]
fgate-check-cases --trace FILE [--cases FILE] [--program PATH]
                  flow=PORT [window=N] [depth=N] [hold=MICROSECONDS] [max=BYTES]

The cases are those that `fgate prove` wrote, on standard input unless --cases names a
file. Each is judged by its text alone, and has a line as `fgate check` writes it:
`case I yes` where what it tells is no gap that a receiver could have closed.

With --trace, and the words of that `prove`, the cases are held against the trace. The
program proves and repairs it again by these words, and after the judgement come:

  case I strange          case I is none that prove gives of this trace
  gap P F N PROOF ..      for each gap of the report: N positions of flow P from F on
  gaps N proved N missing N inconsistent N
  cases N due N missing N strange N

The PROOFs of a gap tell, in the order of its positions, what each of its windows has:

  case I                  case I proves what the window shows of the gap
  missing M               prove gives a case of the window from M on, and it isn't here
  inconsistent F N        prove gives none of the N positions from F on: no words made
                          all equations come out, so only received words were shown

A gap is proved where each of its windows has a case. The lane of the repair goes to a
folder of the system's for temporary files, and is gone at the end.

The status is 0 where each case is judged `yes` and none that prove gives is missing; an
inconsistent window takes no case. Else a line on standard error tells the first of
these:

   2  the words can't be read, or there is no case at all
  11  the text isn't one of cases, and 5: it is longer than max (without --trace)
  10  a case isn't `yes`
   1  a case is missing or strange, or the program's report and cases don't agree
  69  the program or a file can't be read, or the program failed
   4  the trace is none or is cut, and 5: it is longer than max; all else is well
"""

import argparse
import bisect
import os
import re
import subprocess
import sys
import tempfile
from collections.abc import Sequence
from typing import NamedTuple

from fgate import cases, command, reports

NAME = "fgate-check-cases"
NOTHING, MISSING, UNAVAILABLE = 2, 1, 69
#: What a trace may be told as, for all of which the whole records count.
ENDED, CUT, TOO_LONG, FAULTY = 0, 4, 5, 1
MOST_BYTES = 2**40
EMPTY = "there is no case: the input is empty"
OF_PROVE = ("flow", "window", "depth", "hold", "max")
#: A first position and how many there are from it on.
Run = tuple[int, int]


class Stopped(Exception):
    """Nothing more can be said: a status, and a line that tells why."""

    def __init__(self, status: int, line: str) -> None:
        super().__init__(line)
        self.status, self.line = status, line


class End(NamedTuple):
    """How something ended: its status, and its line where that isn't 0."""

    status: int
    line: str


class Verdict(NamedTuple):
    """What is told on standard output, and how the command ends."""

    lines: list[str]
    end: End


class Played(NamedTuple):
    """What the program says of a trace."""

    gaps: list[Run]
    inconsistent: int
    due: list[cases.Case]
    end: End


# ---- Words ----


def named_number(text: str) -> tuple[str, str]:
    """Read a word as the program takes it."""
    found = re.fullmatch("([a-z]+)=([0-9]+)", text)
    if not found or found[1] not in OF_PROVE:
        raise argparse.ArgumentTypeError(f"unknown word {text}")
    return found[1], found[2]


def parser() -> command.Parser:
    """Give the reader of the command's words."""
    words = command.Parser(NAME, __doc__)
    words.add_argument(
        "--cases", metavar="FILE", help="the cases; else they are standard input"
    )
    words.add_argument(
        "--trace", metavar="FILE", help="the trace that prove had; else none is read"
    )
    words.add_argument(
        "--program",
        default="",
        metavar="PATH",
        help="the program; else the one on the path, or that of this clone",
    )
    words.add_argument(
        "words",
        nargs="*",
        type=named_number,
        metavar="NAME=NUMBER",
        help="the words of prove; without --trace max alone, as of check",
    )
    return words


def read_words(arguments: Sequence[str] | None) -> argparse.Namespace:
    """Read the words, and refuse those that don't go together."""
    words = parser()
    asked = words.parse_intermixed_args(arguments)
    names = [name for name, _ in asked.words]
    twice = [name for name in names if names.count(name) > 1]
    asked.most = next((int(text) for name, text in asked.words if name == "max"), None)
    if twice:
        words.error(f"{twice[0]} stands twice")
    if asked.trace and "flow" not in names:
        words.error("flow=PORT must be there with --trace")
    if not asked.trace and set(names) - {"max"}:
        words.error(f"{(set(names) - {'max'}).pop()} needs --trace")
    if asked.most is not None and not 8 <= asked.most <= MOST_BYTES:
        words.error(f"max isn't 8 to {MOST_BYTES}")
    return asked


# ---- The text alone ----


def read_cases(path: str | None) -> bytes:
    """Read the text of the cases, which isn't to be empty."""
    if path is None:
        text = sys.stdin.buffer.read()
    else:
        try:
            with open(path, "rb") as file:
                text = file.read()
        except OSError as fault:
            raise Stopped(UNAVAILABLE, f"{path}: {fault.strerror}") from None
    return text


def judged(text: bytes, most: int) -> Verdict:
    """Judge the text alone. What is told is what `fgate check` tells."""
    if not text:
        raise Stopped(NOTHING, EMPTY)
    told, status, line = cases.check(text, most)
    return Verdict(told.splitlines(), End(status, line))


# ---- What the program says ----


def run_program(
    program: str, words: Sequence[str], trace: str, folder: str
) -> tuple[bytes, End]:
    """Give what the program says of the trace, and how it ended."""
    try:
        with open(trace, "rb") as source:
            ended = subprocess.run(
                [program, *words],
                stdin=source,
                capture_output=True,
                cwd=folder,
                check=False,
            )
    except OSError as fault:
        raise Stopped(UNAVAILABLE, f"{fault.filename}: {fault.strerror}") from None
    line = ended.stderr.decode("utf-8", "replace").strip()
    if ended.returncode == FAULTY:
        raise Stopped(command.FAULTY_WORDS, f"{words[0]}: {line}")
    if ended.returncode == CUT and line.startswith("not a trace"):
        raise Stopped(CUT, f"{trace}: {line}")
    if ended.returncode not in (ENDED, CUT, TOO_LONG):
        status = f"{words[0]} ended with status {ended.returncode}"
        raise Stopped(UNAVAILABLE, f"{status}: {line}" if line else status)
    return ended.stdout, End(ended.returncode, line)


def play(program: str, trace: str, words: Sequence[str]) -> Played:
    """Have the program prove and repair the trace."""
    trace = os.path.abspath(trace)
    with tempfile.TemporaryDirectory(prefix="check-cases-") as folder:
        text, proved = run_program(program, ["prove", *words], trace, folder)
        repair = ["repair", *words, "workers=0"]
        report, repaired = run_program(program, repair, trace, folder)
    if proved != repaired:
        raise Stopped(UNAVAILABLE, f"{trace}: it changed while it was read")
    due, status, line = cases.read_text(text, len(text))
    if status:
        raise Stopped(UNAVAILABLE, f"what prove writes is none of cases: {line}")
    try:
        flow = reports.parsed(report.decode("ascii", "replace"))["flows"][0]
    except (reports.NotAReport, IndexError) as fault:
        raise Stopped(UNAVAILABLE, f"repair writes no report: {fault}") from None
    gaps = [(gap["first"], gap["length"]) for gap in flow["gaps"]]
    return Played(gaps, flow["inconsistent"], due, proved)


# ---- Cases and gaps ----


def window_of(case: cases.Case) -> Run:
    """Give the window of a case."""
    _, mark, count = case[0][1]
    return mark, count


def within(runs: Sequence[Run], window: Run) -> list[Run]:
    """Give the parts of rising runs that are in a window."""
    begin, end = window[0], sum(window)
    at = max(0, bisect.bisect_left(runs, (begin, 0)) - 1)
    found = []
    while at < len(runs) and runs[at][0] < end:
        low, high = max(runs[at][0], begin), min(sum(runs[at]), end)
        if low < high:
            found.append((low, high - low))
        at += 1
    return found


def missing_in(case: cases.Case) -> list[Run]:
    """Give the positions that a case says its window shows as missing, as runs."""
    holes = [(first, length) for first, length in cases.numbers_of(case, b"open")]
    return within(holes, window_of(case))


class Comparison:
    """The cases that are given beside what the program says of the trace."""

    def __init__(self, given: list[cases.Case], played: Played, flow: str) -> None:
        self.given, self.played, self.flow = given, played, flow
        # Windows follow one another, so prove's cases rise by theirs.
        self.windows = [window_of(case) for case in played.due]
        places: dict[tuple[cases.Line, ...], int] = {}
        for number, case in enumerate(given):
            places.setdefault(tuple(case), number)
        #: Which of the given cases is each case that prove gives, or None.
        self.found = [places.get(tuple(case)) for case in played.due]

    def strange(self) -> list[int]:
        """Give the given cases that prove doesn't give, or that stand there twice."""
        return sorted(set(range(len(self.given))) - set(self.found))

    def missing(self) -> list[int]:
        """Give the beginnings of windows whose case is missing."""
        return [
            window[0]
            for window, number in zip(self.windows, self.found)
            if number is None
        ]

    def proofs(self, gap: Run) -> list[str]:
        """Give what each window of a gap has for a proof, in the order of positions."""
        at, end = gap[0], sum(gap)
        place = max(0, bisect.bisect_left(self.windows, (at, 0)) - 1)
        told = []
        while place < len(self.windows) and self.windows[place][0] < end:
            window, number = self.windows[place], self.found[place]
            place += 1
            if sum(window) <= at:
                continue
            if at < window[0]:
                told.append(f"inconsistent {at} {window[0] - at}")
            told.append(f"missing {window[0]}" if number is None else f"case {number}")
            at = sum(window)
        if at < end:
            told.append(f"inconsistent {at} {end - at}")
        return told

    def contradiction(self, proofs: list[list[str]]) -> str:
        """Say where the program's own report and cases don't agree, if anywhere."""
        for case, window in zip(self.played.due, self.windows):
            if missing_in(case) != within(self.played.gaps, window):
                return f"report and cases don't agree on the window at {window[0]}"
        stretches = [
            one for told in proofs for one in told if one.startswith("inconsistent")
        ]
        if stretches and not self.played.inconsistent:
            return (
                f"the report has no window that is {stretches[0]}, and no case either"
            )
        return ""

    def verdict(self) -> Verdict:
        """Tell each gap with its proofs, and what is wrong."""
        proofs = [self.proofs(gap) for gap in self.played.gaps]
        missing, strange = self.missing(), self.strange()
        lines = [f"case {number} strange" for number in strange]
        for (first, length), told in zip(self.played.gaps, proofs):
            lines.append(" ".join([f"gap {self.flow} {first} {length}", *told]))
        lines += [self.gaps_line(proofs), self.cases_line(missing, strange)]
        fault = self.contradiction(proofs)
        if strange:
            fault = f"case {strange[0]} is none that prove gives"
        if missing:
            fault = f"the case of the window at {missing[0]} is missing"
        end = End(MISSING, f"{NAME}: {fault}") if fault else End(0, "")
        return Verdict(lines, end)

    def gaps_line(self, proofs: list[list[str]]) -> str:
        """Count the gaps that have proofs, and those that lack one."""
        lacking = {
            kind: sum(any(one.startswith(kind) for one in told) for told in proofs)
            for kind in ("missing", "inconsistent")
        }
        proved = sum(all(one.startswith("case") for one in told) for told in proofs)
        return (
            f"gaps {len(proofs)} proved {proved} missing {lacking['missing']} "
            f"inconsistent {lacking['inconsistent']}"
        )

    def cases_line(self, missing: list[int], strange: list[int]) -> str:
        """Count the cases."""
        return (
            f"cases {len(self.given)} due {len(self.found)} missing {len(missing)} "
            f"strange {len(strange)}"
        )


# ---- The command ----


def with_trace(asked: argparse.Namespace) -> Verdict:
    """Judge the cases, and hold them against the trace."""
    text = read_cases(asked.cases)
    words = [f"{name}={number}" for name, number in asked.words]
    program = command.program_at(asked.program)
    played = play(program, asked.trace, words)
    given, of_text, fault = cases.read_text(text, len(text))
    told, of_answers, unproved = cases.answers_to(given)
    comparison = Comparison(given, played, dict(asked.words)["flow"])
    compared = comparison.verdict()
    lines = told + compared.lines
    ends = [
        End(0 if text else NOTHING, f"{NAME}: {EMPTY}"),
        End(of_text, fault),
        End(of_answers, unproved),
        compared.end,
        played.end,
    ]
    return Verdict(lines, next((one for one in ends if one.status), End(0, "")))


def judge(asked: argparse.Namespace) -> Verdict:
    """Do what the words ask for."""
    if asked.trace:
        return with_trace(asked)
    return judged(read_cases(asked.cases), asked.most or MOST_BYTES)


def main(arguments: Sequence[str] | None = None) -> int:
    """Judge cases, and give the command's status."""
    try:
        verdict = judge(read_words(arguments))
    except Stopped as told:
        print(f"{NAME}: {told.line}", file=sys.stderr)
        return told.status
    for line in verdict.lines:
        print(line)
    if verdict.end.status:
        print(verdict.end.line, file=sys.stderr)
    return verdict.end.status


if __name__ == "__main__":
    sys.exit(main())
