"""Cases that are held against their trace."""

import os
from pathlib import Path

import pytest

from fgate import cases, traces
from tests import links
from tests.test_cases import WHOLE

NAME = "fgate-check-cases"
LATER = WHOLE.replace(b"case 5000 0 16", b"case 5000 100 16")
LATER = LATER.replace(b"open 5 2\nopen 9 2", b"open 105 2\nopen 109 2")
REPORT = """\
flow 5000 shown 3 repaired 1 missing 2 windows 3 inconsistent {inconsistent}
media 5000 admitted 3 duplicate 0 conflict 0 late 0 bad 0
{gaps}other 0
"""


def fake(gaps: str, inconsistent: int, *due: bytes) -> tuple[str, ...]:
    """Give the words for a program that reports these gaps, and gives these cases."""
    Path("due").write_bytes(b"".join(due))
    Path("report").write_text(REPORT.format(gaps=gaps, inconsistent=inconsistent))
    here = os.getcwd()
    text = f'[ "$1" = prove ] && exec cat {here}/due || exec cat {here}/report\n'
    program = links.script(Path("fgate"), text)
    Path("trace").write_bytes(traces.MAGIC)
    return ("--trace", "trace", "--program", program, "flow=5000")


def test_text_alone() -> None:
    """It is judged as the program's check does, from standard input or a file."""
    assert links.call("check_cases", given=WHOLE) == (0, "case 0 yes\n", "")
    Path("cases").write_bytes(WHOLE.replace(b"open 9 2", b"open 9 1"))
    told = links.call("check_cases", "--cases", "cases", "max=1000")
    assert told == (10, "case 0 alone 1\n", "unproved case 0\n")


def test_nothing_is_no_proof() -> None:
    """Empty input fails, with a trace and without."""
    line = f"{NAME}: there is no case: the input is empty\n"
    assert links.call("check_cases") == (2, "", line)
    ended = links.call("check_cases", *fake("", 0))
    assert (ended.status, ended.errors) == (2, line)
    assert ended.out.endswith("cases 0 due 0 missing 0 strange 0\n")


@pytest.mark.parametrize(
    ("words", "told"),
    [
        (["frob=1"], "argument NAME=NUMBER: unknown word frob=1"),
        (["max=all"], "argument NAME=NUMBER: unknown word max=all"),
        (["max=7"], "max isn't 8 to 1099511627776"),
        (["max=9", "max=9"], "max stands twice"),
        (["window=9"], "window needs --trace"),
        (["--trace", "trace", "window=9"], "flow=PORT must be there with --trace"),
    ],
)
def test_unknown_words(words: list[str], told: str) -> None:
    """They are refused with a line."""
    ended = links.call("check_cases", *words, given=WHOLE)
    assert ended == (2, "", f"{NAME}: words: {told}\n")


def test_each_gap_has_its_case() -> None:
    """A gap is told with the case of each of its windows."""
    gaps = "gap 5000 5 2\ngap 5000 9 2\ngap 5000 105 2\ngap 5000 109 2\n"
    words = fake(gaps, 0, WHOLE, LATER)
    ended = links.call("check_cases", *words, given=WHOLE + LATER)
    assert (ended.status, ended.errors) == (0, "")
    assert ended.out.splitlines() == [
        "case 0 yes",
        "case 1 yes",
        "gap 5000 5 2 case 0",
        "gap 5000 9 2 case 0",
        "gap 5000 105 2 case 1",
        "gap 5000 109 2 case 1",
        "gaps 4 proved 4 missing 0 inconsistent 0",
        "cases 2 due 2 missing 0 strange 0",
    ]


def test_case_that_is_missing() -> None:
    """It fails, and the window is told."""
    gaps = "gap 5000 5 2\ngap 5000 9 2\ngap 5000 105 2\ngap 5000 109 2\n"
    ended = links.call("check_cases", *fake(gaps, 0, WHOLE, LATER), given=WHOLE)
    line = f"{NAME}: the case of the window at 100 is missing\n"
    assert (ended.status, ended.errors) == (1, line)
    assert "gap 5000 105 2 missing 100\n" in ended.out
    assert ended.out.endswith("cases 1 due 2 missing 1 strange 0\n")


def test_case_of_another_trace() -> None:
    """A case that prove doesn't give fails, and so does one that stands twice."""
    words = fake("gap 5000 5 2\ngap 5000 9 2\n", 0, WHOLE)
    for more in (LATER, WHOLE):
        ended = links.call("check_cases", *words, given=WHOLE + more)
        line = f"{NAME}: case 1 is none that prove gives\n"
        assert (ended.status, ended.errors) == (1, line)
        assert "case 1 strange\n" in ended.out


def test_gap_of_an_inconsistent_window() -> None:
    """It has no case, which is told and no fault."""
    gaps = "gap 5000 5 2\ngap 5000 9 2\ngap 5000 40 3\n"
    ended = links.call("check_cases", *fake(gaps, 1, WHOLE), given=WHOLE)
    assert (ended.status, ended.errors) == (0, "")
    assert "gap 5000 40 3 inconsistent 40 3\n" in ended.out
    assert "gaps 3 proved 2 missing 0 inconsistent 1\n" in ended.out


def test_gap_over_several_windows() -> None:
    """What each window has is told in the order of positions."""
    later = b"case 5000 20 10\nopen 20 4\nend\n"
    first = b"case 5000 0 10\nopen 8 2\nend\n"
    words = fake("gap 5000 8 16\n", 1, first, later)
    ended = links.call("check_cases", *words, given=first)
    assert "gap 5000 8 16 case 0 inconsistent 10 10 missing 20\n" in ended.out
    assert "gaps 1 proved 0 missing 1 inconsistent 1\n" in ended.out


@pytest.mark.parametrize(
    ("gaps", "told"),
    [
        ("gap 5000 5 2\n", "report and cases don't agree on the window at 0"),
        (
            "gap 5000 5 2\ngap 5000 9 2\ngap 5000 40 3\n",
            "the report has no window that is inconsistent 40 3, and no case either",
        ),
    ],
)
def test_program_that_contradicts_itself(gaps: str, told: str) -> None:
    """Its report and its cases must agree."""
    ended = links.call("check_cases", *fake(gaps, 0, WHOLE), given=WHOLE)
    assert (ended.status, ended.errors) == (1, f"{NAME}: {told}\n")


def test_what_cannot_be_had() -> None:
    """A program or a trace that isn't there, and a program that fails."""
    words = fake("", 0, WHOLE)
    gone = ("--trace", "trace", "--program", "/nowhere", "flow=5000")
    ended = links.call("check_cases", *gone, given=WHOLE)
    line = f"{NAME}: /nowhere: No such file or directory\n"
    assert ended == (69, "", line)
    ended = links.call("check_cases", "--trace", "nowhere", *words[2:], given=WHOLE)
    assert ended.status == 69
    for status, wanted in ((6, 69), (1, 2)):
        links.script(Path("fgate"), f"echo told >&2; exit {status}\n")
        ended = links.call("check_cases", *words, given=WHOLE)
        assert (ended.status, ended.out) == (wanted, "")
        assert ended.errors.endswith("told\n")


def test_trace_of_the_program(program: str) -> None:
    """The program's cases prove the gaps of its report, by the words that it had."""
    trace = links.trace_of(links.link(5000, 300, 18))
    Path("trace").write_bytes(trace)
    for settings in (["window=1"], ["window=20", "depth=60"], ["hold=3000"]):
        words = ["flow=5000", *settings]
        text = links.fgate(program, "prove", *words, given=trace)
        asked = ("--trace", "trace", "--program", program, *words)
        ended = links.call("check_cases", *asked, given=text)
        assert (ended.status, ended.errors) == (0, "")
        gaps = [line for line in ended.out.splitlines() if line.startswith("gap ")]
        assert gaps and all("case" in line.split()[4] for line in gaps)
        without = text[text.index(b"end\n") + 4 :]
        ended = links.call("check_cases", *asked, given=without)
        assert ended.status == (1 if without else 2)


def test_inconsistent_window_of_the_program(program: str) -> None:
    """A damaged parity datagram leaves a window without a case."""
    records = links.square(2, 6, 7, 11, 12)
    rows = [at for at, one in enumerate(records) if one.port == 5004]
    records[rows[3]] = links.flipped(records[rows[3]], 50)
    trace = links.trace_of(records)
    Path("trace").write_bytes(trace)
    assert links.fgate(program, "prove", "flow=5000", given=trace) == b""
    words = ("--trace", "trace", "--program", program, "flow=5000")
    ended = links.call("check_cases", *words)
    assert (ended.status, ended.out.count(" inconsistent ")) == (2, 4)
    assert "gap 5000 5 2 inconsistent 5 2\n" in ended.out


def test_trace_that_is_cut(program: str) -> None:
    """Its whole records are judged, and then the cut is told."""
    trace = links.trace_of(links.square(6, 7, 11, 12))[:-1]
    Path("trace").write_bytes(trace)
    given = cases_of(program, trace)
    words = ("--trace", "trace", "--program", program, "flow=5000")
    ended = links.call("check_cases", *words, given=given)
    assert ended.status == 4 and ended.errors.startswith("cut at byte ")
    assert "gaps 2 proved 2 missing 0 inconsistent 0\n" in ended.out
    Path("trace").write_bytes(b"FECTRAC2")
    ended = links.call("check_cases", *words, given=given)
    assert ended == (
        4,
        "",
        f"{NAME}: {os.path.abspath('trace')}: not a trace at byte 7\n",
    )


def cases_of(program: str, trace: bytes) -> bytes:
    """Write the cases of a trace that is cut, as the program does."""
    ended = links.run(program, "prove", "flow=5000", given=trace)
    assert ended.status == 4
    return ended.out.encode()


def test_judge_agrees_with_the_program(program: str) -> None:
    """What check answers of a text is what the judge answers."""
    texts = [WHOLE, WHOLE + LATER, WHOLE[:-1], b"", b"frob\n"]
    texts += [WHOLE.replace(b"open 9 2", new) for new in (b"open 9 1", b"open 7 4")]
    for text in texts:
        out, status, line = cases.check(text, 2**40)
        wanted = (status, out, f"{line}\n" if line else "")
        assert links.run(program, "check", given=text) == wanted
