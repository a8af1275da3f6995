"""Each command with each set of standard streams closed.

An input that is closed can't be read, and an output that is closed fails where
something is written. Without standard error the line is lost, and nothing else changes.
"""

from typing import NamedTuple

from ..failing_output import closing
from . import inputs
from .cases import Cases, Files
from .inputs import CAPTURE, CUT, CUT_REPORT, ONE, ONE_REPORT, PACKET


class Closed(NamedTuple):
    """A command: its words and input, what it writes, and how it ends and what it
    writes where its input is closed.
    """

    words: list[str]
    given: bytes
    text: bytes
    without: tuple[int, str, bytes]


UNREAD = (2, "read fault\n", b"")
REPAIR = ["repair", "flow=5000"]
DRILL = ["drill", "columns=4", "rows=4"]
SAMPLE = ["sample", "seed=7", "datagrams=1", "loss=0"]


def commands(help_text: bytes) -> dict[str, Closed]:
    """What each command does, by the name of its cases."""
    encode, cases = ["encode", "columns=4", "rows=4"], inputs.SQUARE_CASES
    inspect, prove = ["inspect", "flow=5000"], ["prove", "flow=5000"]
    inspected, chosen, sampled = inputs.INSPECTED, inputs.CHOSEN, inputs.SAMPLE_REPORT
    plan = ["plan", "burst=5", "most=20"]
    return {
        "repair": Closed(REPAIR, ONE, ONE_REPORT, UNREAD),
        "encode": Closed(encode, PACKET, ONE, UNREAD),
        "inspect": Closed(inspect, ONE, inspected, UNREAD),
        "drill": Closed(DRILL, PACKET, ONE_REPORT, UNREAD),
        "sample": Closed(SAMPLE, ONE, sampled, (0, "", sampled)),
        "help": Closed(["--help"], ONE, help_text, (0, "", help_text)),
        "fromcap": Closed(["fromcap"], CAPTURE, ONE, UNREAD),
        "tocap": Closed(["tocap"], ONE, CAPTURE, UNREAD),
        "monitor": Closed(["monitor"], PACKET, inputs.WHOLE, UNREAD),
        "prove": Closed(prove, inputs.square(), cases, UNREAD),
        "check": Closed(["check"], cases, inputs.YES, UNREAD),
        "plan": Closed(plan, ONE, chosen, (0, "", chosen)),
    }


def left_by(command: str, status: int, has_input: bool) -> Files:
    """The lanes that a command leaves where it ends so."""
    # A repair makes no lane before the magic was read, and a drill needs none.
    if command == "drill" or command == "repair" and has_input:
        return {"5000.ts": PACKET if has_input else b""}
    return {"5000.ts": None} if command == "sample" and status != 3 else {}


def try_closed(cases: Cases, streams: str, command: str, closed: Closed) -> None:
    """A case of the command with those standard streams closed whose numbers are in
    `streams`.
    """
    has_input = "0" not in streams
    status, line, text = (0, "", closed.text) if has_input else closed.without
    if "1" in streams:
        if status == 0 and text:
            status, line = 3, "write fault\n"
        text = b""
    cases.begin()
    numbers = [int(number) for number in streams]
    ended = cases.run(closed.given, closed.words, before_it=closing(numbers))
    is_left = ended == status and cases.is_left(
        "" if "2" in streams else line, text, left_by(command, status, has_input)
    )
    if is_left and command == "sample" and status == 0:
        is_left = (cases.folder / "5000.ts").stat().st_size == 1316
    cases.count(f"{command}_with_{streams}_closed", is_left)


def closed_cases(cases: Cases, help_text: bytes) -> None:
    every = commands(help_text)
    for streams in ("0", "1", "2", "01", "02", "12", "012"):
        for command, closed in every.items():
            try_closed(cases, streams, command, closed)
    cases.told(
        "cut_record_with_2_closed",
        CUT,
        REPAIR,
        4,
        out=CUT_REPORT,
        files={"5000.ts": PACKET},
        before_it=closing([2]),
    )
    words, line = ["repair", "flow=0"], "words: bad word 1\n"
    name = "bad_word_with_1_closed"
    cases.told(name, ONE, words, 1, line, before_it=closing([1]))
