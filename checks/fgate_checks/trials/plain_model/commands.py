"""The commands: each gives its output, its lanes and how it ends."""

from fgate import cases

from .captures import from_capture, to_capture
from .command_lines import asked_of
from .continuity import monitor
from .datagrams import PACKET
from .encodings import encode, layout_fault, payloads_of, sample
from .repairs import prove, repair
from .surveys import survey
from .traces import (
    DONE,
    MAGIC,
    Answer,
    Ends,
    Settings,
    inspected,
    is_picked,
    read_trace,
    spelled,
)

# Standard output, the lanes by their ports, and how the run ends.
Done = tuple[bytes, dict[int, bytes], Ends]


def do_repair(asked: Settings, data: bytes) -> Done:
    records, ending = read_trace(data, asked["max"])
    if records is None:
        return b"", {}, ending
    lanes, report = repair(
        records, asked["flow"], asked["window"], asked["depth"], asked["hold"]
    )
    tail = ending.line + "\n" if ending != DONE else ""
    return (report + tail).encode(), lanes, ending


def do_encode(asked: Settings, data: bytes) -> Done:
    payloads, ending = payloads_of(data, asked["packets"] * PACKET, asked["max"])
    return MAGIC + spelled(encode(payloads, asked)), {}, ending


def do_drill(asked: Settings, data: bytes) -> Done:
    payloads, ending = payloads_of(data, asked["packets"] * PACKET, asked["max"])
    drops, every = set(asked["drop"]), asked["every"]
    left = [
        record
        for number, record in enumerate(encode(payloads, asked))
        if number not in drops and not (every and number and number % every == 0)
    ]
    lanes, report = repair(
        left, [asked["port"]], asked["window"], asked["depth"], asked["hold"]
    )
    return report.encode(), lanes, ending


def do_sample(asked: Settings, _: bytes) -> Done:
    left, line = sample(asked["seed"], asked["datagrams"], asked["loss"])
    lanes, report = repair(left, [5000], 100, 400, 0)
    return (line + report).encode(), lanes, DONE


def do_inspect(asked: Settings, data: bytes) -> Done:
    records, ending = read_trace(data, asked["max"])
    lines = [
        inspected(number, *record, asked["flow"])
        for number, record in enumerate(records or [])
    ]
    return "".join(lines).encode(), {}, ending


def do_survey(asked: Settings, data: bytes) -> Done:
    records, ending = read_trace(data, asked["max"])
    return (
        b""
        if records is None
        else survey(records, ending, asked["format"] == "json").encode(),
        {},
        ending,
    )


def do_fromcap(asked: Settings, data: bytes) -> Done:
    records, ending = from_capture(data, asked["max"])
    return b"" if records is None else MAGIC + spelled(records), {}, ending


def do_tocap(asked: Settings, data: bytes) -> Done:
    records, ending = read_trace(data, asked["max"])
    if records is None:
        return b"", {}, ending
    capture, ending = to_capture(records, ending)
    return capture, {}, ending


def do_pick(asked: Settings, data: bytes) -> Done:
    records, ending = read_trace(data, asked["max"])
    return (
        b""
        if records is None
        else MAGIC + spelled(record for record in records if is_picked(record, asked)),
        {},
        ending,
    )


def do_monitor(asked: Settings, data: bytes) -> Done:
    text, ending = monitor(data, asked["max"])
    return text.encode(), {}, ending


def do_prove(asked: Settings, data: bytes) -> Done:
    records, ending = read_trace(data, asked["max"])
    text = prove(
        records or [], asked["flow"][0], asked["window"], asked["depth"], asked["hold"]
    )
    return text.encode(), {}, ending


def do_check(asked: Settings, data: bytes) -> Done:
    """By the checker that knows nothing but the text of cases."""
    text, status, line = cases.check(data, asked["max"])
    return text.encode(), {}, Ends(status, line)


def do_plan(asked: Settings, _: bytes) -> Done:
    """The least of all matrices that fit."""
    both = asked["fec"] == "both"
    fitting = [
        (columns * rows, columns, rows)
        for columns in range(asked["burst"], 21)
        for rows in range(4, 21)
        if not layout_fault(columns, rows, asked["fec"])
        and 100 * (columns + both * rows) <= asked["most"] * columns * rows
    ]
    return (
        (
            "columns {1} rows {2}\n".format(*min(fitting)) if fitting else "none\n"
        ).encode(),
        {},
        DONE,
    )


DOES = {
    "repair": do_repair,
    "encode": do_encode,
    "drill": do_drill,
    "sample": do_sample,
    "inspect": do_inspect,
    "survey": do_survey,
    "fromcap": do_fromcap,
    "tocap": do_tocap,
    "monitor": do_monitor,
    "prove": do_prove,
    "check": do_check,
    "plan": do_plan,
    "pick": do_pick,
}


def answer(words: list[bytes], data: bytes) -> Answer:
    """The answer to the words of a command line and the bytes of its input."""
    asked = asked_of(words)
    if asked == "help":
        return Answer(0, "", None, {})
    if isinstance(asked, str):
        return Answer(1, asked + "\n", b"", {})
    command, settings = asked
    out, lanes, ending = DOES[command](settings, data)
    return Answer(ending.status, ending.line + "\n" if ending.line else "", out, lanes)
