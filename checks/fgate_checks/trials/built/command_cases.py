"""Cases of each command: status, line, standard output, and what is in the folder."""

import resource
import subprocess
from pathlib import Path

from . import inputs
from .cases import Cases, under
from .inputs import (
    CAPTURE,
    CUT,
    LAST_AT,
    MAGIC,
    ONE,
    ONE_REPORT,
    OTHER_ROW_LANE,
    OTHER_ROW_REPORT,
    PACKET,
    STREAM,
    kept,
)

FAULT = "write fault\n"
SMALL_FILES = under(resource.RLIMIT_FSIZE, 1024)
REPAIR = ["repair", "flow=5000"]
DRILL = ["drill", "columns=4", "rows=4"]
ENCODE = ["encode", "columns=4", "rows=4"]
LANE = {"5000.ts": PACKET}
# 64 flows take more than 32 MiB, and one flow takes less.
MEMORY = 32768 * 1024


def repairs(cases: Cases) -> None:
    old = b"what an earlier run left, which is longer than the lane\n" + 4 * ONE
    before = {"5000.ts": old}
    cases.told("one_packet", ONE, REPAIR, out=ONE_REPORT, files=LANE, before=before)
    lost, report = kept("one_lost.trace"), kept("one_lost.report")
    lane = {"5000.ts": kept("one_lost.lane")}
    cases.told("one_lost", lost, REPAIR, out=report, files=lane)
    for workers in (0, 16):
        name = f"one_lost_beside_{workers}_workers"
        words = [*REPAIR, f"workers={workers}"]
        cases.told(name, lost, words, out=report, files=lane)
    held = [*REPAIR, "window=4", "depth=8", "hold=1000"]
    for name, words, given, report, stream in [
        ("last_within_the_hold", held, LAST_AT[1600], inputs.IN_TIME, inputs.FIVE),
        ("last_past_the_hold", held, LAST_AT[1900], inputs.TOO_LATE, inputs.FOUR),
        ("restart", REPAIR, inputs.RESTART, inputs.RESTART_REPORT, inputs.RESTART_LANE),
        ("other_row", REPAIR, inputs.OTHER_ROW, OTHER_ROW_REPORT, OTHER_ROW_LANE),
    ]:
        cases.told(name, given, words, out=report, files={"5000.ts": stream})
    words = ["repair", "flow=6000", "flow=5000", "workers=0"]
    lanes = {**LANE, "6000.ts": PACKET}
    cases.told("two_flows", inputs.TWO, words, out=inputs.BOTH_REPORT, files=lanes)


def ends(cases: Cases) -> None:
    """Inputs that are cut, too long, no trace, or can't be read."""
    line = "cut at byte 220\n"
    cases.told("cut_record", CUT, REPAIR, 4, line, inputs.CUT_REPORT, LANE)
    words, line = [*REPAIR, "max=431"], "too long at byte 220\n"
    cases.told("too_many_bytes", inputs.TWO, words, 5, line, None, LANE)
    other = kept("other_magic.trace")
    cases.told("no_trace", other, REPAIR, 4, "not a trace at byte 7\n")
    name = "input_that_cannot_be_read"
    cases.told(name, cases.work, REPAIR, 2, "read fault\n")


def limits(cases: Cases) -> None:
    """Standard outputs, memory and files that give out."""
    full = Path("/dev/full")
    name = "full_standard_output"
    cases.told(name, ONE, REPAIR, 3, FAULT, None, LANE, output=full)
    many = ["repair", *(f"flow={port}" for port in range(5000, 5379, 6))]
    limited = under(resource.RLIMIT_AS, MEMORY)
    cases.told("no_memory", ONE, many, 6, "no memory\n", files=None, before_it=limited)
    words, name = [*REPAIR, "workers=0"], "memory_for_one_flow"
    cases.told(name, ONE, words, out=ONE_REPORT, files=LANE, before_it=limited)
    left = {"5000.ts": STREAM[:1024]}
    name = "file_size_limit"
    cases.told(name, STREAM, DRILL, 3, FAULT, files=left, before_it=SMALL_FILES)
    cases.begin()
    (cases.folder / "5000.ts").mkdir()
    status = cases.run(ONE, REPAIR)
    is_left = cases.is_left(FAULT, b"", None)
    cases.count("lane_that_cannot_be_made", status == 3 and is_left)


def lanes_of_their_own(cases: Cases) -> None:
    """A lane whose file is the input or the output is left as it is."""
    lane = cases.folder / "5000.ts"
    for name, data, words in [
        ("drill_of_its_own_lane", STREAM, DRILL),
        ("repair_of_its_own_lane", ONE, REPAIR),
    ]:
        before = {"5000.ts": data}
        cases.told(name, lane, words, 3, FAULT, files=before, before=before)
    for option in ("-P", "-s"):
        cases.begin({"input": ONE})
        given = cases.folder / "input"
        if option == "-s":
            lane.symlink_to(given)
        else:
            lane.hardlink_to(given)
        status = cases.run(given, REPAIR)
        is_left = cases.is_left(FAULT, b"", {"5000.ts": ONE, "input": ONE})
        name = f"lane_that_leads_to_the_input_by_ln_{option}"
        cases.count(name, status == 3 and is_left)
    name = "lane_that_is_the_output"
    cases.told(name, ONE, REPAIR, 3, FAULT, None, {"5000.ts": b""}, output=lane)
    cases.begin()
    lane.symlink_to("/dev/null")
    status = cases.run(Path("/dev/null"), DRILL)
    is_left = cases.is_left("", inputs.NO_REPORT, {"5000.ts": None})
    cases.count("lane_and_input_that_are_a_device", status == 0 and is_left)


def lanes_that_are_one(cases: Cases) -> None:
    """A lane that is another lane is refused, before an old one is made empty."""
    words = ["repair", "flow=5000", "flow=6000"]
    one, other = cases.folder / "5000.ts", cases.folder / "6000.ts"
    both = {"5000.ts": PACKET, "6000.ts": PACKET}
    for option in ("-P", "-s"):
        cases.begin({"5000.ts": PACKET})
        if option == "-s":
            other.symlink_to(one.name)
        else:
            other.hardlink_to(one)
        status = cases.run(inputs.TWO, words)
        name = f"lane_that_leads_to_another_by_ln_{option}"
        cases.count(name, status == 3 and cases.is_left(FAULT, b"", both))
    # Only where the first is made is it known that the second is the same file.
    empty = {"5000.ts": b"", "6000.ts": b""}
    for first, second in ((5000, 6000), (6000, 5000)):
        cases.begin()
        other.symlink_to(one.name)
        status = cases.run(inputs.TWO, ["repair", f"flow={first}", f"flow={second}"])
        name = f"lane_that_leads_to_another_that_is_not_there_from_{first}"
        cases.count(name, status == 3 and cases.is_left(FAULT, b"", empty))


def old_lanes(cases: Cases) -> None:
    """All lanes are looked at before one is made empty, and there may be more than open
    files.
    """
    words, lane = ["repair", "flow=6000", "flow=5000"], cases.folder / "5000.ts"
    old = {"5000.ts": ONE, "6000.ts": PACKET}
    name = "old_lane_before_one_that_is_the_input"
    cases.told(name, lane, words, 3, FAULT, files=old, before=old)
    cases.begin({"6000.ts": PACKET})
    lane.mkdir()
    status = cases.run(inputs.TWO, words)
    is_left = cases.is_left(FAULT, b"", {"5000.ts": None, "6000.ts": PACKET})
    cases.count("old_lane_before_one_that_cannot_be_made", status == 3 and is_left)
    few = under(resource.RLIMIT_NOFILE, 20)
    many = ["repair", *(f"flow={port}" for port in inputs.MANY_PORTS)]
    lanes = {f"{port}.ts": PACKET for port in inputs.MANY_PORTS}
    report, name = inputs.MANY_REPORT, "more_lanes_than_files"
    cases.told(name, inputs.MANY, many, out=report, files=lanes, before_it=few)


def words(cases: Cases) -> None:
    """Command lines that are faulty, some of them no text."""
    cases.told("bad_word", ONE, ["repair", "flow=0"], 1, "words: bad word 1\n")
    cases.told("no_words", ONE, [], 1, "words: no command\n")
    lines: list[tuple[str, int, list[str | bytes]]] = [
        ("no_text_alone", 0, [b"\xff"]),
        ("command_that_is_no_text", 0, [b"repair\xff", "flow=5000"]),
        ("no_text_behind_help", 0, ["--help", b"\xff"]),
        ("no_text_behind_no_command", 0, ["repairs", b"\xff"]),
        ("value_that_is_no_text", 1, ["repair", b"flow=\xff"]),
        ("no_text_before_a_bad_word", 1, ["repair", b"\xff", "flow=0"]),
        ("no_text_behind_a_bad_word", 1, ["repair", "flow=0", b"\xff"]),
        ("no_text_behind_a_flow", 2, [*REPAIR, b"\xff"]),
        ("no_text_behind_a_long_word", 2, [*REPAIR, 100 * "0", b"\xff"]),
    ]
    for name, place, line in lines:
        cases.told(name, ONE, line, 1, f"words: bad word {place}\n")
    name = "name_of_the_program_that_is_no_text"
    cases.told(name, ONE, REPAIR, out=ONE_REPORT, files=LANE, called=b"\xff")


def other_commands(cases: Cases) -> None:
    """A case or two of each other command."""
    cases.told("one_packet_encoded", PACKET, ENCODE, out=ONE)
    line = "not transport: packet 1\n"
    cases.told("packet_without_sync", inputs.UNSYNCED, ENCODE, 7, line, MAGIC)
    words = ["inspect", "flow=5000"]
    cases.told("one_packet_inspected", ONE, words, out=inputs.INSPECTED)
    cases.told("one_packet_captured", ONE, ["tocap"], out=CAPTURE)
    cases.told("capture_made_a_trace", CAPTURE, ["fromcap"], out=ONE)
    name, fault = "capture_of_another_link_type", "not a capture at byte 20\n"
    cases.told(name, inputs.COOKED, ["fromcap"], 8, fault)
    name, fault = "record_that_does_not_fit", "record 0 does not fit a capture\n"
    cases.told(name, inputs.LATE, ["tocap"], 8, fault, inputs.NO_RECORD)
    cases.told("broken_continuity", inputs.BROKEN, ["monitor"], out=inputs.BREAKS)
    name = "monitored_packet_without_sync"
    cases.told(name, inputs.UNSYNCED, ["monitor"], 7, line)


def drills(cases: Cases) -> None:
    """Drills, and a sample."""
    lane = {"5000.ts": STREAM}
    words = [*DRILL, *(f"drop={record}" for record in (6, 7, 12, 13, 22))]
    cases.told("drill", STREAM, words, out=inputs.DRILL_REPORT, files=lane)
    name, line = "drill_that_is_no_transport", "not transport: packet 112\n"
    cases.told(name, inputs.UNSYNCED_END, DRILL, 7, line, None, lane)
    cases.begin()
    words = ["sample", "seed=7", "datagrams=20000", "loss=0", "workers=4"]
    status = cases.run(b"", words)
    is_left = cases.is_left("", None, {"5000.ts": None})
    first = b"".join(cases.output.read_bytes().splitlines(keepends=True)[:2])
    size = (cases.folder / "5000.ts").stat().st_size if is_left else 0
    is_right = is_left and first == inputs.SAMPLED and size == 26_320_000
    cases.count("sample", status == 0 and is_right)


def gaps(cases: Cases) -> None:
    """Proofs of gaps, their judgement, and matrices."""
    prove, check, case = ["prove", "flow=5000"], ["check"], inputs.SQUARE_CASES
    cases.told("square_proved", inputs.square(), prove, out=case)
    cases.told("nothing_to_prove", ONE, prove)
    line = "not a trace at byte 0\n"
    cases.told("proof_of_no_trace", PACKET, prove, 4, line)
    words, line = [*prove, "flow=6000"], "words: bad word 2\n"
    cases.told("proof_of_two_flows", inputs.TWO, words, 1, line)
    cases.told("proof_checked", case, check, out=inputs.YES)
    name, line = "proof_with_a_hole_alone", "unproved case 1\n"
    cases.told(name, inputs.ALONE_CASES, check, 10, line, inputs.ALONE)
    name, line = "proof_with_a_known_hole", "unproved case 0\n"
    cases.told(name, inputs.KNOWN_CASES, check, 10, line, inputs.KNOWN)
    name, words = "proof_checked_within_its_size", [*check, f"max={len(case)}"]
    cases.told(name, case, words, out=inputs.YES)
    name, line = "proof_checked_past_its_size", "too long at byte 135\n"
    cases.told(name, case, [*check, "max=143"], 5, line)
    for name, given, at, out in [
        ("proof_without_end", inputs.ALONE_CASES[:-4], 28, inputs.YES),
        ("proof_with_a_leading_zero", inputs.ZERO_CASES, 16, inputs.YES),
        ("proof_of_10001_lines", inputs.numbered(10_001), 9999, b""),
    ]:
        cases.told(name, given, check, 11, f"not a case at line {at}\n", out)
    most = inputs.numbered(10_000)
    cases.told("proof_of_10000_lines", most, check, out=inputs.YES)
    plan = ["plan", "burst=5", "most=20"]
    cases.told("matrix_for_a_burst", ONE, plan, out=inputs.CHOSEN)
    name, few = "matrix_of_columns_alone", b"columns 5 rows 5\n"
    cases.told(name, b"", [*plan, "fec=column"], out=few)
    name, words = "matrix_that_there_is_not", ["plan", "burst=10", "most=19"]
    cases.told(name, b"", words, out=b"none\n")
    name, line = "matrix_without_a_limit", "words: missing most\n"
    cases.told(name, b"", words[:2], 1, line)


def helps(cases: Cases) -> bytes:
    """Helps, and that of the program."""
    title = b"fgate: repairs MPEG transport streams in RTP by SMPTE ST 2022-1 parity"
    cases.begin()
    status = cases.run(b"", ["--help"])
    text = cases.output.read_bytes()
    is_left = cases.is_left("", None, {}) and text.splitlines()[:1] == [title]
    cases.count("help", status == 0 and is_left)
    # A body that tries again after a fault would write more.
    name, words = "help_past_the_file_size_limit", ["--help"]
    cases.told(name, b"", words, 3, FAULT, text[:1024], before_it=SMALL_FILES)
    cases.begin()
    with open(cases.opened(ONE), "rb") as source:
        ended = subprocess.run(
            [cases.program, "--help"], stdin=source, capture_output=True, check=False
        )
        found = (ended.returncode, ended.stdout, ended.stderr, source.read())
    cases.count("help_reads_nothing", found == (0, text, b"", ONE))
    cases.begin()
    status = cases.run(b"", ["inspect", "--help"])
    lines = cases.output.read_bytes().splitlines()
    title = b"fgate inspect: writes a line for each record of a trace"
    is_left = cases.is_left("", None, {}) and lines[:1] == [title] and len(lines) == 3
    cases.count("help_of_a_command", status == 0 and is_left)
    return text


def command_cases(cases: Cases) -> bytes:
    """All of them, and the text of the program's help."""
    for group in (
        *(repairs, ends, limits, lanes_of_their_own, lanes_that_are_one, old_lanes),
        *(words, other_commands, drills, gaps),
    ):
        group(cases)
    return helps(cases)
