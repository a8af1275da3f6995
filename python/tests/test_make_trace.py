"""Made traces."""

import io
from pathlib import Path

from fgate import traces
from tests import links


def test_is_the_same_at_each_call_and_tells_its_records() -> None:
    """The trace, the stream and the line on how many records there are."""
    for name in ("one", "two"):
        words = [f"{name}.trace", f"{name}.ts", "--loss=3", "--datagrams=100"]
        ended = links.call("make_trace", *words)
        assert (ended.status, ended.errors) == (0, "")
        kept = list(traces.records_of(io.BytesIO(Path(words[0]).read_bytes())))
        assert ended.out == f"{len(kept)} records left, {120 - len(kept)} lost\n"
        assert 0 < 120 - len(kept) < 20
    assert Path("one.trace").read_bytes() == Path("two.trace").read_bytes()
    assert Path("one.ts").read_bytes() == Path("two.ts").read_bytes()
    assert len(Path("one.ts").read_bytes()) == 100 * 7 * 188


def test_leaves_out_what_is_named() -> None:
    """Four of the 24 records of a square are left out."""
    ended = links.call("make_trace", "square.trace", *links.SQUARE)
    assert ended == (0, "20 records left, 4 lost\n", "")
    wanted = links.trace_of(links.square(6, 7, 11, 12))
    assert Path("square.trace").read_bytes() == wanted


def test_file_that_cannot_be_written() -> None:
    """It is told."""
    ended = links.call("make_trace", "nowhere/square.trace")
    told = "fgate-make-trace: nowhere/square.trace: No such file or directory\n"
    assert ended == (1, "", told)


def test_program_brings_back_what_is_lost(program: str) -> None:
    """The parity is what the program takes for parity."""
    trace = links.trace_of(links.square(6, 13))
    report = links.fgate(program, "repair", "flow=5000", given=trace).decode()
    assert report.startswith("flow 5000 shown 16 repaired 2 missing 0 ")
    links.call("make_trace", "whole.trace", "whole.ts", *links.SQUARE[:3])
    assert Path("5000.ts").read_bytes() == Path("whole.ts").read_bytes()
