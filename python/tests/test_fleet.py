"""Whole runs of a fleet on this machine, by the built program and Dask's engine."""

import importlib.util
import json
import os
from pathlib import Path
from typing import Any

import pytest

from fgate import traces
from fgate.fleet import tell
from tests import links, nights

FLOWS = [5000, 5010, 5020]
INPUTS = ("--flows", "flows", "--captures", "night", "--out", "out")

needs_engine = pytest.mark.skipif(
    importlib.util.find_spec("distributed") is None,
    reason="this Python has no distributed: apt-get install python3-distributed",
)


def make_night(records: list[traces.Record]) -> None:
    """Make a folder with two captures and a trace, and the file of flows."""
    Path("night").mkdir()
    for number, part in enumerate(links.parts_of(records, 3)):
        spell = links.trace_of if number == 1 else links.capture_of
        Path(f"night/{number}").write_bytes(spell(part))
    lines = "".join(f"{flow}\n" for flow in FLOWS)
    Path("flows").write_text(f"# the night's links\n{lines}")


def fleet(program: str, *words: str) -> tuple[int, list[dict[str, Any]], str]:
    """Give the status of a fleet of two processes, what it told, and its errors."""
    both = ("--local", "2", "--fgate", program, "--json")
    ended = links.call("fleet", *both, *words)
    told = [json.loads(line) for line in ended.out.splitlines()]
    return ended.status, told, ended.errors


@needs_engine
def test_fleet_is_as_one_process_and_goes_on_where_it_was(program: str) -> None:
    """Nothing is made anew, but for a lane that was changed."""
    records = links.in_time([links.link(flow, 60, 4) for flow in FLOWS])
    make_night(records)
    wanted = nights.one_process(program, records, FLOWS)
    status, told, errors = fleet(program, *INPUTS, "--sets", "2", "--keep-pieces")
    assert (status, errors, told[-1]["flows_made"]) == (0, "", 3)
    assert (told[-1]["cuts_made"], told[-1]["pieces_made"]) == (3, 6)
    assert nights.made_in(Path("out"), FLOWS) == wanted
    assert len(Path("out/flows.txt").read_text().splitlines()) == 4
    table = json.loads(Path("out/flows.json").read_text())
    assert [one["port"] for one in table["flows"]] == FLOWS
    Path("out/5010.ts").write_bytes(b"")
    status, told, errors = fleet(program, *INPUTS)
    assert (status, errors, told[-1]["cuts_made"]) == (0, "", 0)
    assert (told[-1]["flows_made"], told[-1]["flows_kept"]) == (1, 2)
    assert nights.made_in(Path("out"), FLOWS) == wanted
    assert nights.left_over(Path("out")) == []
    assert list(Path("out/work/pieces").iterdir()) == []


@needs_engine
def test_capture_that_is_none_is_told(program: str) -> None:
    """The status says so, though all flows are whole."""
    records = links.in_time([links.link(flow, 60, 4) for flow in FLOWS])
    make_night(records)
    Path("night/remark").write_text("a remark on the night")
    status, told, errors = fleet(program, *INPUTS)
    assert (status, errors, told[-1]["whole"]) == (1, "", 3)
    faults = [one["failed"] for one in told if isinstance(one.get("failed"), dict)]
    assert [(one["capture"], one["status"]) for one in faults] == [("remark", 8)]
    line = Path("out/failed.txt").read_text()
    assert line.startswith("capture remark fromcap status 8: ")
    wanted = nights.one_process(program, records, FLOWS)
    assert nights.made_in(Path("out"), FLOWS) == wanted


@needs_engine
def test_check_says_what_is_missing() -> None:
    """Here and at each worker, as a program that isn't there."""
    make_night(links.link(5000, 20, 0))
    status, told, _ = fleet("/nowhere/fgate", *INPUTS, "--check")
    events = [one["event"] for one in told]
    assert status == 69 and len(events) == 3
    assert all("there is no program /nowhere/fgate" in one for one in events)


@needs_engine
def test_flows_that_share_a_port(program: str) -> None:
    """Nothing is done."""
    make_night(links.link(5000, 20, 0))
    Path("flows").write_text("5000 5002\n")
    status, _, errors = fleet(program, *INPUTS)
    told = "flows: flows 5000 and 5002 have port 5002 in common"
    assert (status, errors) == (64, f"fgate-fleet: {told}\n")


@pytest.mark.parametrize(
    ("words", "told"),
    [
        (["--local", "2"], "--flows, --captures and --out must be there"),
        (["--check"], "one of the arguments --scheduler --local is required"),
        (["--local", "0"], "argument --local: 0 isn't 1 to 256"),
        (["--local", "1", "--scheduler", "x"], "argument --scheduler: not allowed "),
    ],
)
def test_words_that_are_refused(words: list[str], told: str) -> None:
    """They end with a status of their own."""
    ended = links.call("fleet", *words)
    assert (ended.status, ended.out) == (64, "")
    assert ended.errors.startswith(f"fgate-fleet: words: {told}")


def test_python_without_the_engine(monkeypatch: pytest.MonkeyPatch) -> None:
    """It says what to install."""
    Path("hidden").mkdir()
    Path("hidden/cloudpickle.py").write_text("raise ImportError(name='cloudpickle')\n")
    monkeypatch.setenv("PYTHONPATH", f"{os.path.abspath('hidden')}:{links.PACKAGE}")
    ended = links.call("fleet", "--check", "--local", "1")
    assert ended.status == 69 and "apt-get install python3-distributed" in ended.errors


def test_lines_of_the_table() -> None:
    """A flow that is whole, and one that wasn't made."""
    kind = {"duplicate": 1, "conflict": 2, "late": 3, "bad": 4}
    counts = {"port": 5000, "whole": True, "media": kind, "column": kind, "row": kind}
    counts.update(dict.fromkeys(tell.PLAYED, 7), runs=None)
    assert tell.row(counts) == (
        "flow 5000 shown 7 repaired 7 missing 7 windows 7 inconsistent 7 gaps 7 "
        "runs 1 foreign 0 duplicate 3 conflict 6 late 9 bad 12"
    )
    assert tell.row({"port": 5010, "whole": False}) == "flow 5010 not made"
