"""What a fleet's machines do, without an engine, by the built program."""

import json
from pathlib import Path
from typing import Any

import pytest

from fgate import traces
from fgate.fleet import tasks
from tests import links, nights

FLOWS = [5000, 5010, 5020]


def records_of_night(flows: list[int] = FLOWS) -> list[traces.Record]:
    """Give the records of some links, of which a few are lost."""
    return links.in_time([links.link(flow, 60, 4) for flow in flows])


def keep(name: str, records: list[traces.Record], as_trace: bool = False) -> str:
    """Keep records as a capture or a trace, and give its path."""
    spell = links.trace_of if as_trace else links.capture_of
    Path(name).write_bytes(spell(records))
    return name


def mark_of(name: str) -> Any:
    """Give the mark of a capture."""
    return json.loads(Path(f"out/work/captures/{name}.json").read_text())


def test_survey_counts_the_records_of_each_port(program: str) -> None:
    """In a capture and in a trace."""
    records = records_of_night()
    counts = {port: 0 for _, port, _ in records}
    for _, port, _ in records:
        counts[port] += 1
    machine = nights.Machine(program)
    for name, as_trace in (("1.pcap", False), ("2.trace", True)):
        path = keep(name, records, as_trace)
        assert tasks.survey(machine.job(name, path=path)) == counts


@pytest.mark.parametrize("sets", [[FLOWS], [[5000], [5010, 5020]]])
def test_cut_and_repair_are_as_one_process(program: str, sets: list[list[int]]) -> None:
    """Of captures and a trace, in one set and in small sets that branch."""
    records = records_of_night()
    machine = nights.Machine(program)
    parts = links.parts_of(records, 3)
    paths = [keep(f"{number}", part, number == 1) for number, part in enumerate(parts)]
    for path in paths:
        came = machine.cut(path, sets)
        assert came["failed"] == [] and len(came["sizes"]) == len(sets)
    whole = []
    for flows in sets:
        came = machine.repair(flows, [paths])
        assert came["failed"] == []
        whole += [counts["port"] for counts in came["whole"]]
    assert whole == FLOWS
    wanted = nights.one_process(program, records, FLOWS)
    assert nights.made_in(Path("out"), FLOWS) == wanted
    assert nights.left_over(Path("out")) == []


def test_recorders_are_merged(program: str) -> None:
    """Two recorders lost different records of the same links."""
    records = records_of_night()
    east = [one for number, one in enumerate(records) if number % 5]
    west = [one for number, one in enumerate(records) if number % 7]
    machine = nights.Machine(program)
    paths = [keep("east", east), keep("west", west, True)]
    for path in paths:
        machine.cut(path, [FLOWS])
    assert machine.repair(FLOWS, [[path] for path in paths])["failed"] == []
    merged = sorted(east + west, key=lambda record: record.time)
    wanted = nights.one_process(program, merged, FLOWS)
    assert nights.made_in(Path("out"), FLOWS) == wanted


@pytest.mark.parametrize(("as_trace", "command"), [(False, "fromcap"), (True, "pick")])
def test_capture_that_is_cut_off(program: str, as_trace: bool, command: str) -> None:
    """The whole records count, and its mark tells it."""
    records = records_of_night()
    path = Path(keep("night", records, as_trace))
    path.write_bytes(path.read_bytes()[:-5])
    machine = nights.Machine(program)
    assert machine.cut("night", [FLOWS])["failed"] == []
    (fault,) = mark_of("night")["faults"]
    assert (fault["capture"], fault["command"]) == ("night", command)
    assert (fault["status"], fault["line"][:12]) == (4, "cut at byte ")
    machine.repair(FLOWS, [["night"]])
    wanted = nights.one_process(program, records[:-1], FLOWS)
    assert nights.made_in(Path("out"), FLOWS) == wanted


@pytest.mark.parametrize("data", [b"a remark on the night", b""])
def test_file_that_is_no_capture(program: str, data: bytes) -> None:
    """It gives nothing, and its mark tells it."""
    Path("night").write_bytes(data)
    assert nights.Machine(program).cut("night", [FLOWS])["failed"] == []
    mark = mark_of("night")
    assert mark["first"] is None
    assert [one["status"] for one in mark["faults"]] == [8]


def test_flow_without_records(program: str) -> None:
    """Its lane is empty, and its report says so."""
    machine = nights.Machine(program)
    machine.cut(keep("night", records_of_night([5000])), [[5000, 6000]])
    came = machine.repair([5000, 6000], [["night"]])
    assert [counts["shown"] > 0 for counts in came["whole"]] == [True, False]
    assert Path("out/6000.ts").read_bytes() == b""
    assert Path("out/6000.report").read_text().startswith("flow 6000 shown 0 ")


def test_flow_that_cannot_be_written(program: str) -> None:
    """It fails alone, and once it can be written nothing else is made."""
    records = records_of_night()
    machine = nights.Machine(program)
    machine.cut(keep("night", records), [FLOWS])
    Path("out/5010.ts").mkdir()
    came = machine.repair(FLOWS, [["night"]])
    assert [one["flow"] for one in came["failed"]] == [5010]
    assert [counts["port"] for counts in came["whole"]] == [5000, 5020]
    places = {flow: Path(f"out/{flow}.ts").stat().st_ino for flow in (5000, 5020)}
    Path("out/5010.ts").rmdir()
    came = machine.repair(FLOWS, [["night"]])
    assert came["failed"] == []
    again = {flow: Path(f"out/{flow}.ts").stat().st_ino for flow in (5000, 5020)}
    assert places == again
    wanted = nights.one_process(program, records, FLOWS)
    assert nights.made_in(Path("out"), FLOWS) == wanted


def test_flow_that_ends_the_program_ends_no_other(program: str, tmp_path: Path) -> None:
    """Each half is tried alone."""
    records = records_of_night()
    text = f'case "$*" in repair*flow=5010*) exit 6;; esac\nexec {program} "$@"\n'
    machine = nights.Machine(links.script(tmp_path / "fgate", text))
    machine.cut(keep("night", records), [FLOWS])
    came = machine.repair(FLOWS, [["night"]])
    assert [(one["flow"], one["status"]) for one in came["failed"]] == [(5010, 6)]
    others = [5000, 5020]
    wanted = nights.one_process(program, records, FLOWS)
    del wanted[5010]
    assert nights.made_in(Path("out"), others) == wanted
    assert nights.left_over(Path("out")) == []


def test_cut_that_fails_leaves_nothing(program: str, tmp_path: Path) -> None:
    """The command's status and line are told."""
    text = f'[ "$1" = pick ] && {{ echo told >&2; exit 6; }}\nexec {program} "$@"\n'
    machine = nights.Machine(links.script(tmp_path / "fgate", text))
    keep("night", records_of_night())
    (fault,) = machine.cut("night", [FLOWS])["failed"]
    assert (fault["command"], fault["status"], fault["line"]) == ("pick", 6, "told")
    assert list(Path("out/work/pieces").iterdir()) == []


def test_capture_that_changes_is_told(program: str) -> None:
    """What was cut of it isn't kept."""
    machine = nights.Machine(program)
    path = keep("night", records_of_night())
    pieces = [[{"flows": FLOWS, "key": "key"}]]
    job = machine.job("night", path=path, looks=[1, 2], key="key", branches=pieces)
    (fault,) = tasks.cut(job)["failed"]
    assert fault["line"] == "it changed while it was read"


def test_folder_that_is_another_one_is_refused(program: str) -> None:
    """A worker that doesn't share the folder does nothing."""
    machine = nights.Machine(program)
    Path("token").write_text('"another run"')
    came = machine.repair(FLOWS, [], token="token", topic="this run")
    assert [one["flow"] for one in came["failed"]] == FLOWS
    assert "it isn't the folder that the others share" in came["failed"][0]["line"]


@pytest.mark.parametrize(
    ("text", "told"),
    [
        (None, "there is no program {0}"),
        ("exit 1", "{0} has no pick"),
        ("exit 0", ""),
    ],
)
def test_program_is_looked_at(text: str | None, told: str) -> None:
    """What is wrong with it is told, and its digest where there is one."""
    path = Path("fgate").absolute()
    if text:
        links.script(path, text)
    wrong, digest = tasks.look_at_program(str(path))
    assert wrong == told.format(path)
    assert (digest is None) == (text is None)
