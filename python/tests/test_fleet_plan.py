"""What a fleet is to do: flows, captures, sets and branches."""

from pathlib import Path

import pytest

from fgate.fleet import plan


def test_flows_and_remarks() -> None:
    """Ports stand one or more on a line, in the order of the file."""
    Path("flows").write_text("# the night's links\n6000 5000 # two\n\n5010\n")
    assert plan.read_flows("flows") == [6000, 5000, 5010]


@pytest.mark.parametrize(
    ("text", "told"),
    [
        ("5000\n5002\n", "flows 5000 and 5002 have port 5002 in common"),
        ("5000 5000\n", "flows 5000 and 5000 have port 5000 in common"),
        ("5000 x\n", "x isn't a port, 1 to 65531"),
        ("65532\n", "65532 isn't a port, 1 to 65531"),
        ("# none\n", "there is no flow"),
    ],
)
def test_flows_that_are_refused(text: str, told: str) -> None:
    """What is wrong is told with the file's name."""
    Path("flows").write_text(text)
    with pytest.raises(plan.Wrong, match=f"^flows: {told}$"):
        plan.read_flows("flows")


def test_file_of_flows_that_is_not_there() -> None:
    """It is told."""
    with pytest.raises(plan.Wrong, match="^nowhere: No such file or directory$"):
        plan.read_flows("nowhere")


def test_recorders_are_folders() -> None:
    """Captures of a folder are in the order of their names, dots left aside."""
    for name in ("night/2.pcap", "night/1.pcap", "night/.3", "night/east/1.pcap"):
        Path(name).parent.mkdir(parents=True, exist_ok=True)
        Path(name).write_bytes(b"four")
    Path("night/empty").mkdir()
    found = plan.recorders_in(["night"])
    names = [[one.name for one in recorder] for recorder in found]
    assert names == [["1.pcap", "2.pcap"], ["east/1.pcap"]]
    assert found[0][0].looks[0] == 4
    names = [[one.name for one in some] for some in plan.recorders_in(["night"] * 2)]
    assert names[2:] == [["1/1.pcap", "1/2.pcap"], ["1/east/1.pcap"]]


def test_no_captures() -> None:
    """A folder without captures is refused, and so is one that isn't there."""
    Path("night").mkdir()
    with pytest.raises(plan.Wrong, match="^there is no capture in night$"):
        plan.recorders_in(["night"])
    with pytest.raises(plan.Wrong, match="^nowhere: No such file or directory$"):
        plan.recorders_in(["nowhere"])


@pytest.mark.parametrize(
    ("flows", "total", "threads", "count"),
    [
        (1, 0, 4, 1),
        (10, 0, 4, 4),
        (64, 0, 16, 8),
        (65, 0, 1, 2),
        (65, 0, 4, 4),
        (100, plan.MOST_BYTES * 3, 2, 4),
    ],
)
def test_number_of_sets(flows: int, total: int, threads: int, count: int) -> None:
    """All threads have as many, within the limits of a run and of a pick's cost."""
    assert plan.number_of_sets(flows, total, threads) == count


def test_sets_have_as_many_records() -> None:
    """A flow with as many records as all others stands alone."""
    flows = list(range(5000, 5070, 10))
    records = {flow: 60 if flow == 5030 else 10 for flow in flows}
    others = [flow for flow in flows if flow != 5030]
    assert plan.shared_out(flows, records, 2) == [[5030], others]


def test_sets_have_at_most_64_flows() -> None:
    """Flows without records are spread out, in the order of the file."""
    sets = plan.shared_out(range(5000, 5700, 10), {}, 2)
    assert [len(one) for one in sets] == [35, 35]
    assert sets[0][:2] == [5000, 5020]
    heavy = {flow: 1000 for flow in range(5000, 5060, 10)}
    sets = plan.shared_out(range(5000, 5700, 10), heavy, 2)
    assert all(len(one) <= 64 for one in sets)


def test_branches_have_at_most_64_flows() -> None:
    """Small sets stand side by side."""
    sets = [{"flows": list(range(size)), "key": ""} for size in (30, 34, 1, 64, 63, 1)]
    branches = plan.branches_of(sets)
    sizes = [[len(one["flows"]) for one in branch] for branch in branches]
    assert sizes == [[30, 34], [1], [64], [63, 1]]
    assert plan.branches_of([]) == []


def test_key_differs_where_anything_does() -> None:
    """A key is the same for the same inputs alone."""
    assert plan.key_of([1, 2], "3") == plan.key_of([1, 2], "3")
    assert (
        len({plan.key_of(*one) for one in ((1, 2), (2, 1), ("1", 2), ([1, 2],))}) == 4
    )
