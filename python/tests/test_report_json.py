"""Reports as objects."""

import json

import pytest

from fgate import reports
from tests import links

MEDIA = "admitted 3 duplicate 0 conflict 0 late 0 bad 1"
PARITY = (
    "admitted 1 duplicate 0 conflict 0 late 0 notstarted 0 beforestart 0 ahead 0 "
    "crowded 0 bad 2"
)
REPORT = f"""\
flow 5000 shown 3 repaired 1 missing 2 windows 1 inconsistent 0
media 5000 {MEDIA}
column 5000 {PARITY}
row 5000 {PARITY}
runs 5000 2 foreign 4
gap 5000 2 2
other 6
cut at byte 70
"""


def test_object_has_the_numbers_of_the_text() -> None:
    """Each line's numbers stand under its name."""
    ended = links.call("report_json", given=REPORT.encode())
    assert (ended.status, ended.errors) == (0, "")
    found = json.loads(ended.out)
    assert (found["other"], found["ended"]) == (6, {"how": "cut", "byte": 70})
    (flow,) = found["flows"]
    assert (flow["port"], flow["shown"], flow["missing"]) == (5000, 3, 2)
    assert (flow["media"]["bad"], flow["row"]["bad"]) == (1, 2)
    assert flow["runs"] == {"runs": 2, "foreign": 4}
    assert flow["gaps"] == [{"first": 2, "length": 2}]


@pytest.mark.parametrize(
    "text",
    [
        "",
        "gap 5000 1 1\nother 0\n",
        REPORT.replace("other 6\n", ""),
        REPORT.replace("row 5000", "row 5001"),
        REPORT.replace("gap 5000 2 2", "gap 5000 2"),
        REPORT + "frob 1\n",
    ],
)
def test_text_that_is_no_report(text: str) -> None:
    """It is refused."""
    with pytest.raises(reports.NotAReport):
        reports.parsed(text)


def test_line_that_is_of_no_report_is_told() -> None:
    """The command ends with status 1 and names the line."""
    ended = links.call("report_json", given=b"frob\n")
    assert ended == (1, "", "fgate-report-json: no report: frob\n")


def test_reports_of_the_program(program: str) -> None:
    """Those of repair and sample are read."""
    words = ("repair", "flow=5000", "flow=6000")
    trace = links.trace_of(links.square(6, 7, 11, 12))
    repaired = reports.parsed(links.fgate(program, *words, given=trace).decode())
    assert [flow["port"] for flow in repaired["flows"]] == [5000, 6000]
    assert repaired["flows"][0]["gaps"] == [
        {"first": 5, "length": 2},
        {"first": 9, "length": 2},
    ]
    sampled = links.fgate(program, "sample", "seed=1", "datagrams=50").decode()
    assert reports.parsed(sampled)["sample"]["seed"] == 1
