"""What a fleet tells while it runs, and the tables that it leaves."""

import datetime
import json
import os
from collections.abc import Mapping, Sequence
from typing import Any

from fgate.fleet import marks
from fgate.fleet.tasks import Counts, Fault

KINDS = ("media", "column", "row")
PLAYED = ("shown", "repaired", "missing", "windows", "inconsistent", "gaps")
REFUSED = ("duplicate", "conflict", "late", "bad")
TOTALS = ("shown", "repaired", "missing", "gaps")


def now() -> str:
    """Give the time of day as text."""
    time = datetime.datetime.now(datetime.timezone.utc)
    return time.strftime("%Y-%m-%dT%H:%M:%SZ")


class Voice:
    """Tells lines or JSON objects on standard output.

    Where that is gone, the work goes on.
    """

    def __init__(self, name: str, as_json: bool) -> None:
        self.name, self.as_json = name, as_json

    def write(self, text: str) -> None:
        """Write a line."""
        data = (text + "\n").encode("utf-8", "backslashreplace")
        try:
            while data:
                data = data[os.write(1, data) :]
        except OSError:
            pass

    def event(self, text: str) -> None:
        """Tell what has come about."""
        if self.as_json:
            self.write(json.dumps({"time": now(), "event": text}))
        else:
            self.write(f"{now()} {self.name}: {text}")

    def counts(self, counts: Mapping[str, Any]) -> None:
        """Tell numbers."""
        if self.as_json:
            self.write(json.dumps({"time": now(), **counts}))
            return
        told = [
            f"{name} {'unknown' if number is None else number}"
            for name, number in counts.items()
        ]
        self.write(" ".join([now(), *told]))

    def failed(self, fault: Fault) -> None:
        """Tell a fault."""
        if self.as_json:
            self.write(json.dumps({"time": now(), "failed": fault}))
        else:
            self.write(f"{now()} failed: {line_of(fault)}")


def line_of(fault: Fault) -> str:
    """Give a fault as a line.

    It says of what, by which command, with which status, and the command's own line.
    """
    is_capture = "capture" in fault
    what = f"capture {fault['capture']}" if is_capture else f"flow {fault['flow']}"
    status = "" if fault["status"] is None else f" status {fault['status']}"
    command, line, machine = fault["command"], fault["line"], fault["machine"]
    return f"{what} {command}{status}: {line} (on {machine})"


def row(flow: Counts) -> str:
    """Give a flow's line of the table."""
    if not flow["whole"]:
        return f"flow {flow['port']} not made"
    numbers = {name: flow[name] for name in PLAYED}
    one_run = {"runs": 1 if flow["shown"] else 0, "foreign": 0}
    numbers.update(flow["runs"] or one_run)
    for name in REFUSED:
        numbers[name] = sum(flow[kind][name] for kind in KINDS)
    told = [f"{name} {number}" for name, number in numbers.items()]
    return " ".join([f"flow {flow['port']}", *told])


def write_beside(path: str, text: str) -> None:
    """Write a file so that at each moment the old or the new one is there, whole."""
    beside = os.path.join(os.path.dirname(path), f".{marks.unique()}")
    with open(beside, "w", encoding="utf-8", errors="backslashreplace") as file:
        file.write(text)
    os.rename(beside, path)


def write_tables(
    out: str,
    flows: Sequence[Counts],
    captures: Sequence[dict[str, Any]],
    failed: Sequence[Fault],
    summary: dict[str, Any],
) -> None:
    """Write the table of all flows as lines and as JSON, and what failed as lines."""
    whole = sum(flow["whole"] for flow in flows)
    totals = [f"{name} {sum(flow.get(name, 0) for flow in flows)}" for name in TOTALS]
    last = " ".join([f"flows {len(flows)} whole {whole}", *totals])
    table = {
        "flows": flows,
        "captures": captures,
        "failed": failed,
        "summary": summary,
    }
    lines = "\n".join([*map(row, flows), last]) + "\n"
    write_beside(os.path.join(out, "flows.txt"), lines)
    write_beside(os.path.join(out, "flows.json"), json.dumps(table) + "\n")
    faults = "".join(line_of(one) + "\n" for one in failed)
    write_beside(os.path.join(out, "failed.txt"), faults)
