"""Nights of captures for a fleet, and what one process of the program makes of them."""

from collections.abc import Sequence
from pathlib import Path
from typing import Any

from fgate import traces
from fgate.fleet import marks, plan, tasks
from tests import links

#: A flow's lane, and its lines of the report.
Made = tuple[bytes, str]


def one_process(
    program: str, records: Sequence[traces.Record], flows: Sequence[int]
) -> dict[int, Made]:
    """Give each flow's lane and report by one process over all records."""
    words = [f"flow={flow}" for flow in flows]
    trace = links.trace_of(records)
    report = links.fgate(program, "repair", *words, "workers=0", given=trace).decode()
    found = {}
    for flow in flows:
        own = [line for line in report.splitlines() if f" {flow} " in line[:14]]
        lane = Path(f"{flow}.ts")
        found[flow] = (lane.read_bytes(), "".join(line + "\n" for line in own))
        lane.unlink()
    return found


def made_in(out: Path, flows: Sequence[int]) -> dict[int, Made]:
    """Give each flow's lane and report in a folder."""
    return {
        flow: ((out / f"{flow}.ts").read_bytes(), (out / f"{flow}.report").read_text())
        for flow in flows
    }


def left_over(out: Path) -> list[Path]:
    """Give what tasks left that died."""
    return [path for path in out.rglob(".*") if path.name != ".token"]


class Machine:
    """One machine that does the tasks of a fleet, without an engine."""

    def __init__(self, program: str) -> None:
        self.program, self.out, self.work = program, Path("out"), Path("out/work")
        for name in ("captures", "pieces", "flows"):
            (self.work / name).mkdir(parents=True, exist_ok=True)

    def job(self, name: str, **more: Any) -> tasks.Job:
        """Give a job with what all jobs have."""
        places = {"work": str(self.work), "out": str(self.out)}
        common = {"program": self.program, **places, "token": "", "topic": ""}
        return {"name": name, **common, **more}

    def cut(self, path: str, sets: Sequence[list[int]]) -> tasks.Came:
        """Cut a capture for these sets."""
        pieces = [
            {"flows": flows, "key": f"{Path(path).name}-{flows[0]}"} for flows in sets
        ]
        return tasks.cut(
            self.job(
                path,
                path=path,
                looks=marks.looks_of(path),
                key=Path(path).name,
                branches=plan.branches_of(pieces),
            )
        )

    def repair(
        self, flows: list[int], recorders: Sequence[Sequence[str]], **more: Any
    ) -> tasks.Came:
        """Repair a set from the pieces of these captures."""
        pieces = [
            [
                marks.piece_at(str(self.work), f"{Path(path).name}-{flows[0]}")
                for path in paths
            ]
            for paths in recorders
        ]
        keys = dict.fromkeys(flows, "key")
        job = self.job("0", flows=flows, keys=keys, words=[], recorders=pieces)
        return tasks.repair({**job, **more})
