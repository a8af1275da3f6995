"""Runs a build on the worked examples, each in an empty folder, with its input from a
pipe and from a file.
"""

import functools
import subprocess
import tempfile
from pathlib import Path
from typing import Any

from .cases import Cases
from .worked_commands import bursts, captures, command_lines, drilled, encoded, gaps
from .worked_damage import damaged, odd_records
from .worked_repairs import batches, held, jumps, one_flow, restarts, several_flows
from .worked_reports import BEGUN, Example
from .worked_traces import PAYLOAD, stream


# How many examples there are: a run that loses one is wrong.
EXAMPLES = 287
# Status, standard output and error, and the files of the folder.
Left = tuple[int, bytes, bytes, dict[str, bytes]]
MAKERS = (
    *(one_flow, restarts, damaged, odd_records, jumps, held, several_flows, batches),
    *(drilled, bursts, gaps, captures, encoded, command_lines),
)


@functools.cache
def begun() -> dict[str, Example]:
    """All examples, by name."""
    for make in MAKERS:
        make()
    return BEGUN


def run(program: str, words: str, given: bytes, at_once: bool = False) -> Left:
    """What a run left. The input is a pipe, or a file, of which a read gives as much as
    is asked for.
    """
    with tempfile.TemporaryFile() as file, tempfile.TemporaryDirectory() as folder:
        file.write(given)
        file.seek(0)
        how: dict[str, Any] = {"stdin": file} if at_once else {"input": given}
        ended = subprocess.run(
            [program, *words.split()],
            capture_output=True,
            cwd=folder,
            timeout=120,
            check=False,
            **how,
        )
        lanes = {path.name: path.read_bytes() for path in Path(folder).iterdir()}
    return ended.returncode, ended.stdout, ended.stderr, lanes


def is_right(program: str, example: Example, at_once: bool) -> bool:
    """Whether that comes of the input as it should."""
    *ended, lanes = run(program, example.words, example.given, at_once)
    if ended != [example.status, example.out, example.told]:
        return False
    # A sample's lane is told by its length alone.
    if example.lanes is None:
        return [len(lane) for lane in lanes.values()] == [100 * PAYLOAD]
    return lanes == {f"{port}.ts": lane for port, lane in example.lanes.items()}


def is_the_same_beside_workers(program: str) -> bool:
    """A sample with losses gives the same lane and report beside workers as without."""
    words = "sample seed=1 datagrams=100 loss=3 workers="
    alone, beside = (run(program, words + workers, b"") for workers in ("0", "4"))
    return alone == beside and alone[0] == 0


def comes_back(program: str, words: str) -> bool:
    """What is encoded is repaired to the stream."""
    sent = stream(range(16))
    made = run(program, f"encode {words}", sent)[1]
    status, _, _, lanes = run(program, "repair flow=5000", made)
    return status == 0 and lanes == {"5000.ts": sent}


def try_examples(cases: Cases) -> None:
    """Tells each example of a build."""
    program = cases.program
    for name, example in begun().items():
        kinds = (True, False)
        cases.tell(name, all(is_right(program, example, kind) for kind in kinds))
    same = is_the_same_beside_workers(program)
    cases.tell("workers_change_nothing_of_a_sample", same)
    plain, staggered = "columns=4 rows=4", "layout=staggered packets=3 seq=65530"
    cases.tell("what_is_encoded_comes_back", comes_back(program, plain))
    back = comes_back(program, f"{plain} {staggered}")
    cases.tell("what_is_staggered_comes_back", back)
    if len(begun()) + 3 != EXAMPLES:
        cases.tell(f"{EXAMPLES} examples", False)
