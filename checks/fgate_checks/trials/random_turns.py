"""Has a test of random steps run with many more flows, from other seeds.

Nothing is proved, and the repository stays as it is: the crates are copied first.
"""

import argparse
import re
import subprocess
import tempfile
from collections.abc import Sequence
from pathlib import Path
from typing import NamedTuple

from .program_runner import TOP


class Turns(NamedTuple):
    """A test: its command here, the crate, its name and steps a flow, the text that has
    its seed (as a pattern, and as it is with another one), the constant that has its
    flows, and how many seeds and flows there are where none are told.
    """

    command: str
    says: str
    crate: str
    test: str
    steps: str
    seed: str
    seeded: str
    seeds: int
    flows: int


def changed(text: str, turns: Turns, seed: int, flows: int) -> str:
    """The test's text with another seed and number of flows."""
    text, seeded = re.subn(turns.seed, turns.seeded.format(seed=seed), text)
    text, counted = re.subn(
        r"(?m)^const FLOWS: u32 = [0-9]+;", f"const FLOWS: u32 = {flows};", text
    )
    assert seeded and counted, "the test has no such seed or number of flows"
    return text


def agrees(turns: Turns, crate: Path, log: Path) -> bool:
    """Whether the test passes as it is now. What is told goes into the log."""
    with open(log, "wb") as told:
        subprocess.run(
            ["rt", "try", "--test", "--seconds", "600"],
            cwd=crate,
            stdout=told,
            stderr=subprocess.STDOUT,
            check=False,
        )
    wanted = f"test {turns.test} ... ok"
    return wanted in log.read_text(errors="replace").splitlines()


def try_turns(turns: Turns, arguments: Sequence[str]) -> int:
    """Runs the test with each seed, and tells how many flows agreed."""
    words = argparse.ArgumentParser(prog=turns.command, description=turns.says)
    words.add_argument("seeds", type=int, nargs="?", default=turns.seeds)
    words.add_argument("flows", type=int, nargs="?", default=turns.flows)
    asked = words.parse_args(arguments)
    agreed = failed = 0
    with tempfile.TemporaryDirectory() as work:
        copy = [str(TOP / "bench/copy_crates"), work, turns.crate]
        subprocess.run(copy, check=True)
        crate, log = Path(work, "crates", turns.crate), Path(work, "log")
        test = crate / "src/tests/random.rt"
        text = test.read_text()
        for seed in range(1, asked.seeds + 1):
            test.write_text(changed(text, turns, seed, asked.flows))
            if agrees(turns, crate, log):
                agreed += asked.flows
                print(f"seed {seed}: {asked.flows} flows agreed", flush=True)
            else:
                failed += 1
                print(f"seed {seed}: FAILED", flush=True)
                print("\n".join(log.read_text(errors="replace").splitlines()[-5:]))
    print(f"{agreed} flows of {turns.steps} agreed, {failed} seeds failed")
    return 1 if failed else 0
