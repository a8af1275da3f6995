"""Runs the built program on an outside that fails, and compares what it leaves with
what docs/FORMATS.md and the end of docs/GUIDE.md tell: the status, the line on standard
error, and of each lane and of standard output the whole or a beginning of what a plain
model gives. Where the status is another than that of the whole run, a report is begun
only where all lanes are whole. A signal is right only where the guide tells of it.

 - ends: input that ends at each place, from a file and from a pipe
 - reads: a folder, a descriptor that can't be read, and a connection that breaks off
   after so many bytes, as standard input; pipes that don't block
 - writes: standard output on a full device, on a pipe whose reader is gone or goes, on
   a descriptor that can't be written; standard error on a full device
 - closed: standard streams closed, each set of them; input closed where there is no
   /dev/null
 - lanes: a folder of the lane's name, a full device, no permission, a folder that is
   gone, a lane's file that is taken away; few descriptors, and no thread to be had
 - sizes: a limit on file sizes of several values, with SIGXFSZ and without
 - space: a file system with too little space, where root may mount one

What needs root or a mount is left out where that can't be had, and told. A line for
each group and each wrong case; the last line is 'N passed, M failed'. The status is 0
where none failed.
"""

import argparse
import os
import shutil
from collections.abc import Callable, Sequence

from .failing_input import ends, reads
from .failing_lanes import lanes, sizes, space
from .failing_output import closed, writes
from .program_runner import add_program, work_folder
from .runs import Calls


GROUPS: dict[str, Callable[[Calls], None]] = {
    "ends": ends,
    "reads": reads,
    "writes": writes,
    "closed": closed,
    "lanes": lanes,
    "sizes": sizes,
    "space": space,
}


def copied(program: str, work: str) -> str:
    """The program copied into the work folder, where nobody may find and run it."""
    os.chmod(work, 0o755)
    copy = os.path.join(work, "fgate")
    shutil.copy(program, copy)
    os.chmod(copy, 0o755)
    return copy


def main(arguments: Sequence[str]) -> int:
    words = argparse.ArgumentParser(
        prog="fail_calls",
        description=__doc__,
        formatter_class=argparse.RawDescriptionHelpFormatter,
    )
    add_program(words)
    words.add_argument(
        "--only", choices=list(GROUPS), help="the cases of this group alone"
    )
    asked = words.parse_args(arguments)
    with work_folder() as work:
        calls = Calls(copied(asked.program, work), work)
        for name, group in GROUPS.items():
            if asked.only in (None, name):
                before = calls.passed + calls.failed
                group(calls)
                print(
                    f"{name}: {calls.passed + calls.failed - before} cases", flush=True
                )
    if os.getuid() != 0:
        print("lanes: what needs root is left out")
    print(f"{calls.passed} passed, {calls.failed} failed")
    return 1 if calls.failed else 0
