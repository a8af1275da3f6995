"""Calls the built program with generated words and inputs, and compares all that it
leaves with a plain model.

Every command has a model, in `plain_model` beside this file: status, the line on
standard error, standard output and lanes have to be the model's, byte by byte, and
nothing else may stand in the folder. Of `--help` and `--version` the text isn't
compared. `repair`, `drill` and `sample` run beside 0, 1, 2, 4 or 16 workers, which the
model doesn't know of.

 - Words are valid ones at and around their limits, in any order, and sometimes a word
   that is doubled, left out, cut, of another command, no number, or no text.
 - Traces are encodings of made streams of which records are lost, late, doubled,
   changed or sent to another port, with restarts of the sender and jumps of its
   numbers; or media under random equations.
 - Traces to be surveyed have two senders on a port, parity that is spread, a beginning
   in the middle, times that follow the timestamps, more than 256 senders, and up to
   65,536 ports.
 - Any input may also be flipped, cut, doubled or spliced in its bytes, or be longer
   than `max`.
 - Input comes from a file, or in pieces from a pipe. Some pieces come only when the one
   before was read, so that workers have time. Of those from a pipe the peak of memory
   is looked at before the pipe is closed: it has to be within twice what docs/GUIDE.md
   tells, which is 4 MB and 2 for each flow.
 - Some lanes are there before, with what an earlier run left.

With `--long` each command but `sample` has an input of some 50 MB from a pipe, in which
sequence numbers wrap, and `repair` one more of three flows; the same is compared,
memory too.

A case that takes more than 60 seconds counts as one that hangs. Of a case that differs
it is told in what; it is kept in a folder fuzz-SEED-NUMBER here (input, lanes that were
there, words, and what was wanted and found), and the line that does it again is
printed. Each case is drawn from seed and number alone: `--seed S --first N 1` runs case
N of seed S again. Eight cases in succession damage the same flows, each in a way of its
own. The last line is 'N cases, M differed', also after an interrupt, and the status 0
where none did.
"""

import argparse
import contextlib
import os
from collections.abc import Iterator, Sequence

from . import program_runner
from .fuzzing.cases import CASES, Case, case_of
from .fuzzing.comparing import differs
from .fuzzing.long_inputs import long_cases


def parser() -> argparse.ArgumentParser:
    words = argparse.ArgumentParser(
        prog="fuzz",
        description=__doc__,
        formatter_class=argparse.RawDescriptionHelpFormatter,
    )
    words.add_argument("cases", type=int, nargs="?", default=1000, help="1,000 cases")
    words.add_argument("--seed", type=int, default=1)
    words.add_argument(
        "--first", type=int, default=0, help="the number of the first case"
    )
    words.add_argument(
        "--only", choices=list(CASES), help="cases of this command alone"
    )
    words.add_argument(
        "--small-windows",
        action="store_true",
        help="more than half of the windows below 5, and more jumps",
    )
    words.add_argument(
        "--long", action="store_true", help="long inputs in place of generated cases"
    )
    program_runner.add_program(words)
    return words


def named_cases(asked: argparse.Namespace) -> Iterator[tuple[str, Case]]:
    """The cases that are asked for, each with its name."""
    if asked.long:
        for number, case in enumerate(long_cases(asked.only)):
            yield f"fuzz-long-{number}", case
        return
    for number in range(asked.first, asked.first + asked.cases):
        case = case_of(asked.seed, number, asked.only, asked.small_windows)
        yield f"fuzz-{asked.seed}-{number}", case


def main(arguments: Sequence[str]) -> int:
    asked = parser().parse_args(arguments)
    program = os.path.abspath(asked.program)
    done = differed = 0
    with program_runner.work_folder() as work, contextlib.suppress(KeyboardInterrupt):
        place = program_runner.Place(os.path.join(work, "folder"))
        for name, case in named_cases(asked):
            differed += differs(program, place, name, case)
            done += 1
    print(f"{done} cases, {differed} differed")
    return 1 if differed else 0
