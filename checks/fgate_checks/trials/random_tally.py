"""Has the tallies of a board and plain counts and sums take the same random steps, as
the test tests::random::random_folds of fg_tally_tests does with 10 flows.

Here there are many more, from other seeds. The last line says how many flows of
400 steps each agreed, and the status is 0 where no seed failed.
"""

from collections.abc import Sequence

from .random_turns import Turns, try_turns

TURNS = Turns(
    command="random_tally",
    says=__doc__,
    crate="fg_tally_tests",
    test="tests::random::random_folds",
    steps="400 steps",
    seed=r"(?m)^const SEED: u64 = 2022;",
    seeded="const SEED: u64 = {seed};",
    seeds=5,
    flows=200,
)


def main(arguments: Sequence[str]) -> int:
    return try_turns(TURNS, arguments)
