"""Has a board with three passes and a desk alone take the same random steps, as the
test tests::random::random_turns of fg_board_tests does with 30 flows.

Here there are many more, from other seeds. The last line says how many flows of
240 steps each agreed, and the status is 0 where no seed failed.
"""

from collections.abc import Sequence

from .random_turns import Turns, try_turns

TURNS = Turns(
    command="random_board",
    says=__doc__,
    crate="fg_board_tests",
    test="tests::random::random_turns",
    steps="240 steps",
    seed=r"(?m)^const SEED: u64 = 2022;",
    seeded="const SEED: u64 = {seed};",
    seeds=10,
    flows=1000,
)


def main(arguments: Sequence[str]) -> int:
    return try_turns(TURNS, arguments)
