"""Has a desk and a plain one of another style take the same random calls, as the test
tests::random::random_calls of fg_desk_tests does with 16 flows.

Here there are many more, from other seeds. The last line says how many flows of
100 calls each agreed, and the status is 0 where no seed failed.
"""

from collections.abc import Sequence

from .random_turns import Turns, try_turns

TURNS = Turns(
    command="random_desk",
    says=__doc__,
    crate="fg_desk_tests",
    test="tests::random::random_calls",
    steps="100 calls",
    seed=r"Pcg32::new\(2022, 7\)",
    seeded="Pcg32::new({seed}, 7)",
    seeds=10,
    flows=1000,
)


def main(arguments: Sequence[str]) -> int:
    return try_turns(TURNS, arguments)
