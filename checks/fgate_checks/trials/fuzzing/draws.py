"""The draws of a case, from its seed and number alone."""

import random
from collections.abc import Sequence
from typing import TypeVar

from ..plain_model.command_lines import Values


Choice = TypeVar("Choice")


class Draw(random.Random):
    """The draws of a case. They cost less than the library's, and are even enough
    here.
    """

    def __init__(
        self, seed: int, number: int | str, small_windows: bool = False
    ) -> None:
        super().__init__(f"{seed} {number}")
        self.of_seed, self.number = seed, number
        self.small_windows = small_windows

    def one_of(self, values: Sequence[Choice]) -> Choice:
        """One of the values."""
        return values[int(self.random() * len(values))]

    def between(self, least: int, greatest: int) -> int:
        """A number from the least to the greatest."""
        return least + int(self.random() * (greatest - least + 1))

    def below(self, end: int) -> int:
        """A number from 0 on, below the end."""
        return self.between(0, end - 1)

    def within(self, first: int, end: int) -> int:
        """A number from the first on, below the end."""
        return self.between(first, end - 1)


def likely(draw: Draw, percent: float) -> bool:
    return percent > 0 and draw.random() * 100 < percent


def number_near(draw: Draw, values: Values) -> int | str:
    """A value of the range, often one of its ends."""
    least, greatest = values
    if isinstance(least, str) or isinstance(greatest, str):
        return str(draw.one_of(values))
    return draw.one_of(
        [
            least,
            greatest,
            min(least + 1, greatest),
            max(greatest - 1, least),
            draw.between(least, greatest),
        ]
    )
