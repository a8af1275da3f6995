"""Desks: what is known of one flow, and how its windows are played."""

from collections.abc import Iterable, Iterator
from typing import NamedTuple

from .datagrams import is_media, sum_of


def position(top: int, top_seq: int, seq: int) -> int:
    """The integer nearest to the top that the sequence number can stand for: from
    32,768 before it to 32,767 past it.
    """
    return top + (seq - top_seq + 32768) % 65536 - 32768


class Equation:
    """A live equation: its shape (base, offset and number of slots), its word, its
    slots, and the last of them.
    """

    def __init__(self, base: int, offset: int, na: int, word: int) -> None:
        self.base, self.shape, self.word = base, (base, offset, na), word
        self.last = base + (na - 1) * offset
        self.slots = frozenset(range(base, self.last + 1, offset))
        self.summed: list[int] | None = None
        self.holds = False

    def comes_out(self, words: dict[int, int]) -> bool:
        """Whether the words at its slots sum to its own. It isn't summed again for the
        same words.
        """
        here = [words[slot] for slot in self.slots]
        if here != self.summed:
            self.summed, self.holds = here, sum_of(here) == self.word
        return self.holds


def runs_of(positions: Iterable[int]) -> list[str]:
    """The maximal runs of a set of positions, rising, as "FIRST LENGTH"."""
    runs: list[list[int]] = []
    for at in sorted(positions):
        if runs and sum(runs[-1]) == at:
            runs[-1][1] += 1
        else:
            runs.append([at, 1])
    return [f"{first} {length}" for first, length in runs]


class Play(NamedTuple):
    """A closed window: what each position shows (None where nothing), how many are
    repaired, whether the desk had a solution, and the lines of its gap case without the
    port, where it had one and a position shows nothing. The first window starts at
    position 0, and each other one where the last one ended.
    """

    shown: list[int | None]
    repaired: int
    consistent: bool
    case: list[str] | None


class Desk:
    """What is known of one flow."""

    def __init__(self, window: int, depth: int, hold: int) -> None:
        self.window, self.depth, self.hold = window, depth, hold
        # The greatest position of the current run, and its sequence number.
        self.top: tuple[int, int] | None = None
        # The SSRC of the current run and of the one before, where the current one
        # begins, and how many were begun.
        self.current: int | None = None
        self.previous: int | None = None
        self.origin, self.runs = 0, 0
        self.mark = 0
        self.kept: dict[int, int] = {}
        self.media: dict[int, int] = {}
        # The greatest time that was told so far, and what it was when each of the
        # received words was admitted.
        self.clock = 0
        self.times: dict[int, int] = {}
        # By their shapes, of which no two are the same.
        self.equations: dict[tuple[int, int, int], Equation] = {}

    def plays_held(self, time: int) -> Iterator[Play]:
        """The plays before any datagram of this time, a refused one too. Where there is
        a hold: while some received words have waited for so long, the positions up to
        the farthest of them are played, at most a window.
        """
        self.clock = max(self.clock, time)
        while self.hold:
            held = [
                at
                for at, admitted in self.times.items()
                if admitted + self.hold <= self.clock
            ]
            if not held:
                return
            yield self.play(*self.peeled(), min(self.window, max(held) + 1 - self.mark))

    def plays_before(self, seq: int, ssrc: int) -> Iterable[Play]:
        """The plays before a media datagram. With a new SSRC, neither the current nor
        the previous one, the desk is flushed. With the current one, while it is `depth`
        positions past the mark or more, the mark moves on by a window.
        """
        if self.top is None or ssrc != self.current:
            return (
                self.flush() if self.top is not None and ssrc != self.previous else []
            )
        return self.plays(
            max(
                0,
                (position(*self.top, seq) - self.mark - self.depth) // self.window + 1,
            )
        )

    def admit_media(self, seq: int, ssrc: int, word: int) -> str:
        if self.previous is not None and ssrc == self.previous:
            return "foreign"
        if self.top is None or ssrc != self.current:
            self.previous, self.current, self.origin, self.runs = (
                self.current,
                ssrc,
                self.mark,
                self.runs + 1,
            )
            self.top, self.equations = (self.mark, seq), {}
            self.receive(self.mark, word)
            return "admitted"
        at = position(*self.top, seq)
        if at < 0 or at < self.mark:
            return "late"
        if at in self.media:
            return "duplicate" if self.media[at] == word else "conflict"
        self.receive(at, word)
        if at > self.top[0]:
            self.top = at, seq
        return "admitted"

    def receive(self, at: int, word: int) -> None:
        self.media[at], self.times[at] = word, self.clock

    def admit_parity(self, base_seq: int, offset: int, na: int, word: int) -> str:
        if self.top is None:
            return "notstarted"
        equation = Equation(position(*self.top, base_seq), offset, na, word)
        if equation.base < self.origin:
            return "beforestart"
        if equation.last < self.mark or not self.reaches_back(equation):
            return "late"
        if equation.last >= self.mark + self.depth + 100:
            return "ahead"
        if equation.shape in self.equations:
            return (
                "duplicate"
                if self.equations[equation.shape].word == word
                else "conflict"
            )
        if len(self.equations) == 512:
            return "crowded"
        self.equations[equation.shape] = equation
        return "admitted"

    def reaches_back(self, equation: Equation) -> bool:
        """Whether all slots before the mark are kept."""
        return equation.base >= self.mark or all(
            slot in self.kept for slot in equation.slots if slot < self.mark
        )

    def peeled(self) -> tuple[dict[int, int], list[int]]:
        """A word for each position of the closure, and which positions were found:
        while an equation has one unknown slot, at the mark or past it, that slot gets
        the sum of the parity word and the other slots' words.
        """
        known, found = {**self.kept, **self.media}, []
        waiting, grows = list(self.equations.values()), True
        while grows:
            equations, waiting, grows = waiting, [], False
            for equation in equations:
                unknown = equation.slots.difference(known)
                if len(unknown) == 1 and min(unknown) >= self.mark:
                    others = equation.slots - unknown
                    known[min(unknown)] = sum_of(
                        [equation.word, *(known[slot] for slot in others)]
                    )
                    found.append(min(unknown))
                    grows = True
                elif unknown:
                    waiting.append(equation)
        return known, found

    def is_solution(self, words: dict[int, int], found: list[int]) -> bool:
        """Whether all found words are media words, and each equation comes out whose
        slots all have words.
        """
        return all(is_media(words[at]) for at in found) and all(
            equation.comes_out(words)
            for equation in self.equations.values()
            if not equation.slots.difference(words)
        )

    def play(self, words: dict[int, int], found: list[int], count: int) -> Play:
        """The play of a window of so many positions, by a closure's words and what was
        found of them.
        """
        consistent = self.is_solution(words, found)
        source = words if consistent else self.media
        window = range(self.mark, self.mark + count)
        shown = [source.get(at) for at in window]
        repaired = sum(at in source and at not in self.media for at in window)
        case = self.case(words, count) if consistent and None in shown else None
        self.move_mark(shown, consistent)
        return Play(shown, repaired, consistent, case)

    def case(self, words: dict[int, int], count: int) -> list[str]:
        """The lines of the gap case of a window of so many positions, without port."""
        equations = self.equations.values()
        end = max([self.mark + count, *(equation.last + 1 for equation in equations)])
        return [
            f"{self.mark} {count}",
            *(f"known {run}" for run in runs_of([*self.kept, *self.media])),
            *("line {} {} {}".format(*equation.shape) for equation in equations),
            *(
                f"open {run}"
                for run in runs_of(
                    at for at in range(self.mark, end) if at not in words
                )
            ),
            "end",
        ]

    def move_mark(self, shown: list[int | None], consistent: bool) -> None:
        """Moves the mark behind a window that showed these words."""
        window = range(self.mark, self.mark + len(shown))
        self.mark = window.stop
        self.kept.update(
            (at, word) for at, word in zip(window, shown) if word is not None
        )
        for at in window:
            self.media.pop(at, None)
            self.times.pop(at, None)
            self.kept.pop(at - 100, None)
        self.equations = {
            shape: equation
            for shape, equation in self.equations.items()
            if consistent and equation.last >= self.mark and self.reaches_back(equation)
        }

    def plays(self, count: int) -> Iterator[Play]:
        """So many plays of whole windows. Once nothing is known, each shows nothing and
        moves the mark.
        """
        while count and (self.kept or self.media or self.equations):
            yield self.play(*self.peeled(), self.window)
            count -= 1
        for _ in range(count):
            yield Play([None] * self.window, 0, True, self.case({}, self.window))
            self.mark += self.window

    def flush(self) -> Iterator[Play]:
        """The plays at the end: each window ends behind the closure's highest position
        at the latest.
        """
        while True:
            words, found = self.peeled()
            highest = max(words, default=-1)
            if highest < self.mark:
                return
            yield self.play(words, found, min(self.window, highest + 1 - self.mark))
