"""Tells which matrices are worth having, by what each costs and what it survives.

fgate-plan-table [--rate BITS] [--packets N] [--window N] [--svg FILE] [--program PATH]

Every question is asked of `fgate plan`: bursts of 1 to 20 datagrams, at most 1 to 100
percent of parity, of columns alone and of both. A line of the table is a matrix that it
chooses: its columns and rows, whether rows have parity, how many percent of its
datagrams are added (overhead), the longest burst that it brings back, its datagrams,
how long these take at the rate (delay), and the least depth to set for that (window and
datagrams less a row). The rate is in transport bits a second, 10,000,000 where it isn't
told, with 7 transport packets a datagram and a window of 100. With --svg a plot of
overhead against delay goes to the file, with a dot for each matrix and the burst that
it survives. The status is 1 where the program can't be run or answers a fault, or the
file can't be written, and 2 where the words can't be read.
"""

import argparse
import subprocess
import sys
from collections.abc import Sequence

from fgate import command

NAME = "fgate-plan-table"
PACKET = 188
#: The size of the plot in pixels, and the edge around it.
WIDTH, HEIGHT, EDGE = 880, 560, 60
COLOURS = {"both": "#1f77b4", "column": "#d62728"}


class NoAnswer(Exception):
    """The program gives no answer."""


def chosen(program: str, burst: int, most: int, fec: str) -> tuple[int, int] | None:
    """Give the columns and rows that are chosen, or None."""
    words = [program, "plan", f"burst={burst}", f"most={most}", f"fec={fec}"]
    told = subprocess.run(words, capture_output=True, text=True, check=False)
    if told.returncode:
        raise NoAnswer(told.stderr.strip() or f"{told.returncode}")
    answer = told.stdout.split()
    return (int(answer[1]), int(answer[3])) if answer[0] == "columns" else None


def matrices(program: str) -> list[tuple[str, int, int]]:
    """Give all matrices that are chosen for some question: fec, columns and rows."""
    found = {
        (fec, *matrix)
        for fec in ("column", "both")
        for burst in range(1, 21)
        for most in range(1, 101)
        if (matrix := chosen(program, burst, most, fec))
    }
    return sorted(found, key=lambda one: (one[1] * one[2], one[0], one[1]))


class Row:
    """What a matrix costs, and what it survives."""

    def __init__(
        self, matrix: tuple[str, int, int], rate: int, packets: int, window: int
    ) -> None:
        self.fec, self.columns, self.rows = matrix
        self.datagrams = self.columns * self.rows
        parity = self.columns + (self.rows if self.fec == "both" else 0)
        self.overhead = 100 * parity / self.datagrams
        self.delay = self.datagrams * packets * PACKET * 8 * 1000 / rate
        self.depth = window + self.columns * (self.rows - 1)

    def line(self) -> str:
        """Give the matrix as a line of the table."""
        return (
            f"{self.columns:7} {self.rows:4} {self.fec:>6} {self.overhead:8.1f} % "
            f"{self.columns:5} {self.datagrams:9} {self.delay:8.1f} ms {self.depth:5}"
        )


def label(x: float, y: float, more: str, text: str) -> str:
    """Give a text of the plot at a place."""
    return f'<text x="{x}" y="{y}" {more}>{text}</text>'


def frame(most: float) -> list[str]:
    """Give the plot's background, axes and ticks, for delays up to this one."""
    middle = 'text-anchor="middle"'
    turned = f'{middle} transform="rotate(-90 15 {HEIGHT / 2})"'
    parts = [
        f'<svg xmlns="http://www.w3.org/2000/svg" width="{WIDTH}" height="{HEIGHT}" '
        'font-family="sans-serif" font-size="12">',
        f'<rect width="{WIDTH}" height="{HEIGHT}" fill="white"/>',
        f'<path d="M{EDGE} {EDGE}V{HEIGHT - EDGE}H{WIDTH - EDGE}" fill="none" '
        'stroke="black"/>',
        label(WIDTH / 2, HEIGHT - 15, middle, "parity, percent of the datagrams"),
        label(15, HEIGHT / 2, turned, "delay of a matrix, ms"),
    ]
    for tick in range(0, 101, 20):
        at = EDGE + (WIDTH - 2 * EDGE) * tick / 100
        parts.append(label(at, HEIGHT - EDGE + 18, middle, f"{tick}"))
    for tick in range(5):
        at = HEIGHT - EDGE - (HEIGHT - 2 * EDGE) * tick / 4
        told = f"{most * tick / 4:.0f}"
        parts.append(label(EDGE - 8, at + 4, 'text-anchor="end"', told))
    return parts


def dot(row: Row, most: float) -> str:
    """Give a matrix as a dot of the plot with its longest burst."""
    across = EDGE + (WIDTH - 2 * EDGE) * row.overhead / 100
    up = HEIGHT - EDGE - (HEIGHT - 2 * EDGE) * row.delay / most
    colour = f'fill="{COLOURS[row.fec]}"'
    return (
        f'<circle cx="{across:.1f}" cy="{up:.1f}" r="4" {colour}/>'
        f'<text x="{across + 6:.1f}" y="{up - 4:.1f}" {colour}>{row.columns}</text>'
    )


def plot(rows: list[Row]) -> str:
    """Give the plot as SVG: overhead from left to right, delay from below."""
    most = max(row.delay for row in rows)
    legend = [
        label(640, 40, f'fill="{COLOURS["both"]}"', "columns and rows"),
        label(760, 40, f'fill="{COLOURS["column"]}"', "columns alone"),
        '<text x="640" y="22">the number is the longest burst</text>',
    ]
    dots = [dot(row, most) for row in rows]
    return "\n".join([*frame(most), *dots, *legend, "</svg>"]) + "\n"


def read_words(arguments: Sequence[str] | None) -> argparse.Namespace:
    """Read the words of the command."""
    words = command.Parser(NAME, __doc__)
    words.add_argument(
        "--rate",
        type=command.whole(1, 10_000_000_000),
        default=10_000_000,
        metavar="BITS",
        help="transport bits a second; 10000000",
    )
    words.add_argument(
        "--packets",
        type=command.whole(1, 7),
        default=7,
        metavar="1..7",
        help="transport packets a datagram; 7",
    )
    words.add_argument(
        "--window",
        type=command.whole(1, 100),
        default=100,
        metavar="1..100",
        help="the window of the repair; 100",
    )
    words.add_argument("--svg", metavar="FILE", help="the file that gets the plot")
    words.add_argument(
        "--program",
        default="",
        metavar="PATH",
        help="the program; else the one on the path, or that of this clone",
    )
    return words.parse_args(arguments)


def main(arguments: Sequence[str] | None = None) -> int:
    """Write the table and the plot, and give the command's status."""
    asked = read_words(arguments)
    try:
        found = matrices(command.program_at(asked.program))
        rows = [Row(one, asked.rate, asked.packets, asked.window) for one in found]
        print("columns rows    fec   overhead burst datagrams       delay depth")
        for row in rows:
            print(row.line())
        if asked.svg:
            with open(asked.svg, "w", encoding="ascii") as file:
                file.write(plot(rows))
    except (NoAnswer, OSError) as told:
        print(f"{NAME}: {told}", file=sys.stderr)
        return 1
    return 0


if __name__ == "__main__":
    sys.exit(main())
