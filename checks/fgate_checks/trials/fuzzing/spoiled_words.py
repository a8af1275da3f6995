"""Command lines: valid ones, and what is spoiled in them."""

from collections.abc import Mapping
from typing import Any

from ..plain_model.command_lines import COMMANDS, TABLE, Values, rows_of
from .draws import Draw, likely, number_near


# The settings of a case that are fixed, by their names.
Chosen = Mapping[str, Any]
WORKERS = [0, 1, 2, 4, 16]
# Settings that a case fixes itself or that make a run long.
UNDRAWN = (
    "flow",
    "drop",
    "every",
    "max",
    "datagrams",
    "window",
    "depth",
    "hold",
    "burst",
    "most",
)


def line_of(draw: Draw, command: str, fixed: Chosen) -> list[str]:
    """A valid line of the command in random order: the fixed settings, and some of the
    others but `max`, `workers` and those that make a run long.
    """
    words = [
        f"{name}={value}"
        for name, values in fixed.items()
        for value in (values if isinstance(values, list) else [values])
    ]
    for _, name, values, _, _ in rows_of(command):
        if name in fixed or name in UNDRAWN:
            continue
        if name == "workers":
            words.append(f"workers={draw.one_of(WORKERS)}")
        elif likely(draw, 30) or name == "seed":
            words.append(f"{name}={number_near(draw, values)}")
    draw.shuffle(words)
    return [command, *words]


def number_past(draw: Draw, values: Values) -> int:
    """A number just outside of the range, or one of its ends."""
    least, greatest = map(int, values)
    return draw.one_of([least - 1, greatest + 1, least, greatest])


BAD_NUMBERS = [
    "",
    "+5",
    "-1",
    "05",
    "00",
    "5 ",
    " 5",
    "5.0",
    "0x5",
    "1e3",
    "99999999999999",
    "18446744073709551621",
    "\u0665",
    "5=5",
    "5\n",
    "many",
    "both",
    "block",
]


def spoiled_word(draw: Draw, command: str, words: list[str]) -> list[str]:
    """The line with one thing changed, most often for the worse."""
    words = list(words)
    at = draw.below(len(words))
    name, _, _ = words[at].partition("=")
    row = next((row for row in TABLE if row.name == name), draw.one_of(TABLE))
    what = draw.below(9)
    if what == 0:
        words.insert(draw.below(len(words) + 1), words[at])
    elif what == 1:
        del words[at]
    elif what == 2:
        words[at] = words[at][: draw.below(len(words[at]) + 1)]
    elif what == 3:
        words[at] = f"{name}={draw.one_of(BAD_NUMBERS)}"
    elif what == 4 and not isinstance(row.values[0], str):
        words[at] = f"{row.name}={number_past(draw, row.values)}"
    elif what == 5:
        other = draw.one_of(TABLE)
        words.insert(
            draw.below(len(words) + 1),
            f"{other.name}={number_near(draw, other.values)}",
        )
    elif what == 6:
        words.insert(
            draw.below(len(words) + 1),
            draw.one_of(["--help", "--version", "-h", "help", "", "=", "=5", command]),
        )
    elif what == 7:
        words[at] = draw.one_of(
            [
                words[at].upper(),
                words[at] + "0",
                words[at].replace("=", " = "),
                " " + words[at],
            ]
        )
    else:
        words[at] = draw.one_of(COMMANDS)
    return words


def as_bytes(draw: Draw, words: list[str]) -> list[bytes]:
    found = [word.encode() for word in words]
    if likely(draw, 1):
        at = draw.below(len(found) + 1)
        found.insert(
            at, draw.one_of([b"\xff", b"flow=\xc0\x80", b"repair\xff", b"\xed\xa0\x80"])
        )
    return [word.replace(b"\0", b"") for word in found]
