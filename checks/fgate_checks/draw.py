"""Draws the pictures of the documents, docs/pictures/*.svg.

The same text comes out each time, by Python's own library alone. Each picture has a
ground of its own, so it is read on light and dark pages.
"""

from __future__ import annotations

import argparse
import html
from collections.abc import Sequence

from fgate_checks.repository import TOP

FOLDER = TOP / "docs/pictures"
Kind = tuple[str, str]
INK, SOFT, GROUND, EDGE = "#1c2530", "#5b6673", "#fbfaf6", "#c9c4b8"
# Fill and line of each kind of thing.
MEDIA, ROW = ("#d6e6f6", "#2b6499"), ("#d8edd6", "#34753a")
COLUMN, LOST = ("#fce4c4", "#a8620a"), ("#ffffff", "#b3261e")
PLAIN = ("#efece4", "#6b6459")


class Picture:
    """The elements of a drawing, with a title for readers who can't see it."""

    def __init__(self, width: int, height: int, title: str) -> None:
        self.parts = [
            '<svg xmlns="http://www.w3.org/2000/svg"'
            f' viewBox="0 0 {width} {height}" width="{width}" height="{height}"'
            ' role="img" font-family="DejaVu Sans, Verdana, Arial, sans-serif">',
            f"<title>{html.escape(title)}</title>",
            '<defs><marker id="tip" viewBox="0 0 10 10" refX="9" refY="5"'
            ' markerWidth="7" markerHeight="7" orient="auto-start-reverse">'
            f'<path d="M0 0 10 5 0 10z" fill="{INK}"/></marker></defs>',
            f'<rect x="0.5" y="0.5" width="{width - 1}" height="{height - 1}" rx="8"'
            f' fill="{GROUND}" stroke="{EDGE}"/>',
        ]

    def text(
        self,
        x: float,
        y: float,
        words: str,
        size: int = 13,
        anchor: str = "start",
        color: str = INK,
        bold: bool = False,
    ) -> None:
        """Words at a place."""
        weight = ' font-weight="bold"' if bold else ""
        self.parts.append(
            f'<text x="{x}" y="{y}" font-size="{size}" text-anchor="{anchor}"'
            f' fill="{color}"{weight}>{html.escape(words)}</text>'
        )

    def lines(
        self,
        x: float,
        y: float,
        all_words: Sequence[str],
        size: int = 12,
        anchor: str = "start",
        color: str = SOFT,
    ) -> None:
        """Lines of words, one below the other."""
        for number, words in enumerate(all_words):
            self.text(x, y + number * (size + 5), words, size, anchor, color)

    def box(
        self,
        x: float,
        y: float,
        width: float,
        height: float,
        kind: Kind,
        words: str = "",
        dashed: bool = False,
        bold: bool = False,
    ) -> None:
        """A box, with words in its middle."""
        fill, line = kind
        dash = ' stroke-dasharray="4 3"' if dashed else ""
        self.parts.append(
            f'<rect x="{x}" y="{y}" width="{width}" height="{height}" rx="3"'
            f' fill="{fill}" stroke="{line}" stroke-width="1.4"{dash}/>'
        )
        if words:
            self.text(
                x + width / 2, y + height / 2 + 4.5, words, 13, "middle", INK, bold
            )

    def arrow(
        self, x1: float, y1: float, x2: float, y2: float, both: bool = False
    ) -> None:
        """An arrow, with two tips where it is for both ways."""
        start = ' marker-start="url(#tip)"' if both else ""
        self.parts.append(
            f'<path d="M{x1} {y1} {x2} {y2}" fill="none" stroke="{INK}"'
            f' stroke-width="1.4"{start} marker-end="url(#tip)"/>'
        )

    def stroke(
        self, path: str, color: str = INK, width: float = 1.4, dashed: bool = False
    ) -> None:
        """A line along a path."""
        dash = ' stroke-dasharray="4 3"' if dashed else ""
        self.parts.append(
            f'<path d="{path}" fill="none" stroke="{color}"'
            f' stroke-width="{width}"{dash}/>'
        )

    def drawn(self) -> str:
        """The picture's text."""
        return "\n".join([*self.parts, "</svg>"]) + "\n"


def block_matrix(picture: Picture, left: int, top: int) -> None:
    """Five columns and four rows in blocks, with losses that they bring back."""
    wide, high = 52, 32
    lost = {6, 7, 8, 14}
    for slot in range(20):
        x, y = left + slot % 5 * wide, top + slot // 5 * (high + 8)
        picture.box(
            x,
            y,
            wide - 8,
            high,
            LOST if slot in lost else MEDIA,
            str(slot),
            slot in lost,
        )
    for row in range(4):
        y = top + row * (high + 8)
        picture.arrow(
            left + 5 * wide - 6, y + high / 2, left + 5 * wide + 13, y + high / 2
        )
        picture.box(left + 5 * wide + 16, y, wide - 4, high, ROW, f"row {row}")
    for column in range(5):
        x = left + column * wide
        picture.arrow(
            x + (wide - 8) / 2,
            top + 4 * (high + 8) - 6,
            x + (wide - 8) / 2,
            top + 4 * (high + 8) + 11,
        )
        picture.box(
            x, top + 4 * (high + 8) + 14, wide - 8, high, COLUMN, f"col {column}"
        )
    picture.text(left + 5 * wide - 8, top - 12, "L = 5 columns", 12, "end", SOFT)
    picture.text(left + 5 * wide + 16, top - 12, "D = 4 rows", 12, "start", SOFT)


def staggered_matrix(picture: Picture, left: int, top: int) -> None:
    """The matrix staggered: each column begins a row below the one before."""
    wide, high = 52, 26
    for slot in range(35):
        is_above = slot // 5 < slot % 5 % 4
        x, y = left + slot % 5 * wide, top + slot // 5 * high
        kind = PLAIN if is_above else MEDIA
        picture.box(x, y, wide - 8, high - 6, kind, str(slot))
    for column in range(5):
        x, y = left + column * wide - 4, top + column % 4 * high - 4
        picture.stroke(f"M{x} {y} h{wide} v{4 * high + 2} h-{wide} z", COLUMN[1], 2)
    picture.stroke(
        f"M{left - 12} {top + 4 * high - 3} h{5 * wide + 16}", SOFT, 1.2, True
    )
    words = ["the next", "matrix"]
    picture.lines(left + 5 * wide + 14, top + 4 * high + 1, words)


def matrix() -> Picture:
    """A matrix in both layouts."""
    title = "A matrix of media datagrams and its parity, in blocks and staggered"
    picture = Picture(1000, 400, title)
    picture.text(28, 32, "layout=block", 15, bold=True)
    block_matrix(picture, 28, 76)
    right = 370
    picture.lines(
        right, 92, ["14 is lost alone in its row:", "the row brings it back."]
    )
    picture.lines(
        right,
        142,
        [
            "6, 7 and 8 are too many for",
            "their row. Each is alone in its",
            "column: the columns bring",
            "them back.",
        ],
    )
    picture.lines(
        right,
        238,
        [
            "Parity is the sum (XOR) of its",
            "line: of columns on port P + 2,",
            "of rows on port P + 4.",
        ],
    )
    picture.lines(
        28,
        326,
        [
            "Sent in the order of the numbers. Directly behind the datagram that"
            " completes one",
            "go the parity of its column and then that of its row: 15, col 0, 16, col"
            " 1 and so on.",
            "So a burst in the last row takes the parity of its columns along.",
        ],
    )
    picture.stroke("M614 20 v360", EDGE)
    picture.text(644, 32, "layout=staggered", 15, bold=True)
    staggered_matrix(picture, 644, 76)
    picture.lines(
        644,
        290,
        [
            "Each column begins a row below the one before,",
            "and the fifth, of four rows, at the top again. So",
            "the columns' parity is spread, and the rate even.",
            "The grey ones, at the stream's beginning,",
            "are in no column.",
        ],
    )
    return picture


def cells(
    picture: Picture, left: int, top: int, kinds: Sequence[Kind], wide: int = 34
) -> None:
    """Datagrams side by side, each with its number."""
    for number, kind in enumerate(kinds):
        x = left + number * wide
        picture.box(x, top, wide - 4, 30, kind, str(number), kind is LOST)


def span(picture: Picture, x1: float, x2: float, y: float, words: str) -> None:
    """A measure from one place to another, with what it is above."""
    picture.stroke(f"M{x1} {y - 6} v12 M{x2} {y - 6} v12", INK)
    picture.arrow(x1 + 1, y, x2 - 1, y, True)
    picture.text((x1 + x2) / 2, y - 9, words, 13, "middle", bold=True)


def depth_row(picture: Picture, left: int, top: int) -> None:
    """Windows of four and a depth of twelve: the arrival of 16 plays 4 to 7."""
    wide = 34
    shown, lost = PLAIN, LOST
    waiting = [MEDIA, lost, *[MEDIA] * 3, lost, *[MEDIA] * 7]
    cells(picture, left, top, [*[shown] * 4, *waiting])
    for window in range(4):
        x = left + window * 4 * wide - 2
        path = f"M{x} {top - 6} h{4 * wide} v42 h-{4 * wide} z"
        picture.stroke(path, SOFT, 1.2, True)
    span(picture, left + 4 * wide, left + 8 * wide - 4, top - 22, "window = 4")
    span(picture, left + 4 * wide, left + 16 * wide, top + 62, "depth = 12")
    picture.lines(left + 2 * wide - 2, top + 56, ["shown before"], 12, "middle")
    middle = left + 16.5 * wide - 2
    picture.arrow(middle, top - 34, middle, top - 3)
    picture.text(middle, top - 42, "16 arrives", 13, "middle", bold=True)


def window() -> Picture:
    """Window, depth and hold along a stream."""
    picture = Picture(1000, 540, "Window, depth and hold along a stream")
    left = 28
    picture.text(left, 34, "By number: window and depth", 15, bold=True)
    depth_row(picture, left, 126)
    picture.lines(
        664,
        82,
        [
            "16 is 12 past 4, the first of its window, so",
            "4 to 7 are shown now. 5 is brought back if its",
            "parity has come, and else it is missing.",
            "9 goes on waiting for its parity.",
            "",
            "So 4 has waited for 12 others, and 7 for 9:",
            "more than the depth less the window. The depth",
            "has to reach from a datagram to its last parity.",
        ],
    )
    picture.stroke("M20 258 h960", EDGE)
    picture.text(left, 292, "By time: hold", 15, bold=True)
    hold_row(picture, left, 366)
    picture.lines(
        664,
        322,
        [
            "At each record of the flow, what has waited",
            "as long as the hold is shown first, up to the",
            "last such datagram, with what is missing",
            "before it.",
            "At 80 ms that is 4.",
            "At 100 ms it is 6, and 5 before it: brought",
            "back if its parity has come, else missing.",
            "",
            "Depth or hold, what comes first shows a",
            "datagram. So a hold has to last as long as",
            "parity takes to come.",
        ],
    )
    return picture


def hold_row(picture: Picture, left: int, top: int) -> None:
    """Datagrams each ten milliseconds, and a hold of forty."""
    wide = 54
    for number in range(11):
        middle = left + number * wide + wide / 2
        lost = number == 5
        kind = PLAIN if number < 4 else LOST if lost else MEDIA
        picture.box(middle - 20, top, 40, 30, kind, str(number), lost)
        picture.stroke(f"M{middle} {top + 61} v10")
        picture.text(middle, top + 88, str(number * 10), 12, "middle", SOFT)
    picture.arrow(left, top + 66, left + 11 * wide + 16, top + 66)
    picture.text(left + 11 * wide + 18, top + 88, "ms", 12, "end", SOFT)
    picture.lines(left + 2 * wide, top + 48, ["shown before 80 ms"], 12, "middle")
    begins, ends = left + 4.5 * wide, left + 8.5 * wide
    span(picture, begins, ends, top - 16, "hold = 40 ms, of 4")
    begins, ends = left + 6.5 * wide, left + 10.5 * wide
    span(picture, begins, ends, top + 124, "hold = 40 ms, of 6")


def stage(
    picture: Picture,
    x: int,
    y: int,
    width: int,
    name: str,
    words: Sequence[str],
    kind: Kind = PLAIN,
) -> None:
    """A part of the way with its name, and below it what it does."""
    picture.box(x, y, width, 44, kind, name, bold=True)
    picture.lines(x + width / 2, y + 64, words, 12, "middle")


def gateway() -> Picture:
    """A gateway between two sites."""
    picture = Picture(1000, 350, "A gateway between two sites")
    site = ("#f3efe5", EDGE)
    for x, width, name in ((16, 172, "one site"), (316, 668, "the other site")):
        picture.box(x, 48, width, 190, site)
        picture.text(x + width / 2, 36, name, 13, "middle", SOFT)
    stage(
        picture,
        34,
        84,
        136,
        "sender",
        [
            "FFmpeg, GStreamer,",
            "an encoder of its own,",
            "or fgate encode",
            "and replay_link",
        ],
    )
    picture.arrow(172, 106, 332, 106)
    picture.text(252, 80, "RTP over UDP", 12, "middle", SOFT)
    picture.lines(
        252, 134, ["media to port P,", "parity to P + 2", "and P + 4"], 12, "middle"
    )
    picture.text(252, 202, "some are lost", 12, "middle", LOST[1])
    stage(
        picture,
        334,
        84,
        106,
        "recorder",
        ["order of arrival;", "drops and", "silence told"],
    )
    stage(
        picture,
        504,
        84,
        124,
        "fgate repair",
        ["parity solved;", "shown in order,", "after the hold", "at most"],
        ROW,
    )
    stage(
        picture,
        692,
        84,
        96,
        "relay",
        ["whole packets;", "drops and counts", "while the output", "is away"],
    )
    stage(
        picture, 852, 84, 114, "output", ["GStreamer by", "PCR, files", "or a command"]
    )
    for x1, x2, words in ((442, 502, "trace"), (630, 690, "lane"), (790, 850, "lane")):
        picture.arrow(x1, 106, x2, 106)
        picture.text((x1 + x2) / 2, 97, words, 12, "middle", SOFT)
    picture.text(660, 124, "FIFO", 12, "middle", SOFT)
    picture.arrow(909, 196, 909, 276)
    picture.lines(909, 296, ["the receiver:", "UDP, RTP"], 12, "middle")
    picture.arrow(566, 212, 566, 276)
    picture.text(566, 296, "the report, when it ends", 12, "middle", SOFT)
    picture.lines(
        28,
        282,
        [
            "The green part is proved: which packets come",
            "out, in which order, for the datagrams",
            "that it is given.",
        ],
    )
    return picture


def ring(picture: Picture, x1: int, x2: int, y: int, full: str, empty: str) -> None:
    """Things that go on from one stage to the next, and come back empty."""
    picture.arrow(x1, y, x2, y)
    picture.text((x1 + x2) / 2, y - 9, full, 12, "middle", SOFT)
    picture.stroke(f"M{x2} {y + 18} H{x1 + 4}", SOFT, 1.2, True)
    picture.stroke(f"M{x1 + 9} {y + 14} l-7 4 l7 4", SOFT)
    picture.text((x1 + x2) / 2, y + 34, empty, 12, "middle", SOFT)


def stages() -> Picture:
    """The threads of a repair."""
    title = (
        "A repair with workers: a reader, a player and a writer,"
        " and workers beside them"
    )
    picture = Picture(1000, 330, title)
    threads = ((92, 196, "a thread"), (378, 222, "the caller's thread"))
    for x, width, name in (*threads, (690, 196, "a thread")):
        picture.box(x, 44, width, 148, ("#f3efe5", EDGE))
        picture.text(x + width / 2, 32, name, 12, "middle", SOFT)
    words = ["takes records until", "the batch is full, or", "the next isn't there"]
    stage(picture, 110, 62, 160, "reader", words)
    words = ["has each flow run its", "records of the batch:", "it admits and plays"]
    stage(picture, 396, 62, 186, "player", words, ROW)
    words = ["puts what was shown,", "flow after flow"]
    stage(picture, 708, 62, 160, "writer", words)
    picture.arrow(20, 84, 108, 84)
    picture.text(56, 75, "trace", 12, "middle", SOFT)
    ring(picture, 272, 394, 84, "sheaves", "empty")
    ring(picture, 584, 706, 84, "shelves", "empty")
    picture.arrow(870, 84, 980, 84)
    picture.text(935, 75, "lanes", 12, "middle", SOFT)
    picture.box(378, 250, 222, 60, ("#f3efe5", EDGE))
    picture.text(489, 285, "workers, a thread each", 13, "middle", bold=True)
    picture.arrow(440, 194, 440, 248)
    picture.text(430, 226, "what arrived, and hints", 12, "end", SOFT)
    picture.arrow(540, 248, 540, 194)
    picture.text(550, 226, "words of equations that lack one", 12, "start", SOFT)
    return picture


PICTURES = (matrix, window, gateway, stages)


def main(arguments: Sequence[str]) -> int:
    """Draws the pictures, or tells those that aren't as they are drawn here."""
    words = argparse.ArgumentParser(
        prog="draw",
        description=__doc__,
        formatter_class=argparse.RawDescriptionHelpFormatter,
    )
    help_of_check = "write nothing; tell each picture that differs, with status 1"
    words.add_argument("--check", action="store_true", help=help_of_check)
    is_check = words.parse_args(arguments).check
    stale = 0
    for draw in PICTURES:
        file, drawn = FOLDER / f"{draw.__name__}.svg", draw().drawn()
        if not is_check:
            FOLDER.mkdir(exist_ok=True)
            file.write_text(drawn, encoding="utf-8")
        elif not file.exists() or file.read_text(encoding="utf-8") != drawn:
            print(f"docs/pictures/{file.name} isn't as checks/draw draws it")
            stale += 1
    return 1 if stale else 0
