"""What is sent of a flow: encodings, and media under random equations."""

import functools
from typing import Any

from ..plain_model.datagrams import (
    LARGEST,
    PACKET,
    length_of,
    media_datagram,
    parity_datagram,
    sum_of,
    word_of,
)
from ..plain_model.encodings import encode, layout_fault, payloads_of
from .draws import Draw, likely
from .streams import made_stream


# How far the port is from the flow's, and the datagram.
Sent = tuple[int, bytes]


def layout(draw: Draw) -> dict[str, Any]:
    """Settings of an encoding, with a layout that is mostly fine."""
    fec, columns = draw.one_of(["both", "column"]), draw.one_of(
        [1, 2, 3, 4, 5, 5, 8, 10, 10, 20]
    )
    if fec == "both" and columns < 4 and not likely(draw, 3):
        columns = 4
    rows = draw.between(4, max(4, min(20, 100 // columns)))
    if likely(draw, 3):
        columns, rows = draw.below(256), draw.below(256)
    return {
        "columns": columns,
        "rows": rows,
        "fec": fec,
        "layout": draw.one_of(["block", "staggered"]),
    }


def encoded(draw: Draw) -> list[Sent]:
    """The records of an encoding of a made stream."""
    asked: dict[str, Any] = {
        "packets": draw.one_of([1, 1, 1, 1, 2, 7]),
        "rate": draw.one_of([1, 10**6, 10**7, 10**10]),
        "port": 0,
        "ssrc": 7,
        "seq": draw.one_of([0, 65530, draw.below(65536)]),
        "stamp": draw.below(2**32),
        **layout(draw),
    }
    while layout_fault(asked["columns"], asked["rows"], asked["fec"]):
        asked.update(layout(draw))
    datagrams = draw.one_of([1, 5, 15, 30, 30, 30, 60, 60, 60, 120, 120, 250, 400])
    stream = made_stream(
        draw, max(1, datagrams * asked["packets"] - draw.one_of([0, 0, 1]))
    )
    payloads, _ = payloads_of(stream, asked["packets"] * PACKET, len(stream))
    return [record[1:] for record in encode(payloads, asked)]


def wrong(draw: Draw, word: int) -> int:
    """The word with a bit of one field flipped."""
    return word ^ draw.one_of(
        [
            word_of(1, 0, 0, b""),
            word_of(0, 1 << draw.below(32), 0, b""),
            word_of(0, 0, 188, b""),
            word_of(0, 0, 1, b""),
            1 << draw.below(8 * LARGEST),
        ]
    )


def equation_over(
    draw: Draw, words: list[int], seq: int, is_row: bool, wrongs: float
) -> tuple[int, bytes]:
    """A parity datagram of a random shape over media words that start with this
    sequence number, behind the slot that comes first, so many in a hundred with a wrong
    sum.
    """
    offset = draw.between(1, 20)
    na = draw.between(1, min(20, 99 // offset + 1))
    base = draw.between(
        draw.one_of([0, 0, 0, -3]), max(0, len(words) - (na - 1) * offset - 1)
    )
    covered = [
        words[slot]
        for slot in range(base, base + na * offset, offset)
        if 0 <= slot < len(words)
    ]
    word = sum_of(covered)
    if likely(draw, wrongs):
        word = wrong(draw, word)
    size = max(1, length_of(word), *map(length_of, covered))
    size = min(draw.one_of([size, size, size, LARGEST]), LARGEST)
    datagram = parity_datagram(
        draw.below(65536), 0, seq + base, offset, na, is_row, word, size
    )
    return max(0, base + (na - 1) * offset), datagram


def knotted(draw: Draw) -> list[Sent]:
    """Media of a flow with random equations over it, each near where it ends. The last
    media words aren't sent.
    """
    count, equations = draw.one_of(
        [
            (20, 15),
            (20, 15),
            (20, 40),
            (60, 60),
            (60, 60),
            (60, 120),
            (150, 200),
            (260, 700),
        ]
    )
    wrongs, unsent = draw.one_of([0, 0, 0, 0.3, 4]), draw.one_of([0, 0, 5, 40])
    seq = draw.one_of([0, 65500, draw.below(65536)])
    placed: list[tuple[float, int, bytes]] = []
    words: list[int] = []
    for slot in range(count + unsent):
        stamp, payload = draw.below(2**32), made_stream(draw, draw.one_of([1, 1, 2]))
        words.append(word_of(33, stamp, len(payload), payload))
        if slot < count:
            placed.append((slot, 0, media_datagram(seq + slot, stamp, 0, payload)))
    for _ in range(equations):
        is_row = likely(draw, 50)
        last, datagram = equation_over(draw, words, seq, is_row, wrongs)
        placed.append(
            (last + draw.one_of([0.5, 0.5, 30.5, -20.5]), 4 if is_row else 2, datagram)
        )
    placed.sort(key=lambda record: record[0])
    return [record[1:] for record in placed]


@functools.lru_cache(maxsize=3)
def sent(seed: int, group: int, flow: int) -> list[Sent]:
    """What is sent of a flow in the cases of a group: (distance from the flow's port,
    datagram).
    """
    draw = Draw(seed, f"{group} {flow}")
    return (knotted if likely(draw, 35) else encoded)(draw)
