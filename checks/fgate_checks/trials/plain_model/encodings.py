"""Encodings of streams with parity, and the streams that `sample` makes."""

import functools
import itertools
import struct
from collections.abc import Iterator

from .datagrams import (
    LARGEST,
    PACKET,
    length_of,
    media_datagram,
    parity_datagram,
    sum_of,
    word_of,
)
from .traces import DONE, Ends, Record, Settings

# The last slot of an equation, whether it is a row, its base, offset and number of
# slots.
Placed = tuple[int, bool, int, int, int]


def payloads_of(stream: bytes, size: int, most: int) -> tuple[list[bytes], Ends]:
    """The payloads that are sent, and how the stream ends."""
    payloads: list[bytes] = []
    for at in range(0, len(stream), size):
        payload = stream[at : at + size]
        if len(stream) > most and at + size > most:
            return payloads, Ends(5, f"too long at byte {at}")
        if len(payload) % PACKET:
            return payloads, Ends(7, f"not transport: length {len(stream)}")
        for packet in range(0, len(payload), PACKET):
            if payload[packet] != 0x47:
                return payloads, Ends(
                    7, f"not transport: packet {(at + packet) // PACKET}"
                )
        payloads.append(payload)
    return payloads, DONE


def layout_fault(columns: int, rows: int, fec: str) -> int | None:
    """The number of the first rule that the layout breaks, or None."""
    broken = [
        not 1 <= columns <= 20,
        not 4 <= rows <= 20,
        columns * rows > 100,
        fec == "both" and columns < 4,
    ]
    return broken.index(True) + 1 if True in broken else None


def equations_of(
    slots: int, columns: int, rows: int, fec: str, layout: str
) -> Iterator[Placed]:
    """All equations of so many slots whose last slot is there: (last slot, is row,
    base, offset, na).
    """
    for matrix in range(slots // (columns * rows) + 1):
        first = matrix * columns * rows
        for column in range(columns):
            base = (
                first
                + column
                + (column % rows * columns if layout == "staggered" else 0)
            )
            yield base + (rows - 1) * columns, False, base, columns, rows
        if fec == "both":
            for row in range(rows):
                base = first + row * columns
                yield base + columns - 1, True, base, 1, columns


def encode(payloads: list[bytes], asked: Settings) -> list[Record]:
    """The records of the encoding of these payloads."""
    size, seq, port = asked["packets"] * PACKET, asked["seq"], asked["port"]
    stamps = [
        (asked["stamp"] + slot * size * 8 * 90000 // asked["rate"]) % 2**32
        for slot in range(len(payloads))
    ]
    words = [
        word_of(33, stamp, len(payload), payload)
        for stamp, payload in zip(stamps, payloads)
    ]
    ending: dict[int, list[tuple[bool, int, int, int]]] = {}
    matrix = asked["columns"], asked["rows"], asked["fec"], asked["layout"]
    for last, is_row, base, offset, na in equations_of(len(payloads), *matrix):
        ending.setdefault(last, []).append((is_row, base, offset, na))
    records: list[Record] = []
    sent = {False: 0, True: 0}
    for slot, payload in enumerate(payloads):
        time = slot * size * 8 * 1000000 // asked["rate"]
        records.append(
            (
                time,
                port,
                media_datagram(seq + slot, stamps[slot], asked["ssrc"], payload),
            )
        )
        for is_row, base, offset, na in sorted(ending.get(slot, [])):
            covered = [words[base + j * offset] for j in range(na)]
            datagram = parity_datagram(
                sent[is_row],
                stamps[slot],
                seq + base,
                offset,
                na,
                is_row,
                sum_of(covered),
                max(length_of(word) for word in covered),
            )
            records.append((time, port + (4 if is_row else 2), datagram))
            sent[is_row] += 1
    return records


def draws(seed: int, stream: int) -> Iterator[int]:
    """PCG32, by O'Neill, of a seed and a stream."""
    mask = 2**64 - 1
    increment = stream << 1 | 1
    state = increment + seed & mask
    while True:
        state = state * 6364136223846793005 + increment & mask
        mixed = ((state >> 18 ^ state) >> 27) & 0xFFFFFFFF
        turn = state >> 59
        yield (mixed >> turn | mixed << (-turn & 31)) & 0xFFFFFFFF


SAMPLED: Settings = {
    "columns": 10,
    "rows": 10,
    "fec": "both",
    "layout": "block",
    "packets": 7,
    "rate": 10_000_000,
    "port": 5000,
    "seq": 0,
    "ssrc": 0,
    "stamp": 0,
}


@functools.lru_cache(maxsize=64)
def sampled_stream(seed: int, datagrams: int) -> bytes:
    packets = draws(seed, 54)
    return b"".join(
        bytes([0x47, 1, 0, 0x10 + packet % 16])
        + struct.pack("<46I", *itertools.islice(packets, 46))
        for packet in range(7 * datagrams)
    )


def sample(seed: int, datagrams: int, loss: int) -> tuple[list[Record], str]:
    """The records that are left, and the first line."""
    stream, losses = sampled_stream(seed, datagrams), draws(seed, 55)
    records = encode(payloads_of(stream, LARGEST, len(stream))[0], SAMPLED)
    left = records[:1] + [
        record for record in records[1:] if next(losses) % 100 >= loss
    ]
    told = f"sample seed {seed} datagrams {datagrams} records {len(records)}"
    return left, f"{told} lost {len(records) - len(left)}\n"
