"""What becomes of a flow on its way: losses, changes, doubles and late records."""

import struct
from collections.abc import Sequence

from .draws import Draw, likely
from .sent_flows import Sent


def flipped(draw: Draw, data: bytes, first: int = 0) -> bytes:
    at = draw.within(min(first, len(data) - 1), len(data))
    return data[:at] + bytes([data[at] ^ 1 << draw.below(8)]) + data[at + 1 :]


def changed(draw: Draw, datagram: bytes) -> bytes:
    """The datagram with one thing changed."""
    if not datagram:
        return b"\x80"
    what = draw.below(6)
    if what == 0:
        return flipped(draw, datagram[:28]) + datagram[28:]
    if what == 1:
        return flipped(draw, datagram)
    if what == 2:
        return datagram[
            : draw.one_of([0, 11, 12, 27, 28, 29, draw.below(len(datagram) + 1)])
        ]
    if what == 3:
        return datagram + draw.randbytes(draw.one_of([1, 16, 188]))
    if what == 4 and len(datagram) > 28:
        at = draw.one_of([24, 25, 26, 16, 14, 15, 12, 13])
        return (
            datagram[:at]
            + bytes([draw.one_of([0, 1, 5, 20, 21, 64, 128, 255])])
            + datagram[at + 1 :]
        )
    return datagram[:2] + struct.pack(">H", draw.below(65536)) + datagram[4:]


def moved(datagram: bytes, by: int, parity: int) -> bytes:
    """The datagram with its sequence number, or that of its base, moved."""
    at = 12 if parity else 2
    if len(datagram) < at + 2:
        return datagram
    (seq,) = struct.unpack_from(">H", datagram, at)
    return datagram[:at] + struct.pack(">H", (seq + by) % 65536) + datagram[at + 2 :]


def of_sender(datagram: bytes, ssrc: int) -> bytes:
    """The media datagram with this SSRC."""
    return (
        datagram[:8] + struct.pack(">I", ssrc) + datagram[12:]
        if len(datagram) >= 12
        else datagram
    )


def restarts(draw: Draw, count: int) -> list[tuple[int, int, int]]:
    """From which record on a flow's sender has which SSRC, and by how much its sequence
    numbers are moved. Mostly there is none. Senders come back at times.
    """
    if not likely(draw, 25):
        return []
    places = sorted(draw.below(count) for _ in range(draw.one_of([1, 1, 2, 3, 6])))
    return [
        (
            place,
            draw.one_of([1, 2, 3, 7, 2**32 - 1]),
            draw.one_of([0, 0, -20000, -50, 60, draw.below(65536)]),
        )
        for place in places
    ]


def some_of(draw: Draw, count: int, chances: Sequence[float]) -> set[int]:
    """Some of the numbers below the count: each with the same chance in a hundred,
    which is one of these.
    """
    chance = draw.one_of(chances)
    if not chance:
        return set()
    return {number for number in range(count) if draw.random() * 100 < chance}


def damaged(draw: Draw, records: list[Sent], port: int) -> list[Sent]:
    """The records of a flow on this port with losses, changes, doubles and late ones,
    and a jump of sequence numbers, restarts of the sender and datagrams of another one
    at times. Of what is lost some may come later as another datagram, once parity has
    given what it was.
    """
    all_chances: list[list[float]] = [
        [0, 1, 5, 15, 40],
        [0, 0, 0.3, 2],
        [0, 0, 3],
        [0, 0, 3, 15],
        [0, 0, 1],
        [0, 0, 0, 0, 0, 0.5],
    ]
    lost, altered, doubled, late, strayed, strange = (
        some_of(draw, len(records), chances) for chances in all_chances
    )
    begun = restarts(draw, len(records))
    other = draw.one_of([0, 0, 0, 20])
    if likely(draw, 30):
        start = draw.below(len(records))
        lost.update(range(start, start + draw.below(40)))
    lost.discard(0)
    jumps_at, jump = len(records), draw.one_of(
        [-50, 60, 500, 3000, 32700, 32768, 40000]
    )
    if likely(draw, 20 if draw.small_windows else 5):
        jumps_at = draw.below(len(records))
    left: list[tuple[int, int, bytes]] = []
    for number, (kind, datagram) in enumerate(records):
        at = port + kind
        if number in lost:
            if likely(draw, other) and len(datagram) > 30:
                left.append(
                    (number + draw.within(1, 90), at, flipped(draw, datagram, 30))
                )
            continue
        if number >= jumps_at:
            datagram = moved(datagram, jump, kind)
        for first, ssrc, by in begun:
            if number >= first:
                datagram = moved(datagram, by, kind)
                datagram = datagram if kind else of_sender(datagram, ssrc)
        if number in strange and not kind:
            datagram = of_sender(datagram, draw.one_of([1, 2, 3, 8]))
        place = number + (draw.within(1, 200) if number in late else 0)
        left.append(
            (place, at, changed(draw, datagram) if number in altered else datagram)
        )
        if number in doubled:
            left.append(
                (
                    place + draw.below(30),
                    at,
                    changed(draw, datagram) if likely(draw, 40) else datagram,
                )
            )
        if number in strayed:
            left.append(
                (
                    place,
                    draw.one_of([port, port + 2, port + 4, port + 1, 1, 65535]),
                    datagram,
                )
            )
    left.sort(key=lambda record: record[0])
    return [record[1:] for record in left]


# By how many microseconds the time of a record is past that of the one before.
