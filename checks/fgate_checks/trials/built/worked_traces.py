"""What is sent in the worked examples, by RFC 3550 and SMPTE ST 2022-1: each maker
gives how far its port is from the flow's, and the datagram.
"""

import functools
import struct
from collections.abc import Iterable, Sequence


MAGIC = b"FECTRAC1"
PACKET = 188
PAYLOAD = 7 * PACKET
# How far the port is from the flow's, and the datagram.
Sent = tuple[int, bytes]


def stamp(number: int) -> int:
    return number * 1000


@functools.lru_cache(maxsize=None)
def payload(number: int) -> bytes:
    """The seven transport packets of a media datagram."""
    made = bytearray(i % 251 ^ number & 255 for i in range(PAYLOAD))
    made[::PACKET] = b"\x47" * 7
    return bytes(made)


def stream(numbers: Iterable[int]) -> bytes:
    return b"".join(payload(number) for number in numbers)


def media(number: int, ssrc: int = 0) -> Sent:
    return 0, b"\x80\x21" + struct.pack(">HII", number, stamp(number), ssrc) + payload(
        number
    )


def parity(kind: int, first: int, offset: int) -> bytes:
    """Parity of four media datagrams. Four equal lengths, and four payload types, come
    to nothing.
    """
    summed, stamps = 0, 0
    for j in range(4):
        number = (first + offset * j) % 65536
        summed ^= int.from_bytes(payload(number), "big")
        stamps ^= stamp(number)
    head = (
        b"\x80\x60"
        + bytes(10)
        + struct.pack(
            ">HHBBBBIBBBB", first, 0, 0x80, 0, 0, 0, stamps, kind, offset, 4, 0
        )
    )
    return head + summed.to_bytes(PAYLOAD, "big")


def column(number: int) -> Sent:
    return 2, parity(0, number, 4)


def row_from(first: int) -> Sent:
    return 4, parity(0x40, first, 1)


def row(number: int) -> Sent:
    return row_from(4 * number)


def flipped_row(number: int) -> Sent:
    offset, datagram = row(number)
    return offset, datagram[:-1] + bytes([datagram[-1] ^ 1])


BAD = 0, b"\x80" * 11


def record(time: int, port: int, datagram: bytes) -> bytes:
    return struct.pack(">QHH", time, port, len(datagram)) + datagram


def trace(sent: list[Sent], flow: int = 5000, lost: Sequence[int] = ()) -> bytes:
    """The trace of what is sent on a flow at time 0, without the records of these
    numbers.
    """
    return timed(
        [(0, it) for number, it in enumerate(sent) if number not in lost], flow
    )


def timed(sent: list[tuple[int, Sent]], flow: int = 5000) -> bytes:
    return MAGIC + b"".join(
        record(time, flow + offset, datagram) for time, (offset, datagram) in sent
    )


def on_flows(sent: list[tuple[int, int, Sent]]) -> bytes:
    """The trace of what is sent at these times, each with its flow."""
    return MAGIC + b"".join(
        record(time, flow + it[0], it[1]) for time, flow, it in sent
    )


TEN = [media(10), media(11), media(12)]

# A block of 4 by 4: the parity of a row or column follows its last datagram, the
# column's first.
BLOCK = (
    [media(0), media(1), media(2), media(3), row(0)]
    + [media(4), media(5), media(6), media(7), row(1)]
    + [media(8), media(9), media(10), media(11), row(2)]
    + [
        media(12),
        column(0),
        media(13),
        column(1),
        media(14),
        column(2),
        media(15),
        column(3),
        row(3),
    ]
)
FLIPPED = BLOCK[:9] + [flipped_row(1)] + BLOCK[10:]
TWO_PASSES = (6, 7, 12, 13, 22)
SQUARE = (6, 7, 11, 12)
