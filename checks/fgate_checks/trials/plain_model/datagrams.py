"""Media and parity datagrams, and the words of which parity gives the sum.

What can be recovered of a media datagram is its word: payload type (one byte),
timestamp (four), length (two) and the payload padded to 1,316 bytes, one behind another
as one number. So the XOR of words, field by field, is the XOR of numbers.
"""

import functools
import operator
import struct
from collections.abc import Iterable

PACKET = 188
LARGEST = 7 * PACKET
WORD = 7 + LARGEST

# Sequence number, SSRC and word of a media datagram.
Media = tuple[int, int, int]
# The base's sequence number, offset, number of slots and word of a parity datagram.
Parity = tuple[int, int, int, int]


def word_of(pt: int, ts: int, length: int, payload: bytes) -> int:
    return int.from_bytes(
        struct.pack(">BIH", pt, ts, length) + payload.ljust(LARGEST, b"\0"), "big"
    )


def fields_of(word: int) -> tuple[int, int, int, bytes]:
    """Payload type, timestamp, length and padded payload."""
    whole = word.to_bytes(WORD, "big")
    pt, ts, length = struct.unpack_from(">BIH", whole)
    return pt, ts, length, whole[7:]


def length_of(word: int) -> int:
    return word >> 8 * LARGEST & 0xFFFF


def sum_of(words: Iterable[int]) -> int:
    """The XOR of all, field by field."""
    return functools.reduce(operator.xor, words, 0)


def payload_of(word: int) -> bytes:
    return word.to_bytes(WORD, "big")[7 : 7 + length_of(word)]


def are_packets(payload: bytes) -> bool:
    return len(payload) % PACKET == 0 and payload[::PACKET] == b"\x47" * (
        len(payload) // PACKET
    )


def is_media(word: int) -> bool:
    """Whether a media datagram can have this word."""
    pt, _, length, padded = fields_of(word)
    return (
        pt == 33
        and length in range(PACKET, LARGEST + 1, PACKET)
        and are_packets(padded[:length])
        and padded[length:] == bytes(LARGEST - length)
    )


@functools.lru_cache(maxsize=4096)
def read_media(datagram: bytes) -> int | Media:
    """A fault's number, or sequence number, SSRC and word."""
    if len(datagram) < 12:
        return 1
    if datagram[0] >> 6 != 2:
        return 2
    if datagram[0] & 0x3F:
        return 3
    if datagram[1] & 0x7F != 33:
        return 4
    payload = datagram[12:]
    if len(payload) not in range(PACKET, LARGEST + 1, PACKET):
        return 5
    if not are_packets(payload):
        return 6
    seq, ts, ssrc = struct.unpack_from(">HII", datagram, 2)
    return seq, ssrc, word_of(33, ts, len(payload), payload)


def is_shape(offset: int, na: int) -> bool:
    return 1 <= offset <= 20 and 1 <= na <= 20 and (na - 1) * offset <= 99


@functools.lru_cache(maxsize=4096)
def read_parity(datagram: bytes) -> int | Parity:
    """A fault's number, or the base's sequence number, offset, number of slots and
    word.
    """
    if len(datagram) < 28:
        return 1
    if datagram[0] >> 6 != 2:
        return 2
    base, length, types = struct.unpack_from(">HHB", datagram, 12)
    (ts,) = struct.unpack_from(">I", datagram, 20)
    bits, offset, na = datagram[24:27]
    if not types & 0x80:
        return 3
    if bits & 0xBF:
        return 4
    if not is_shape(offset, na):
        return 5
    payload = datagram[28:]
    if not 1 <= len(payload) <= LARGEST:
        return 6
    return base, offset, na, word_of(types & 0x7F, ts, length, payload)


def media_datagram(seq: int, ts: int, ssrc: int, payload: bytes) -> bytes:
    return struct.pack(">BBHII", 0x80, 33, seq % 65536, ts, ssrc) + payload


def parity_datagram(
    seq: int,
    stamp: int,
    base: int,
    offset: int,
    na: int,
    is_row: bool,
    word: int,
    size: int,
) -> bytes:
    header = struct.pack(">BBHII", 0x80, 96, seq % 65536, stamp, 0)
    pt, ts, length, padded = fields_of(word)
    fec = struct.pack(
        ">HHBBBBIBBBB",
        base % 65536,
        length,
        0x80 | pt,
        0,
        0,
        0,
        ts,
        0x40 if is_row else 0,
        offset,
        na,
        0,
    )
    return header + fec + padded[:size]
