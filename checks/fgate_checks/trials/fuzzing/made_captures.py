"""Captures, of frames of which some are none."""

import struct

from ..plain_model.captures import to_capture
from ..plain_model.traces import DONE
from .damage import flipped
from .draws import Draw, likely
from .made_traces import made_records


def ip_packet(draw: Draw, port: int, datagram: bytes) -> bytes:
    options = bytes(4 * draw.one_of([0, 0, 0, 1, 10]))
    length, total = 8 + len(datagram), 28 + len(options) + len(datagram)
    version, fragment, protocol = 0x45 + len(options) // 4, 0x4000, 17
    what = draw.below(30)
    if what == 0:
        version = draw.one_of([0x44, 0x65, 0x4F, 0x05])
    elif what == 1:
        fragment = draw.one_of([0x2000, 1, 0x1FFF, 0x8000, 0x6000])
    elif what == 2:
        protocol = draw.one_of([6, 0])
    elif what == 3:
        total += draw.one_of([-1, 1, -len(datagram), -len(datagram) - 8, 100])
    elif what == 4:
        length = max(
            0, length + draw.one_of([-1, 1, -length, 7 - length, 8 - length, 60000])
        )
    header = struct.pack(
        ">BBHHHBBHII", version, 0, total % 65536, 0, fragment, 64, protocol, 0, 1, 2
    )
    return (
        header
        + options
        + struct.pack(">HHHH", 1234, port, length % 65536, 99)
        + datagram
    )


def frame(draw: Draw, port: int, datagram: bytes) -> bytes:
    plain, tagged = b"\x08\x00", b"\x81\x00\x20\x05\x08\x00"
    kind = draw.one_of(
        [plain] * 8
        + [tagged, tagged[:4] + tagged, tagged[:4] + b"\x86\xdd", b"\x86\xdd"]
    )
    whole = (
        bytes(12)
        + kind
        + ip_packet(draw, port, datagram)
        + bytes(draw.one_of([0, 0, 0, 4, 18]))
    )
    return whole[: draw.below(len(whole) + 1)] if likely(draw, 3) else whole


def made_capture(draw: Draw) -> bytes:
    records = made_records(draw, [5000])
    if likely(draw, 20):
        return to_capture(
            [
                record
                for record in records
                if record[0] < 2**50 and len(record[2]) < 65508
            ],
            DONE,
        )[0]
    order, nanoseconds = draw.one_of("<>"), likely(draw, 50)
    header = struct.pack(
        order + "IHHIIII",
        0xA1B23C4D if nanoseconds else 0xA1B2C3D4,
        2,
        4,
        0,
        0,
        65535,
        1,
    )
    parts = [flipped(draw, header) if likely(draw, 4) else header]
    for number, (_, port, datagram) in enumerate(records):
        kept = frame(draw, port, datagram[:65000])
        fraction = draw.one_of([0, 999999, 999999999, 2**32 - 1, number])
        said = (
            draw.one_of([262144, 262145, 2**32 - 1])
            if likely(draw, 0.1)
            else len(kept)
        )
        parts += [
            struct.pack(
                order + "IIII",
                draw.one_of([0, 2**32 - 1, number]),
                fraction,
                said,
                len(kept) + 7,
            ),
            kept,
        ]
    return b"".join(parts)
