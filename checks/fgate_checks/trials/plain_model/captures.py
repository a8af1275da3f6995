"""Captures, as `tocap` writes and `fromcap` reads them."""

import struct

from .traces import DONE, Ends, Record


CAPTURE = struct.pack(">IHHIIII", 0xA1B2C3D4, 2, 4, 0, 0, 262144, 1)


def check_of(header: bytes) -> int:
    """RFC 1071's sum over a header whose own field is 0."""
    total: int = sum(struct.unpack(f">{len(header) // 2}H", header))
    while total >> 16:
        total = (total & 0xFFFF) + (total >> 16)
    return total ^ 0xFFFF


def frame_of(port: int, datagram: bytes) -> bytes:
    addresses = bytes([10, 0, 0, 1, 10, 0, 0, 2])
    ip = struct.pack(
        ">BBHHHBBH8s", 0x45, 0, 28 + len(datagram), 0, 0x4000, 64, 17, 0, addresses
    )
    ip = ip[:10] + struct.pack(">H", check_of(ip)) + ip[12:]
    udp = struct.pack(">HHHH", port, port, 8 + len(datagram), 0)
    return bytes.fromhex("020000000002020000000001") + b"\x08\x00" + ip + udp + datagram


def to_capture(records: list[Record], ending: Ends) -> tuple[bytes, Ends]:
    """The capture of the records up to the first that doesn't fit, and how it ends."""
    parts = [CAPTURE]
    for number, (time, port, datagram) in enumerate(records):
        if time >= 2**32 * 1_000_000 or len(datagram) > 65507:
            return b"".join(parts), Ends(8, f"record {number} does not fit a capture")
        frame = frame_of(port, datagram)
        parts += [
            struct.pack(
                ">IIII", time // 1_000_000, time % 1_000_000, len(frame), len(frame)
            ),
            frame,
        ]
    return b"".join(parts), ending


def datagram_of(frame: bytes) -> tuple[int, bytes] | None:
    """Port and datagram of a frame, or None."""
    if frame[12:14] == b"\x08\x00":
        ip = frame[14:]
    elif frame[12:14] == b"\x81\x00" and frame[16:18] == b"\x08\x00":
        ip = frame[18:]
    else:
        return None
    if len(ip) < 20 or ip[0] >> 4 != 4:
        return None
    header, (total, _, fragment), protocol = (
        4 * (ip[0] & 15),
        struct.unpack_from(">HHH", ip, 2),
        ip[9],
    )
    if (
        header < 20
        or fragment & 0x3FFF
        or protocol != 17
        or not header <= total <= len(ip)
    ):
        return None
    udp = ip[header:total]
    if len(udp) < 8:
        return None
    _, port, length = struct.unpack_from(">HHH", udp)
    return (port, udp[8:length]) if 8 <= length <= len(udp) else None


def from_capture(data: bytes, most: int) -> tuple[list[Record] | None, Ends]:
    """The records of a capture, and how it ends. None in place of the records where its
    header is refused.
    """
    if most < 24 and len(data) > most:
        return None, Ends(5, "too long at byte 0")
    if len(data) < 24:
        return None, Ends(8, f"not a capture at byte {len(data)}")
    orders = {
        bytes.fromhex(magic): (order, unit)
        for magic, order, unit in [
            ("a1b2c3d4", ">", 1),
            ("d4c3b2a1", "<", 1),
            ("a1b23c4d", ">", 1000),
            ("4d3cb2a1", "<", 1000),
        ]
    }
    if data[:4] not in orders:
        return None, Ends(8, "not a capture at byte 0")
    order, unit = orders[data[:4]]
    if struct.unpack_from(order + "HH", data, 4) != (2, 4):
        return None, Ends(8, "not a capture at byte 4")
    if struct.unpack_from(order + "I", data, 20) != (1,):
        return None, Ends(8, "not a capture at byte 20")
    records: list[Record] = []
    at, within = 24, min(len(data), most)
    while at + 16 <= within:
        seconds, fraction, kept, _ = struct.unpack_from(order + "IIII", data, at)
        if kept > 262144:
            return records, Ends(8, f"not a capture at byte {at}")
        if at + 16 + kept > within:
            break
        found = datagram_of(data[at + 16 : at + 16 + kept])
        if found:
            records.append((seconds * 1_000_000 + fraction // unit, *found))
        at += 16 + kept
    if len(data) > most:
        return records, Ends(5, f"too long at byte {at}")
    return records, DONE if at == len(data) else Ends(4, f"cut at byte {at}")
