"""Transport streams."""

from ..plain_model.datagrams import PACKET
from .draws import Draw, likely


def made_packets(draw: Draw, count: int) -> list[bytes]:
    """Transport packets of a few PIDs, whose counters mostly go on."""
    pids = draw.one_of([[256], [0, 256, 8191], [1, 2, 3, 4, 8191]])
    counters = {pid: draw.below(16) for pid in pids}
    slip, packets = draw.one_of([0, 2, 30]), []
    for _ in range(count):
        pid = draw.one_of(pids)
        has_payload = not likely(draw, 15)
        adapts = likely(draw, 20)
        if likely(draw, slip):
            counters[pid] = draw.below(16)
        elif has_payload and not likely(draw, slip):
            counters[pid] = (counters[pid] + 1) % 16
        head = bytes(
            [
                0x47,
                draw.one_of([0, 0, 0x40, 0xE0]) | pid >> 8,
                pid & 255,
                draw.one_of([0, 0, 0xC0])
                | 0x20 * adapts
                | 0x10 * has_payload
                | counters[pid],
            ]
        )
        packets.append(
            head
            + bytes([draw.one_of([0, 1, 183, 255]), draw.one_of([0, 0x80, 0x7F, 0xFF])])
            + draw.randbytes(182)
        )
        if likely(draw, slip):
            packets.append(packets[-1])
    return packets[:count]


def made_stream(draw: Draw, count: int) -> bytes:
    """Transport packets of which nothing but the first byte matters. Some sum to zero
    with others.
    """
    if likely(draw, 5):
        return (b"\x47" + draw.one_of([bytes(187), draw.randbytes(187)])) * count
    stream = bytearray(draw.randbytes(count * PACKET))
    stream[::PACKET] = b"\x47" * count
    return bytes(stream)
