"""Continuity of transport packets, as `monitor` tells it."""

from typing import NamedTuple

from .datagrams import PACKET
from .traces import DONE, Ends


class Packet(NamedTuple):
    pid: int
    has_payload: bool
    counter: int
    breaks: bool


def packet_of(data: bytes) -> Packet:
    adapts = data[3] & 0x20 and data[4]
    return Packet(
        (data[1] & 0x1F) << 8 | data[2],
        bool(data[3] & 0x10),
        data[3] & 15,
        bool(adapts and data[5] & 0x80),
    )


def monitored(packets: list[Packet]) -> list[str]:
    """The lines of the faults of a whole list of packets."""

    def before(at: int) -> int | None:
        """The last packet of the same PID before this one."""
        return next(
            (
                other
                for other in range(at - 1, -1, -1)
                if packets[other].pid == packets[at].pid
            ),
            None,
        )

    def is_repeat(at: int) -> bool:
        last = before(at)
        return (
            last is not None
            and not packets[at].breaks
            and packets[last].has_payload
            and packets[last].counter == packets[at].counter
        )

    lines = []
    for at, packet in enumerate(packets):
        last = before(at)
        if packet.pid == 0x1FFF or last is None or packet.breaks:
            continue
        old = packets[last]
        if packet.has_payload:
            first_repeat = (
                packet.counter == old.counter
                and old.has_payload
                and not is_repeat(last)
            )
            faulty = packet.counter != (old.counter + 1) % 16 and not first_repeat
        else:
            faulty = packet.counter != old.counter
        if faulty:
            lines.append(
                f"packet {at} pid {packet.pid} counter {packet.counter} "
                f"after {old.counter}\n"
            )
    return lines


def monitor(stream: bytes, most: int) -> tuple[str, Ends]:
    """The text, and how the stream ends."""
    packets, ending = [], DONE
    for at in range(0, len(stream), PACKET):
        if len(stream) > most and at + PACKET > most:
            ending = Ends(5, f"too long at byte {at}")
        elif at + PACKET > len(stream):
            ending = Ends(7, f"not transport: length {len(stream)}")
        elif stream[at] != 0x47:
            ending = Ends(7, f"not transport: packet {at // PACKET}")
        if ending != DONE:
            break
        packets.append(packet_of(stream[at : at + PACKET]))
    lines = monitored(packets)
    if ending == DONE:
        lines.append(f"packets {len(packets)} faults {len(lines)}\n")
    return "".join(lines), ending
