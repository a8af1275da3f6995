"""Traces to be surveyed: of many senders, many ports, and times that follow the
timestamps.
"""

import struct

from ..plain_model.datagrams import media_datagram, parity_datagram, read_media
from ..plain_model.traces import MAGIC, Record, spelled
from .damage import of_sender
from .draws import Draw, likely
from .made_traces import flow_on, in_turns
from .sent_flows import Sent
from .streams import made_packets


def spread(draw: Draw, flow: list[Sent], port: int) -> list[Sent]:
    """The flow's records with each column parity sent later, as senders do that spread
    it over the next matrix.
    """
    gap, columns = draw.between(1, 12), draw.one_of([4, 5, 10, 20])
    placed: list[tuple[int, Sent]] = []
    seen = 0
    for number, record in enumerate(flow):
        is_column = record[0] == port + 2
        placed.append((number + (seen % columns + 1) * gap * is_column, record))
        seen += is_column
    placed.sort(key=lambda one: one[0])
    return [record for _, record in placed]


def many_senders(draw: Draw, senders: int) -> list[Sent]:
    """Two media datagrams of each of so many senders, on seven ports, with parity of
    some.
    """
    ports = [5000 + 2 * number for number in range(7)]
    packets = made_packets(draw, 2 * senders)
    flow = []
    for number, packet in enumerate(packets):
        port = ports[number % senders % 7]
        flow.append(
            (
                port,
                media_datagram(
                    number // senders, number * 90, number % senders, packet
                ),
            )
        )
        if likely(draw, 5):
            flow.append(
                (
                    port + draw.one_of([2, 4]),
                    parity_datagram(0, 0, draw.below(3), 1, 4, True, 1, 188),
                )
            )
    return flow


def many_ports(draw: Draw, count: int) -> list[Sent]:
    """Small datagrams on so many ports: media, parity, and neither."""
    kinds = [
        media_datagram(5, 90, 1, made_packets(draw, 1)[0]),
        parity_datagram(0, 0, 5, 4, 5, False, 1, 1),
        b"",
        b"\x80",
    ]
    first = draw.one_of([0, 65536 - count])
    ports = [first + number for number in range(count)]
    if likely(draw, 50):
        draw.shuffle(ports)
    return [
        (
            port,
            draw.one_of(
                kinds[0:1] * 2 + kinds if count < 3000 or number < 900 else kinds[2:]
            ),
        )
        for number, port in enumerate(ports)
    ]


def follow_stamps(draw: Draw, records: list[Record]) -> list[Record]:
    """The records with times at which the timestamps say that they are due, but for
    some jitter.
    """
    jitter, stamp = draw.one_of([0, 3, 30, 800]), 0
    first: int | None = None
    timed: list[Record] = []
    start = draw.one_of([0, 0, 10**15, 2**63])
    for _, port, datagram in records:
        if isinstance(read_media(datagram), tuple):
            (stamp,) = struct.unpack_from(">I", datagram, 4)
            first = stamp if first is None else first
        since = 0 if first is None else (stamp - first) % 2**32
        timed.append(
            (start + since * 100 // 9 + draw.between(0, jitter), port, datagram)
        )
    return timed


def surveyed_flows(draw: Draw, port: int) -> list[list[Sent]]:
    """Flows on one port or more. Two on the same are two paths of one sender, or two
    senders.
    """
    what = draw.below(10)
    if what < 2:
        return [flow_on(draw, 0, port) for _ in range(2)]
    if what < 4:
        own = [
            (at, of_sender(datagram, 9) if at == port else datagram)
            for at, datagram in flow_on(draw, 1, port)
        ]
        return [flow_on(draw, 0, port), own]
    if what < 6:
        return [
            spread(draw, flow_on(draw, flow, port + 10 * flow), port + 10 * flow)
            for flow in range(draw.between(1, 2))
        ]
    if what < 7:
        flow = flow_on(draw, 0, port)
        return [flow[draw.below(len(flow) + 1) :]]
    return [
        flow_on(draw, flow, port + draw.one_of([6, 2, 4]) * flow)
        for flow in range(draw.between(1, 3))
    ]


def surveyed_trace(draw: Draw) -> bytes:
    if likely(draw, 4):
        flows = [many_senders(draw, draw.one_of([3, 255, 256, 257, 300]))]
    elif likely(draw, 4):
        flows = [many_ports(draw, draw.one_of([40, 300, 300, 300, 2000, 2000, 65536]))]
    else:
        flows = surveyed_flows(draw, draw.one_of([1, 5000, 5000, 65511]))
    records = in_turns(draw, flows)
    if likely(draw, 25):
        records = follow_stamps(draw, records)
    return MAGIC + spelled(records)
