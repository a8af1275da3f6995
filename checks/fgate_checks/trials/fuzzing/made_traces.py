"""Traces of flows that take turns, and bytes that are changed anywhere."""

from ..plain_model.traces import MAGIC, Record, spelled
from .damage import damaged, flipped
from .draws import Draw, likely
from .sent_flows import Sent, sent


# So many cases in succession take the datagrams that are sent from the same flows.
SHARING = 8
# By how many microseconds the time of a record is past that of the one before.
UNEVEN = [0, 1, 999, -5]
PACES = [
    [100],
    UNEVEN,
    UNEVEN,
    UNEVEN * 10 + [30_000, -20_000, 10**9, -(10**12)],
    [0] * 30 + [5_000, -5_000],
]
LAST_TIME = 2**64 - 1


def flow_on(draw: Draw, flow: int, port: int) -> list[Sent]:
    """What arrives of a flow on this port."""
    return damaged(draw, sent(draw.of_seed, int(draw.number) // SHARING, flow), port)


def made_records(draw: Draw, ports: list[int]) -> list[Record]:
    """The records of a trace of a flow on each port."""
    flows = [flow_on(draw, flow, port) for flow, port in enumerate(ports)]
    if likely(draw, 4):
        flows = [
            [
                (draw.one_of([*ports, 9]), draw.randbytes(draw.below(60)))
                for _ in range(20)
            ]
        ]
    if likely(draw, 5) and flows:
        flows[0].append(
            (draw.one_of(ports), bytes(draw.one_of([0, 1345, 65507, 65508, 65535])))
        )
    return in_turns(draw, flows)


def in_turns(draw: Draw, flows: list[list[Sent]]) -> list[Record]:
    """The records of a trace in which those of each flow are in order. Mostly flows
    take random turns.
    """
    turns = [turn for flow in flows for turn in [iter(flow)] * len(flow)]
    if len(flows) > 1 and not likely(draw, 10):
        turns.sort(key=lambda _: draw.random())
    records: list[Record] = []
    time = draw.one_of(
        [0] * 17 + [4294967295999000, LAST_TIME - 10**9, LAST_TIME - 10**4]
    )
    for flow, step in zip(turns, draw.choices(draw.one_of(PACES), k=len(turns))):
        records.append((time, *next(flow)))
        time = min(max(0, time + step), LAST_TIME)
    return records


def made_trace(draw: Draw, ports: list[int]) -> bytes:
    return MAGIC + spelled(made_records(draw, ports))


def spliced(draw: Draw, data: bytes) -> bytes:
    """The bytes with one thing changed anywhere."""
    what, at, other = (
        draw.below(5),
        draw.below(len(data) + 1),
        draw.below(len(data) + 1),
    )
    at, other = min(at, other), max(at, other)
    if what == 0:
        return data[:at]
    if what == 1 and data:
        return flipped(draw, data, draw.one_of([0, len(data) // 2]))
    if what == 2:
        return data[:other] + data[at:]
    if what == 3:
        return data[:at] + data[other:]
    return data[:at] + draw.randbytes(draw.below(40)) + data[at:]


def limited(draw: Draw, data: bytes) -> dict[str, int]:
    """Sometimes a `max` about the size of the data."""
    if not likely(draw, 10):
        return {}
    return {
        "max": max(
            8,
            draw.one_of(
                [
                    8,
                    23,
                    24,
                    25,
                    len(data),
                    len(data) - 1,
                    len(data) + 1,
                    draw.below(len(data) + 9),
                ]
            ),
        )
    }
