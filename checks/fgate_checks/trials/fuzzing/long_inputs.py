"""Long inputs, in which sequence numbers wrap."""

from collections.abc import Iterator

from ..plain_model.captures import to_capture
from ..plain_model.datagrams import PACKET
from ..plain_model.encodings import SAMPLED, encode, payloads_of
from ..plain_model.traces import DONE, MAGIC, read_trace, spelled
from ..program_runner import Pieces
from .cases import Case
from .damage import moved
from .draws import Draw
from .streams import made_packets


def long_trace(ports: list[int]) -> bytes:
    """The trace of encodings of the same 20,000 datagrams on these ports, over and over
    with their sequence numbers moved on, without each 13th record.
    """
    stream = long_stream()[: 20000 * PACKET]
    payloads, _ = payloads_of(stream, PACKET, len(stream))
    records = [
        (time, port - 5000, datagram)
        for time, port, datagram in encode(payloads, {**SAMPLED, "packets": 1})
    ]
    rounds = [
        (time, port + kind, moved(datagram, 20000 * turn, kind))
        for turn in range(9 // len(ports))
        for time, kind, datagram in records
        for port in ports
    ]
    return MAGIC + spelled(
        record
        for number, record in enumerate(rounds)
        if number < len(ports) or number % 13
    )


def long_stream() -> bytes:
    draw = Draw(1, 0)
    return b"".join(made_packets(draw, 10_000)) * 28


def long_cases(only: str | None) -> Iterator[Case]:
    """Some cases, as `case_of` has them."""
    trace, stream = long_trace([5000]), long_stream()
    records = read_trace(trace, len(trace))[0] or []
    cases: list[tuple[str, list[str], bytes]] = [
        ("repair", ["flow=5000"], trace),
        ("encode", ["columns=4", "rows=4", "packets=1"], stream),
        (
            "repair",
            ["flow=5010", "flow=5000", "flow=5020"],
            long_trace([5000, 5010, 5020]),
        ),
        ("drill", ["columns=10", "rows=10", "every=7"], stream),
        ("inspect", ["flow=5000"], trace),
        ("survey", [], trace),
        ("tocap", [], trace),
        ("pick", ["flow=5000"], trace),
        ("monitor", [], stream),
        ("fromcap", [], to_capture(records, DONE)[0]),
    ]
    for command, words, data in cases:
        if only in (None, command):
            line = [word.encode() for word in (command, *words)]
            yield line, data, Pieces(100_000, False), {}
