"""The survey of a trace."""

import itertools
import struct
from collections.abc import Iterator, Sequence
from typing import TypeVar

from .datagrams import PACKET, Media, Parity, read_media, read_parity
from .traces import Ends, Record

LATE_BY, MOST_STREAMS = 1024, 256

# Time, sequence number, timestamp and payload of a media datagram.
Arrival = tuple[int, int, int, bytes]
# Offset, number of slots, and how far the stream's top was ahead of the base.
Shown = tuple[int, int, int]


def surveyed_line(
    kind: str, counts: Sequence[tuple[str, int]], json: bool, port: int | None = None
) -> str:
    """A line of counts, on a port where one is told."""
    if json:
        named = [*([("port", port)] if port is not None else []), *counts]
        return '{"kind":"%s"%s}\n' % (
            kind,
            "".join(f',"{name}":{number}' for name, number in named),
        )
    return (
        " ".join(
            [
                kind,
                *([str(port)] if port is not None else []),
                *(f"{name} {number}" for name, number in counts),
            ]
        )
        + "\n"
    )


def extended(numbers: list[int]) -> list[tuple[int | None, int | None]]:
    """For each datagram of a stream its position (None where it is late) and the top
    before it (None before the first).
    """
    if not numbers:
        return []
    first = top = numbers[0]
    found: list[tuple[int | None, int | None]] = [(first, None)]
    for seq in numbers[1:]:
        place = top + (seq - top + 32768) % 65536 - 32768
        is_late = place < first or place <= top - LATE_BY
        found.append((None if is_late else place, top))
        top = top if is_late else max(top, place)
    return found


def jitters(arrivals: list[Arrival]) -> Iterator[int]:
    """Sixteen times the jitter after each datagram but the first (RFC 3550, A.8)."""
    transits = [(time * 9 // 100 - ts) % 2**32 for time, _, ts, _ in arrivals]
    jitter = 0
    for before, now in zip(transits, transits[1:]):
        by = min((now - before) % 2**32, (before - now) % 2**32)
        jitter += by - (jitter + 8) // 16
        yield jitter


def bursts_of(
    received: dict[int, int], first: int, top: int
) -> list[tuple[int, int, int]]:
    """The slot and the length of each maximal run of positions that weren't received,
    and when the one before was.
    """
    known = sorted(received)
    return [
        (before + 1 - first, after - before - 1, received[before])
        for before, after in zip(known, known[1:])
        if after > before + 1
    ]


def surveyed_stream(
    port: int, ssrc: int, arrivals: list[Arrival], start: int, json: bool
) -> tuple[str, int]:
    """The lines of a stream of datagrams, each with its time, sequence number,
    timestamp and payload.
    """
    places = extended([seq for _, seq, _, _ in arrivals])
    received, late, duplicate, behind, jumps = {}, 0, 0, [], 0
    for (time, _, _, _), (place, top) in zip(arrivals, places):
        if place is None:
            late += 1
        elif place in received:
            duplicate += 1
        else:
            received[place] = time
            if top is not None and place < top:
                behind.append(top - place)
            jumps += top is not None and place > top + 1024
    first, top = min(received), max(received)
    expected = top - first + 1
    pids = {
        (payload[at + 1] & 0x1F) << 8 | payload[at + 2]
        for _, _, _, payload in arrivals
        for at in range(0, len(payload), PACKET)
    }
    text = surveyed_line(
        "stream",
        [
            ("ssrc", ssrc),
            ("first", first),
            ("expected", expected),
            ("received", len(received)),
            ("lost", expected - len(received)),
            ("duplicate", duplicate),
            ("late", late),
            ("reordered", len(behind)),
            ("deepest", max(behind, default=0)),
            ("jumps", jumps),
            ("pids", len(pids)),
        ],
        json,
        port,
    )
    bursts = bursts_of(received, first, top)
    steps = [
        ("1", 1, 1),
        ("2", 2, 2),
        ("4", 3, 4),
        ("8", 5, 8),
        ("16", 9, 16),
        ("32", 17, 32),
        ("more", 33, 2**64),
    ]
    text += surveyed_line(
        "bursts",
        [
            ("ssrc", ssrc),
            ("runs", len(bursts)),
            *(
                (name, sum(least <= length <= most for _, length, _ in bursts))
                for name, least, most in steps
            ),
        ],
        json,
        port,
    )
    for slot, length, at in sorted(bursts, key=lambda burst: (-burst[1], burst[0]))[
        :10
    ]:
        text += surveyed_line(
            "burst",
            [
                ("ssrc", ssrc),
                ("slot", slot),
                ("length", length),
                ("at", max(at - start, 0)),
            ],
            json,
            port,
        )
    told = [jitter // 16 * 100 // 9 for jitter in jitters(arrivals)]
    times = [time for time, _, _, _ in arrivals]
    silence, since = max(
        (
            (after - before, before)
            for before, after in zip(times, times[1:])
            if after > before
        ),
        key=lambda rise: rise[0],
        default=(0, 0),
    )
    return text + surveyed_line(
        "jitter",
        [
            ("ssrc", ssrc),
            ("last", told[-1] if told else 0),
            ("most", max(told, default=0)),
            ("silence", silence),
            ("at", max(since - start, 0)),
        ],
        json,
        port,
    ), max(behind, default=0)


def protected(
    port: int,
    records: list[Record],
    media: list[Media | None],
    parity: list[Parity | None],
    told: Sequence[tuple[int, int]],
) -> tuple[list[Shown], list[Shown]]:
    """Offset, number, and how far the stream's top was ahead of the base, of each
    parity datagram on the second port above this one and on the fourth that comes after
    the first media datagram here.
    """
    tops: dict[tuple[int, int], tuple[int, int]] = {}
    last: tuple[int, int] | None = None
    found: tuple[list[Shown], list[Shown]] = ([], [])
    for (_, at, _), own, says in zip(records, media, parity):
        if at == port and own is not None:
            last = port, own[1]
            first, top = tops.get(last, (own[0], own[0]))
            place = top + (own[0] - top + 32768) % 65536 - 32768
            is_late = place < first or place <= top - LATE_BY
            tops[last] = first, top if is_late else max(top, place)
        elif last is not None and says is not None and at in (port + 2, port + 4):
            ahead = (tops[last][1] - says[0]) % 65536 if last in told else 0
            found[at == port + 4].append(
                (says[1], says[2], ahead if ahead < 32768 else 0)
            )
    return found


Value = TypeVar("Value", int, tuple[int, int])


def commonest(values: list[Value]) -> Value:
    """The value that stands most often, and of several such values the least."""
    return min(values, key=lambda value: (-values.count(value), value))


def surveyed_matrix(
    port: int, columns: list[Shown], rows: list[Shown], deepest: int, json: bool
) -> str:
    """The matrix that the parity shows, and the words for a repair."""
    if not columns and not rows:
        return ""
    width, height = (
        commonest([p[:2] for p in columns])
        if columns
        else (commonest([p[1] for p in rows]), 0)
    )
    same = sum(p[:2] == (width, height) for p in columns) + sum(
        p[:2] == (1, width) for p in rows
    )
    lag = max(p[2] for p in columns + rows)
    window = min(100, width * height if height else width)
    depth = min(1000, window + lag + deepest + 1)
    text = surveyed_line(
        "matrix",
        [
            ("columns", width),
            ("rows", height),
            ("same", same),
            ("other", len(columns) + len(rows) - same),
            ("lag", lag),
        ],
        json,
        port,
    )
    if json:
        return text + surveyed_line(
            "words", [("flow", port), ("window", window), ("depth", depth)], json
        )
    return text + f"words flow={port} window={window} depth={depth}\n"


def media_of(datagram: bytes) -> Media | None:
    """What a media datagram says, and nothing of any other one."""
    read = read_media(datagram)
    return None if isinstance(read, int) else read


def parity_of(datagram: bytes) -> Parity | None:
    """What a parity datagram says, and nothing of any other one."""
    read = read_parity(datagram)
    return None if isinstance(read, int) else read


def survey(records: list[Record], ending: Ends, json: bool) -> str:
    """The text of a survey."""
    times = [time for time, _, _ in records]
    start = times[0] if times else 0
    greatest: list[int] = list(itertools.accumulate(times, max))
    media = [media_of(datagram) for _, _, datagram in records]
    parity = [
        None if read is not None else parity_of(datagram)
        for read, (_, _, datagram) in zip(media, records)
    ]
    text = surveyed_line(
        "trace",
        [
            ("records", len(records)),
            ("bytes", sum(len(datagram) for _, _, datagram in records)),
            ("span", max(times, default=0) - min(times, default=0)),
            ("backward", sum(time < most for time, most in zip(times[1:], greatest))),
        ],
        json,
    )
    of_ports: dict[int, list[int]] = {}
    for at, (_, port, _) in enumerate(records):
        of_ports.setdefault(port, []).append(at)
    for port, own in sorted(of_ports.items()):
        kinds = sum(media[at] is not None for at in own), sum(
            parity[at] is not None for at in own
        )
        text += surveyed_line(
            "port",
            [
                ("records", len(own)),
                ("bytes", sum(len(records[at][2]) for at in own)),
                ("first", max(times[own[0]] - start, 0)),
                ("last", max(times[own[-1]] - start, 0)),
                ("media", kinds[0]),
                ("parity", kinds[1]),
                ("other", len(own) - sum(kinds)),
            ],
            json,
            port,
        )
    streams: dict[tuple[int, int], list[tuple[int, int]]] = {}
    for at, read in enumerate(media):
        if read is not None:
            streams.setdefault((records[at][1], read[1]), []).append((at, read[0]))
    told = list(streams)[:MOST_STREAMS]
    deepest: dict[int, int] = {}
    for port, ssrc in told:
        arrivals = [
            (
                times[at],
                seq,
                struct.unpack_from(">I", records[at][2], 4)[0],
                records[at][2][12:],
            )
            for at, seq in streams[port, ssrc]
        ]
        lines, depth = surveyed_stream(port, ssrc, arrivals, start, json)
        text, deepest[port] = text + lines, max(deepest.get(port, 0), depth)
    for port in sorted(deepest):
        text += surveyed_matrix(
            port, *protected(port, records, media, parity, told), deepest[port], json
        )
    others = sum(len(streams[key]) for key in list(streams)[MOST_STREAMS:])
    if others:
        text += surveyed_line("more", [("streams", others)], json)
    end, _, place = ending.line.partition(" at byte ")
    if json:
        return text + '{"kind":"tail","end":"%s"%s}\n' % (
            end or "ended",
            place and ',"byte":' + place,
        )
    return text + f"tail {ending.line or 'ended'}\n"
