"""Repairs of flows, their reports, and the gap cases of a flow."""

import re

from .datagrams import payload_of, read_media, read_parity
from .desks import Desk, Play
from .traces import KINDS, Record

MEDIA_COUNTS = ["admitted", "duplicate", "conflict", "late", "bad"]
PARITY_COUNTS = [
    *["admitted", "duplicate", "conflict", "late", "notstarted", "beforestart"],
    *["ahead", "crowded", "bad"],
]

# The time, kind and datagram of a record on a flow's own ports.
Own = tuple[int, str, bytes]
# How often each reply was given.
Counts = dict[str, int]


def run_of(
    records: list[Own], window: int, depth: int, hold: int
) -> tuple[list[Play], dict[str, Counts], int]:
    """A flow's run over its records (time, kind, datagram): its plays, how often each
    kind got each reply, and how many runs of a sender were begun. A hold of 0 is none.
    """
    desk = Desk(window, depth, hold)
    plays: list[Play] = []
    counts = {
        kind: dict.fromkeys([*PARITY_COUNTS, "foreign"], 0) for kind in KINDS.values()
    }
    for time, kind, datagram in records:
        plays += desk.plays_held(time)
        read = read_media(datagram) if kind == "media" else read_parity(datagram)
        if isinstance(read, int):
            reply = "bad"
        elif len(read) == 3:
            plays += desk.plays_before(*read[:2])
            reply = desk.admit_media(*read)
        else:
            reply = desk.admit_parity(*read)
        counts[kind][reply] += 1
    return plays + list(desk.flush()), counts, desk.runs


def gaps_of(shown: list[int | None]) -> list[tuple[int, int]]:
    """The runs of positions that show nothing: first position and length."""
    marks = "".join("." if word is None else "#" for word in shown)
    return [(gap.start(), len(gap[0])) for gap in re.finditer(r"\.+", marks)]


def counted(kind: str, port: int, counts: Counts, names: list[str]) -> str:
    return f"{kind} {port} " + " ".join(f"{name} {counts[name]}" for name in names)


def repair(
    records: list[Record], ports: list[int], window: int, depth: int, hold: int
) -> tuple[dict[int, bytes], str]:
    """The lanes by port, and the report without a tail."""
    lanes: dict[int, bytes] = {}
    lines: list[str] = []
    owners = {
        port + kind: (port, name) for port in ports for kind, name in KINDS.items()
    }
    own: dict[int, list[Own]] = {port: [] for port in ports}
    for time, at, datagram in records:
        if at in owners:
            port, kind = owners[at]
            own[port].append((time, kind, datagram))
    for port in ports:
        plays, counts, runs = run_of(own[port], window, depth, hold)
        shown = [word for play in plays for word in play.shown]
        lanes[port] = b"".join(payload_of(word) for word in shown if word is not None)
        missing = shown.count(None)
        repaired = sum(play.repaired for play in plays)
        broken = sum(not play.consistent for play in plays)
        lines.append(
            f"flow {port} shown {len(shown) - missing} repaired {repaired} "
            f"missing {missing} windows {len(plays)} inconsistent {broken}"
        )
        lines.append(counted("media", port, counts["media"], MEDIA_COUNTS))
        lines += [
            counted(kind, port, counts[kind], PARITY_COUNTS)
            for kind in ("column", "row")
        ]
        if runs > 1:
            lines.append(f"runs {port} {runs} foreign {counts['media']['foreign']}")
        lines += [f"gap {port} {first} {length}" for first, length in gaps_of(shown)]
    lines.append(f"other {len(records) - sum(map(len, own.values()))}")
    return lanes, "".join(line + "\n" for line in lines)


def prove(records: list[Record], port: int, window: int, depth: int, hold: int) -> str:
    """The texts of the gap cases of a flow, one for each play that has one."""
    own = [
        (time, KINDS[at - port], datagram)
        for time, at, datagram in records
        if at - port in KINDS
    ]
    plays, _, _ = run_of(own, window, depth, hold)
    return "".join(
        f"case {port} " + "".join(line + "\n" for line in play.case)
        for play in plays
        if play.case
    )
