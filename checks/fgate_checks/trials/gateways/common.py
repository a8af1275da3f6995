"""What the cases have in common: made links, a gateway that runs, and what is wanted of
both.
"""

import contextlib
import os
import signal
from collections.abc import Callable, Iterator, Sequence
from typing import Any

from . import link_lab as lab
from .link_lab import Gateway, Record


RATE, SHAPE = 5_000_000, {"columns": 5, "rows": 5}
MATRIX = 35  # records of five by five
FLOW, OTHER, OUT, OTHER_OUT = 5000, 5010, 6000, 6010
# A case, and the commands and packages that it needs.
Case = Callable[[], None]
CASES: list[tuple[Case, tuple[str, ...]]] = []


def case(*needs: str) -> Callable[[Case], Case]:
    """Names what a case needs."""

    def note(run: Case) -> Case:
        CASES.append((run, needs))
        return run

    return note


def wanted(what: object, told: str) -> None:
    if not what:
        raise AssertionError(told)


def same(found: Any, expected: Any, what: str) -> None:
    wanted(
        found == expected,
        f"{what}: {len(found) if isinstance(found, bytes) else found}, not "
        f"{len(expected) if isinstance(expected, bytes) else expected}",
    )


def same_stream(found: bytes, stream: bytes, what: str = "the stream") -> None:
    """Both are the same but for null packets. Where they differ it is told which
    packets are missing.
    """
    found = lab.without_nulls(found)
    if found == stream:
        return
    there, sent = set(lab.packets_of(found)), lab.packets_of(stream)
    gone = [number for number, one in enumerate(sent) if one not in there]
    raise AssertionError(
        f"{what}: {len(found)} bytes, not {len(stream)}; of its {len(sent)} packets "
        f"{len(gone)} are missing: {gone[:3]} .. {gone[-3:]}"
    )


def are_whole_datagrams(payloads: list[bytes]) -> None:
    wanted(
        not any(len(one) % lab.PACKET or len(one) > lab.PAYLOAD for one in payloads),
        "datagrams that are no whole packets or too large",
    )


def stream_of(
    seconds: float, flow: int = FLOW, start: float = 0.0, first: int = 0, **words: Any
) -> tuple[bytes, list[Record]]:
    """A made stream and its datagrams."""
    stream = lab.made_stream(seconds, RATE, start, first)
    return stream, lab.encoded(stream, flow, RATE, **SHAPE, **words)


def without_one_of(records: list[Record], apart: int) -> list[Record]:
    """The records without one in so many; those at the end, whose parity isn't sent,
    stay.
    """
    return [
        one
        for number, one in enumerate(records)
        if number % apart != apart - 1 or number > len(records) - 2 * MATRIX
    ]


def to(port: int = OUT, flow: int = FLOW, *more: str) -> list[str]:
    return ["--flow", str(flow), "--to", f"127.0.0.1:{port}", *more]


@contextlib.contextmanager
def running(
    *words: str, ports: Sequence[int] = (OUT,), **more: Any
) -> Iterator[tuple[Any, ...]]:
    """A gateway that is ready, and receivers on these ports."""
    receivers = [lab.Receiver(port) for port in ports]
    gateway = lab.Gateway(*words, **more)
    try:
        wanted(gateway.wait_until_ready(), f"the gateway isn't ready: {gateway.errors}")
        yield (gateway, *receivers)
    finally:
        gateway.end(signal.SIGKILL) if gateway.process.poll() is None else None
        for one in receivers:
            if one.is_open:
                one.close()


def send_all(*links: list[Record]) -> None:
    senders = [lab.Sender(one) for one in links]
    for one in senders:
        one.wait()


def ended_well(gateway: Gateway, number: int = signal.SIGTERM) -> None:
    same(gateway.end(number), 0, "status")
    wanted(not gateway.parts(), "parts are left")


def files_of(folder: str) -> bytes:
    """The lane's files, one after another."""
    names = [name for name in os.listdir(folder) if name.endswith(".ts")]
    found = b""
    for name in sorted(
        names,
        key=lambda name: (
            name[:-3].split("-")[1],
            int((name[:-3].split("-") + [1])[2]),
        ),
    ):
        with open(os.path.join(folder, name), "rb") as file:
            found += file.read()
    return found


class Skipped(Exception):
    """A case that can't be tried here."""
