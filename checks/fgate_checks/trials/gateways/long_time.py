"""A long time."""

from . import link_lab as lab
from .common import (
    FLOW,
    ended_well,
    running,
    same,
    stream_of,
    to,
    wanted,
    without_one_of,
)
from .link_lab import Record


def long_run(minutes: float) -> None:
    """Memory stays as it is, with loss all along, and each minute is whole."""
    stream, records = stream_of(10)
    count = len(stream) // lab.PAYLOAD
    rounds = max(2, int(minutes * 6))
    with running(*to()) as (gateway, receiver):
        seen = []
        for number in range(rounds):
            again = [
                one._replace(datagram=renumbered(one, FLOW, count * number))
                for one in without_one_of(records, 31)
            ]
            sender = lab.Sender(again)
            sender.wait()
            receiver.payloads.clear()
            receiver.stamps.clear()
            seen.append(lab.memory(gateway.parts() + [gateway.process.pid]))
        ended_well(gateway)
        report = gateway.reports(FLOW)[0]
        same(
            (report["shown"], report["missing"], report["inconsistent"]),
            (count * rounds, 0, 0),
            "shown, missing, inconsistent",
        )
        told = gateway.counts(FLOW)
        same(
            (told["dropped"], told["lost"], told["restarts"]),
            (0, 0, 0),
            "what was lost",
        )
        early, late = max(seen[rounds // 5 : rounds // 2]), max(seen[-rounds // 3 :])
        told_of = f"{early / 1e6:.1f} MB in the first half, {late / 1e6:.1f} at the end"
        print(f"  {minutes} minutes: {told_of}")
        wanted(late < early * 1.03 + 1_000_000, f"memory grew from {early} to {late}")


def renumbered(record: Record, flow: int, by: int) -> bytes:
    """The datagram as one that is sent so many media datagrams later: its sequence
    number, or its parity's base, moved.
    """
    at = 2 if record.port == flow else 12
    number = (int.from_bytes(record.datagram[at : at + 2], "big") + by) % 65536
    return record.datagram[:at] + number.to_bytes(2, "big") + record.datagram[at + 2 :]
