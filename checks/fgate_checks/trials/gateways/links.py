"""What comes over a link: loss, bursts, disorder, restarts, silence and clocks."""

import time
from typing import Any

from . import link_lab as lab
from .common import (
    FLOW,
    MATRIX,
    OTHER,
    OTHER_OUT,
    OUT,
    RATE,
    SHAPE,
    are_whole_datagrams,
    case,
    ended_well,
    running,
    same,
    same_stream,
    send_all,
    stream_of,
    to,
    wanted,
    without_one_of,
)
from .link_lab import Record


def passes(records: list[Record], stream: bytes, **counts: Any) -> None:
    """Sends the records through a gateway: the stream has to come out, and the report
    to have these counts of its media.
    """
    with running(*to()) as (gateway, receiver):
        send_all(records)
        time.sleep(1)
        ended_well(gateway)
        same_stream(receiver.close(), stream, "the stream")
        are_whole_datagrams(receiver.payloads)
        report = gateway.reports(FLOW)[0]
        same(report["missing"], 0, "missing")
        for name, number in counts.items():
            same(
                report[name] if name in report else report["media"][name], number, name
            )
        for kind in ("media", "column", "row"):
            same(report[kind]["bad"], 0, f"bad of {kind}")
        told = gateway.counts(FLOW)
        same(
            (told["dropped"], told["lost"], told["unfed"], told["restarts"]),
            (0, 0, 0, 0),
            "what was lost",
        )
        same(told["in"] + told["parity"], len(records), "what came")
        same(told["out"], len(stream), "bytes out")


@case("gst-launch-1.0")
def loss() -> None:
    """One datagram in 31 is lost."""
    stream, records = stream_of(5)
    kept = without_one_of(records, 31)
    passes(
        kept,
        stream,
        repaired=sum(one.port == FLOW for one in records)
        - sum(one.port == FLOW for one in kept),
    )


@case("gst-launch-1.0")
def bursts() -> None:
    """Five media datagrams in succession are lost, each five matrices."""
    stream, records = stream_of(5)
    media = [number for number, one in enumerate(records) if one.port == FLOW]
    lost = {
        media[at + more] for at in range(7, len(media) - 75, 125) for more in range(5)
    }
    passes(
        [one for number, one in enumerate(records) if number not in lost],
        stream,
        repaired=len(lost),
    )


@case("gst-launch-1.0")
def reordering() -> None:
    """Of each seven datagrams one comes eight later."""
    stream, records = stream_of(5)
    keys = {
        number: number + (8.5 if number % 7 == 3 else 0)
        for number in range(len(records))
    }
    order = sorted(keys, key=lambda number: keys[number])
    passes(
        [
            records[number]._replace(at=records[at].at)
            for at, number in enumerate(order)
        ],
        stream,
        repaired=0,
    )


@case("gst-launch-1.0")
def doubled_path() -> None:
    """All comes twice, the second time 20 milliseconds later, each time with losses."""
    stream, records = stream_of(5)
    first = [
        one
        for number, one in enumerate(records)
        if number % 9 != 4 or number > len(records) - MATRIX
    ]
    second = [
        one._replace(at=one.at + 0.02)
        for number, one in enumerate(records)
        if number % 10 != 7
    ]
    both = sorted(first + second, key=lambda one: one.at)
    media = sum(one.port == FLOW for one in both)
    passes(
        both,
        stream,
        duplicate=media - len({one.datagram for one in both if one.port == FLOW}),
    )


@case("gst-launch-1.0")
def restart_of_the_sender() -> None:
    """Another sender goes on with other sequence numbers and another clock."""
    stream, records = stream_of(4, ssrc=1)
    after, more = stream_of(
        4, start=70_000, first=len(stream) // lab.PACKET, ssrc=2, seq=40_000
    )
    with running(*to()) as (gateway, receiver):
        send_all(
            without_one_of(records, 31) + lab.later(without_one_of(more, 31), 4.05)
        )
        time.sleep(1)
        ended_well(gateway)
        same_stream(receiver.close(), stream + after, "the stream")
        report = gateway.reports(FLOW)[0]
        same(
            (report["runs"], report["missing"]),
            ({"runs": 2, "foreign": 0}, 0),
            "runs and missing",
        )


@case("gst-launch-1.0")
def silence_and_then_more() -> None:
    """The sender is silent for three seconds. What came before is all out long before
    it speaks again.
    """
    stream, records = stream_of(3)
    after, more = stream_of(
        3, start=6, first=len(stream) // lab.PACKET, seq=len(stream) // lab.PAYLOAD
    )
    with running(*to()) as (gateway, receiver):
        send_all(without_one_of(records, 31))
        time.sleep(1.5)
        gateway.ask()
        same_stream(receiver.stream(), stream, "before it speaks again, the stream")
        told = gateway.counts(FLOW)
        wanted(
            told["silences"] >= 1 and 1 < told["silent"] < 3,
            f"silence is told as {told['silences']}, {told['silent']}",
        )
        time.sleep(1.5)
        send_all(without_one_of(more, 31))
        time.sleep(1)
        ended_well(gateway)
        same_stream(receiver.close(), stream + after, "the stream")
        are_whole_datagrams(receiver.payloads)
        report = gateway.reports(FLOW)[0]
        same(
            (report["missing"], report["row"]["bad"]),
            (0, 0),
            "missing and bad of the row",
        )
        same(gateway.counts(FLOW)["restarts"], 0, "restarts")


@case("gst-launch-1.0")
def one_flow_is_never_sent() -> None:
    """The other flow is none the worse for it."""
    stream, records = stream_of(4)
    with running(*to(), *to(OTHER_OUT, OTHER), ports=(OUT, OTHER_OUT)) as (
        gateway,
        receiver,
        never,
    ):
        send_all(without_one_of(records, 31))
        time.sleep(1)
        ended_well(gateway)
        same_stream(receiver.close(), stream, "the stream")
        same(never.close(), b"", "the stream that was never sent")
        same(
            gateway.reports(OTHER)[0]["shown"],
            0,
            "shown of the flow that was never sent",
        )
        same(gateway.events(), ["ready"], "events")


@case("gst-launch-1.0")
def stream_without_pcr() -> None:
    """It takes `--no-sync`, and comes out whole over UDP, and over RTP too."""
    stream = b"".join(
        b"\x47\x01\x00" + bytes([0x10 + number % 16]) + number.to_bytes(4, "big") * 46
        for number in range(7 * 1000 + 3)
    )
    kept = without_one_of(lab.encoded(stream, FLOW, RATE, **SHAPE), 31)
    for protocol in ("udp", "rtp"):
        with running(
            "--flow",
            str(FLOW),
            "--to",
            f"{protocol}://127.0.0.1:{OUT}",
            "--no-sync",
            ports=(),
        ) as (gateway,):
            receiver = lab.Receiver(OUT, is_rtp=protocol == "rtp")
            send_all(kept)
            time.sleep(1)
            ended_well(gateway)
            same_stream(receiver.close(), stream, f"the stream over {protocol}")
            are_whole_datagrams(receiver.payloads)


def median(values: list[float]) -> float:
    return sorted(values)[len(values) // 2]


def drift(rate: float) -> float:
    """How far the delay moves, in milliseconds, while a stream comes at this rate in
    place of its own.
    """
    stream = lab.made_stream(20, RATE)
    records = lab.encoded(stream, FLOW, int(rate), **SHAPE)
    with running(*to()) as (gateway, receiver):
        sender = lab.Sender(records)
        sender.wait()
        time.sleep(1)
        ended_well(gateway)
        same_stream(receiver.close(), stream)
    sent = [stamp for one, stamp in zip(records, sender.stamps) if one.port == FLOW]
    # The last datagrams may be cut otherwise, by the silence.
    delays = [(came - at) / 1e6 for came, at in zip(receiver.stamps, sent)][:-40]
    quarter = len(delays) // 4
    return median(delays[-quarter:]) - median(delays[:quarter])


@case("gst-launch-1.0")
def clocks_apart() -> None:
    """The sender's clock is half a percent faster than this machine's, and slower: what
    comes out keeps up with it. A busy machine moves delays too, so of three times one
    suffices.
    """
    for rate in (RATE * 1.005, RATE * 0.995):
        moved: list[float] = []
        while len(moved) < 3 and not any(abs(one) < 40 for one in moved):
            moved.append(drift(rate))
        wanted(
            any(abs(one) < 40 for one in moved),
            f"at a rate of {rate:.0f} the delay moved by {moved} milliseconds",
        )
