"""Parts that leave, hang or are killed."""

import os
import signal
import tempfile
import time

from . import link_lab as lab
from .common import (
    FLOW,
    OTHER,
    OTHER_OUT,
    OUT,
    RATE,
    SHAPE,
    case,
    ended_well,
    files_of,
    running,
    same,
    same_stream,
    send_all,
    stream_of,
    to,
    wanted,
    without_one_of,
)


@case("gst-launch-1.0")
def reader_leaves() -> None:
    """What sends one flow is killed twice. It is started again, what was lost meanwhile
    is counted, and the other flow is whole.
    """
    stream, records = stream_of(10)
    other = lab.encoded(stream, OTHER, RATE, **SHAPE)
    with running(*to(), *to(OTHER_OUT, OTHER), ports=(OUT, OTHER_OUT)) as (
        gateway,
        receiver,
        second,
    ):
        senders = [lab.Sender(without_one_of(one, 31)) for one in (records, other)]
        for _ in range(2):
            time.sleep(2.5)
            os.kill(gateway.parts(f"port={OUT}")[0], signal.SIGKILL)
        for one in senders:
            one.wait()
        time.sleep(1)
        ended_well(gateway)
        same_stream(second.close(), stream, "the other flow's stream")
        out, told = lab.packets_of(lab.without_nulls(receiver.close())), gateway.counts(
            FLOW
        )
        same(told["restarts"], 2, "restarts")
        same(told["out"] + told["lost"], len(stream), "bytes out and lost")
        sent = {packet: number for number, packet in enumerate(lab.packets_of(stream))}
        places = [sent[one] for one in out if one in sent and one[1:3] == b"\x01\x00"]
        wanted(places == sorted(set(places)), "packets out of order")
        wanted(
            len(out) * lab.PACKET > len(stream) * 0.6 and places[-1] > len(sent) - 20,
            f"{len(out)} packets came, to {places[-1]}",
        )
        same(
            sum(
                "the output ended with status 137" in one
                for one in gateway.events(FLOW)
            ),
            2,
            "what was told of it",
        )
        same(
            gateway.reports(FLOW)[0]["shown"] * lab.PAYLOAD, len(stream), "bytes shown"
        )


@case()
def slow_reader() -> None:
    """A command that stops reading: what doesn't fit is dropped and counted, in whole
    packets, and the rest is in order.
    """
    stream, records = stream_of(20)
    with tempfile.TemporaryDirectory() as folder:
        path = os.path.join(folder, "lane")
        words = [
            "--flow",
            str(FLOW),
            "--pipe",
            f"echo $FLOW > {folder}/flow; sleep 18; cat > {path}",
        ]
        with running(*words, ports=()) as (gateway,):
            send_all(records)
            time.sleep(2)
            ended_well(gateway)
            told = gateway.counts(FLOW)
            with open(path, "rb") as file:
                out = file.read()
            same(
                (len(out), len(out) + told["lost"]), (told["out"], len(stream)), "bytes"
            )
            wanted(told["lost"] > 0, "nothing was lost")
            places = {
                packet: number for number, packet in enumerate(lab.packets_of(stream))
            }
            order = [
                places.get(one, -1)
                for one in lab.packets_of(out)
                if one[1:3] == b"\x01\x00"
            ]
            wanted(
                order == sorted(order) and order[0] >= 0,
                "packets that aren't whole or out of order",
            )
            with open(os.path.join(folder, "flow"), encoding="ascii") as file:
                same(file.read(), f"{FLOW}\n", "FLOW")


@case("gst-launch-1.0")
def repair_is_killed() -> None:
    """Another goes on with what comes next, it is told, and the other flow is whole."""
    stream, records = stream_of(8)
    other = lab.encoded(stream, OTHER, RATE, **SHAPE)
    with running(*to(), *to(OTHER_OUT, OTHER), ports=(OUT, OTHER_OUT)) as (
        gateway,
        receiver,
        second,
    ):
        senders = [lab.Sender(one) for one in (records, other)]
        time.sleep(4)
        os.kill(gateway.parts(f"repair flow={FLOW} ")[0], signal.SIGKILL)
        for one in senders:
            one.wait()
        time.sleep(1)
        ended_well(gateway)
        same_stream(second.close(), stream, "the other flow's stream")
        out, told = lab.without_nulls(receiver.close()), gateway.counts(FLOW)
        same((told["restarts"], told["lost"]), (1, 0), "restarts and lost")
        # What the old one held is gone: at most the hold, and what was on its way.
        wanted(
            out[: 1316 * 1000] == stream[: 1316 * 1000]
            and stream.endswith(out[-1316 * 1000 :]),
            "the stream's two parts",
        )
        wanted(
            len(stream) - len(out) < RATE / 8 * 0.6,
            f"{len(stream) - len(out)} bytes are missing",
        )
        wanted(
            any(
                "status 137, and left no report" in one for one in gateway.events(FLOW)
            ),
            f"told: {gateway.events(FLOW)}",
        )


@case("gst-launch-1.0")
def process_of_a_flow_is_killed() -> None:
    """Another goes on, with the counts of the one before."""
    stream, records = stream_of(8)
    with running(*to()) as (gateway, receiver):
        sender = lab.Sender(records)
        time.sleep(4)
        gateway.ask()
        before = gateway.counts(FLOW)
        os.kill(gateway.parts("gateway_parts/flow.py")[0], signal.SIGKILL)
        sender.wait()
        time.sleep(1)
        ended_well(gateway)
        told = gateway.counts(FLOW)
        wanted(
            before["in"] < told["in"] <= len(stream) // lab.PAYLOAD
            and told["restarts"] == 1,
            f"counts {before}, {told}",
        )
        wanted(
            stream.endswith(lab.without_nulls(receiver.close())[-1316 * 100 :]),
            "the stream's end",
        )
        wanted(
            any(
                "its process ended with status 137" in one
                for one in gateway.events(FLOW)
            ),
            "it isn't told",
        )


@case()
def turn_of_repairs() -> None:
    """After `--max` bytes a repair reports and another goes on, and nothing is lost at
    the seam.
    """
    stream, records = stream_of(6)
    with tempfile.TemporaryDirectory() as folder:
        with running(
            "--max",
            "1500000",
            "--flow",
            str(FLOW),
            "--lane",
            folder,
            "--log",
            folder,
            ports=(),
        ) as (gateway,):
            send_all(records)
            time.sleep(1)
            ended_well(gateway)
            same_stream(files_of(folder), stream, "the lane")
            shown = [one["shown"] for one in gateway.reports(FLOW)]
            wanted(
                len(shown) >= 3 and sum(shown) == len(stream) // lab.PAYLOAD,
                f"shown {shown}",
            )
            same(gateway.counts(FLOW)["restarts"], 0, "restarts")
