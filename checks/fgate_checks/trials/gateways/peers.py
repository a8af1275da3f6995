"""Senders and receivers of FFmpeg and GStreamer, and two network namespaces."""

import os
import signal
import socket
import subprocess
import sys
import tempfile
import time
from collections.abc import Callable, Sequence
from typing import Any

from ..program_runner import TOP, output_of
from . import link_lab as lab
from .common import (
    FLOW,
    OUT,
    SHAPE,
    Skipped,
    case,
    ended_well,
    running,
    same,
    same_stream,
    send_all,
    stream_of,
    wanted,
    without_one_of,
)


class Lossy:
    """Hands on what comes to some ports to others, without one datagram in so many, and
    keeps the media's payloads.
    """

    def __init__(
        self, ports: Sequence[int], targets: Sequence[int], apart: int
    ) -> None:
        self.receivers = [lab.Receiver(port) for port in ports]
        self.media: list[bytes] = []
        self.count, self.apart = 0, apart
        self.sockets = [socket.socket(socket.AF_INET, socket.SOCK_DGRAM) for _ in ports]
        for receiver, one, target, is_media in zip(
            self.receivers, self.sockets, targets, (True, False, False)
        ):
            receiver.taker = Handed(self, one, target, is_media)

    def close(self) -> bytes:
        for one in self.receivers:
            one.is_open = False
            one.thread.join()
            one.one.close()
        for sender in self.sockets:
            sender.close()
        return b"".join(datagram[12:] for datagram in self.media)


class Handed:
    """Takes a receiver's datagrams as a list would."""

    def __init__(
        self, lossy: Lossy, one: socket.socket, target: int, is_media: bool
    ) -> None:
        self.lossy, self.one, self.target, self.is_media = lossy, one, target, is_media

    def append(self, datagram: bytes, /) -> None:
        lossy = self.lossy
        if self.is_media:
            lossy.media.append(datagram)
        lossy.count += 1
        if lossy.count % lossy.apart or len(lossy.media) < 10:
            self.one.sendto(datagram, ("127.0.0.1", self.target))


def real_stream(folder: str, seconds: float) -> str:
    """A stream that FFmpeg made."""
    path = os.path.join(folder, "in.ts")
    subprocess.run(
        [
            "ffmpeg",
            "-hide_banner",
            "-loglevel",
            "error",
            "-f",
            "lavfi",
            "-i",
            "testsrc=size=320x240:rate=25",
            "-f",
            "lavfi",
            "-i",
            "sine=frequency=440",
            "-t",
            str(seconds),
            "-c:v",
            "mpeg2video",
            "-b:v",
            "1M",
            "-c:a",
            "mp2",
            "-muxrate",
            "2000000",
            "-f",
            "mpegts",
            path,
        ],
        check=True,
    )
    return path


def sent_by(
    line: list[str], passed_on: Callable[[Any], Any], receiver: Any, is_rtp: bool
) -> tuple[bytes, Any, dict[str, Any]]:
    """What a sender's command sends goes through a lossy link and a gateway, and to the
    receiver.
    """
    words = [
        "--flow",
        str(FLOW),
        "--to",
        f"{'rtp' if is_rtp else 'udp'}://127.0.0.1:{OUT}",
        "--hold",
        "500000",
    ]
    with running(*words, ports=()) as (gateway,):
        link = Lossy((15000, 15002, 15004), (FLOW, FLOW + 2, FLOW + 4), 31)
        try:
            subprocess.run(
                line,
                check=True,
                stdout=subprocess.DEVNULL,
                stderr=subprocess.PIPE,
                timeout=40,
            )
            time.sleep(2.5)
        finally:
            sent = link.close()
        ended_well(gateway)
        report = gateway.reports(FLOW)[0]
    out = passed_on(receiver)
    wanted(report["repaired"] > 10 and report["missing"] <= 2, f"report {report}")
    return sent, out, report


def same_but_for_the_end(out: bytes, sent: bytes, report: dict[str, Any]) -> None:
    """A loss in the last matrix, whose parity isn't sent, can't come back."""
    if report["missing"]:
        out, sent = out[: -60 * lab.PAYLOAD], sent[: len(out) - 60 * lab.PAYLOAD]
    wanted(
        out and out == sent[: len(out)],
        f"{len(out)} bytes of {len(sent)} that were sent, but others",
    )
    wanted(
        len(sent) - len(out) < 60 * lab.PAYLOAD or report["missing"],
        f"{len(out)} bytes of {len(sent)}",
    )


FFMPEG_SENDS = """ffmpeg -hide_banner -loglevel error -re -i {} -c copy
    -f rtp_mpegts -fec prompeg=l=5:d=5 rtp://127.0.0.1:15000"""
GSTREAMER_SENDS = """gst-launch-1.0 -q filesrc location={}
    ! tsparse set-timestamps=true alignment=7 ! rtpmp2tpay ssrc=0
    ! rtpst2022-1-fecenc name=fec columns=5 rows=5
    fec.src ! udpsink host=127.0.0.1 port=15000
    fec.fec_0 ! udpsink host=127.0.0.1 port=15002 async=false
    fec.fec_1 ! udpsink host=127.0.0.1 port=15004 async=false"""
CAPS = "application/x-rtp,media=video,clock-rate=90000,encoding-name=MP2T,payload=33"


@case("gst-launch-1.0", "ffmpeg")
def ffmpeg_sends_and_gstreamer_receives() -> None:
    """Over RTP at both ends."""
    with tempfile.TemporaryDirectory() as folder:
        source, path = real_stream(folder, 8), os.path.join(folder, "out.ts")
        receiver = subprocess.Popen(
            [
                "gst-launch-1.0",
                "-q",
                "-e",
                "udpsrc",
                f"port={OUT}",
                f"caps={CAPS}",
                "!",
                "rtpjitterbuffer",
                "!",
                "rtpmp2tdepay",
                "!",
                "filesink",
                f"location={path}",
            ]
        )

        def received(_: Any) -> Any:
            receiver.send_signal(signal.SIGINT)
            receiver.wait(10)
            with open(path, "rb") as file:
                return lab.without_nulls(file.read())

        try:
            sent, out, report = sent_by(
                FFMPEG_SENDS.format(source).split(), received, receiver, True
            )
        finally:
            receiver.kill()
            receiver.wait()
        same_but_for_the_end(out, lab.without_nulls(sent), report)


@case("gst-launch-1.0", "ffmpeg")
def gstreamer_sends_and_ffmpeg_receives() -> None:
    """Over RTP in, and plain UDP out. FFmpeg has to find the streams and no break."""
    with tempfile.TemporaryDirectory() as folder:
        source, path = real_stream(folder, 8), os.path.join(folder, "out.ts")
        receiver = subprocess.Popen(
            [
                "ffmpeg",
                "-hide_banner",
                "-loglevel",
                "warning",
                "-y",
                "-i",
                f"udp://127.0.0.1:{OUT}?timeout=15000000&fifo_size=100000",
                "-map",
                "0",
                "-c",
                "copy",
                "-t",
                "6",
                "-f",
                "mpegts",
                path,
            ],
            stdin=subprocess.DEVNULL,
            stderr=subprocess.PIPE,
        )

        def received(_: Any) -> Any:
            said = receiver.communicate(timeout=20)[1].decode(errors="replace")
            wanted(
                "Continuity" not in said and "corrupt" not in said,
                f"FFmpeg says: {said[-300:]}",
            )
            told = subprocess.run(
                [
                    "ffprobe",
                    "-v",
                    "error",
                    "-show_entries",
                    "stream=codec_name,nb_read_packets",
                    "-count_packets",
                    "-of",
                    "csv=p=0",
                    path,
                ],
                capture_output=True,
                check=True,
                text=True,
            ).stdout.split()
            return dict(line.split(",")[:2] for line in told)

        try:
            _, out, _ = sent_by(
                GSTREAMER_SENDS.format(source).split(), received, receiver, False
            )
        finally:
            receiver.kill()
            receiver.wait()
        wanted(
            int(out.get("mpeg2video", 0)) > 120 and int(out.get("mp2", 0)) > 150,
            f"FFmpeg received {out}",
        )


@case("gst-launch-1.0", "ffmpeg")
def ffmpeg_takes_the_pipe() -> None:
    """A command of the operator's."""
    with tempfile.TemporaryDirectory() as folder:
        source = real_stream(folder, 6)
        copies = "ffmpeg -hide_banner -loglevel error -y -i - -map 0 -c copy"
        words = ["--flow", str(FLOW), "--pipe", f"{copies} {folder}/$FLOW.mkv"]
        with running(*words, ports=()) as (gateway,):
            with open(source, "rb") as file:
                records = lab.encoded(file.read(), FLOW, 2_000_000, **SHAPE)
            send_all(without_one_of(records, 31))
            time.sleep(1)
            ended_well(gateway)
        told = subprocess.run(
            [
                "ffprobe",
                "-v",
                "error",
                "-show_entries",
                "stream=codec_name,nb_read_packets",
                "-count_packets",
                "-of",
                "csv=p=0",
                f"{folder}/{FLOW}.mkv",
            ],
            capture_output=True,
            check=True,
            text=True,
        ).stdout.split()
        found = dict(line.split(",")[:2] for line in told)
        wanted(int(found.get("mpeg2video", 0)) >= 148, f"FFmpeg wrote {found}")


@case("ip", "gst-launch-1.0")
def multicast_between_namespaces() -> None:
    """A group is joined on an interface, and another group is sent to on one, over a
    link of two network namespaces.
    """
    names = [f"fgate-{os.getpid()}-{side}" for side in "ab"]
    inside = [["ip", "netns", "exec", name] for name in names]
    stream, records = stream_of(4)
    try:
        for name in names:
            if subprocess.run(
                ["ip", "netns", "add", name], capture_output=True, check=False
            ).returncode:
                raise Skipped("it may not make network namespaces")
        subprocess.run(
            [
                "ip",
                "link",
                "add",
                "left",
                "netns",
                names[0],
                "type",
                "veth",
                "peer",
                "name",
                "right",
                "netns",
                names[1],
            ],
            check=True,
        )
        for side, (name, link) in enumerate(zip(names, ("left", "right")), 1):
            for words in (
                ["link", "set", "lo", "up"],
                ["link", "set", link, "up"],
                ["addr", "add", f"192.0.2.{side}/24", "dev", link],
            ):
                subprocess.run(["ip", "-n", name, *words], check=True)
        with tempfile.TemporaryDirectory() as folder:
            kept, out = os.path.join(folder, "kept"), os.path.join(folder, "out")
            with open(kept, "wb") as file:
                file.write(lab.trace_of(without_one_of(records, 31)))
            words = [
                "--flow",
                str(FLOW),
                "--group",
                "239.1.1.1",
                "--interface",
                "192.0.2.2",
                "--to",
                f"239.2.2.2:{OUT}",
                "--localaddr",
                "192.0.2.2",
            ]
            listener = subprocess.Popen(
                [
                    *inside[0],
                    sys.executable,
                    "-c",
                    LISTENS,
                    f"{TOP}/checks:{TOP}/python",
                    "239.2.2.2",
                    "192.0.2.1",
                    str(OUT),
                    out,
                ],
                stdin=subprocess.PIPE,
                stdout=subprocess.PIPE,
            )
            output_of(listener).readline()
            gateway = lab.Gateway(*words, under=inside[1])
            try:
                wanted(
                    gateway.wait_until_ready(),
                    f"the gateway isn't ready: {gateway.errors}",
                )
                with open(kept, "rb") as file:
                    subprocess.run(
                        [
                            *inside[0],
                            *lab.command("replay_link"),
                            "--to",
                            "239.1.1.1",
                            "--interface",
                            "192.0.2.1",
                        ],
                        stdin=file,
                        check=True,
                        stderr=subprocess.DEVNULL,
                        env=lab.environment_of_commands(),
                    )
                time.sleep(1)
                same(gateway.end(), 0, "status")
            finally:
                listener.communicate()
            with open(out, "rb") as file:
                same_stream(file.read(), stream, "the stream")
    finally:
        for name in names:
            subprocess.run(
                ["ip", "netns", "del", name], capture_output=True, check=False
            )


LISTENS = """
import sys
sys.path[:0] = sys.argv[1].split(":")
from fgate_checks.trials.gateways.link_lab import Receiver
receiver = Receiver(int(sys.argv[4]), group=sys.argv[2], interface=sys.argv[3])
print("ready", flush=True)
sys.stdin.read()
with open(sys.argv[5], "wb") as file:
    file.write(receiver.close())
"""
