"""Compares the built program with its peers.

A capture that `tocap` wrote is read by tshark: each datagram with its time, ports, size
and bytes, right checksums, and no complaint. A capture that tcpdump took on loopback,
while datagrams were sent to three ports, becomes a trace of just these datagrams by
`fromcap`. Of three streams (whole, with packets cut out, with packets doubled)
`monitor` tells as many faults as FFmpeg's own check where their rules are the same;
FFmpeg's takes no repeated packet, so each doubled one is a fault there.

What FFmpeg and GStreamer send, recorded on loopback, `survey` tells as tshark's
statistics of RTP streams do: whole, with frames left out, with some in another order,
and with some doubled. Expected, lost and the longest silence are the same, but that
tshark counts each datagram that comes twice as one more that was received (so does RFC
3550, A.3): its `Lost` is ours less the duplicates. The greatest jitter is the same
within JITTER_BELOW and JITTER_ABOVE.

It needs tshark, tcpdump (with the right to record on loopback), ffmpeg and GStreamer
with its good and bad plugins, as Debian's packages have them, and leaves out what has
no peer here, with a line. The last line is 'N passed, M failed, K skipped'.
"""

import argparse
import contextlib
import os
import random
import shutil
import socket
import struct
import subprocess
import sys
import tempfile
import time
from collections.abc import Callable, Iterator, Sequence
from pathlib import Path

from fgate import make_trace

from .program_runner import add_program, error_of
from .runs import records_of


PORTS = (5000, 5002, 5004)
PACKET = 188
# A frame with its time in microseconds.
Frame = tuple[int, bytes]
# By how many microseconds the greatest jitter may be below or above tshark's, which
# rounds nothing until it prints. A tick is a 90,000th of a second. Ours takes times in
# whole ticks, so a difference of transits is off by less than 1; and each step rounds
# by at most half a tick. A step keeps 15 of 16 parts of what was off before and adds a
# 16th of these 1.5, so what is off stays below 1.5 ticks. Then it is told in whole
# ticks and in whole microseconds, both rounded down, and tshark prints thousandths of a
# millisecond.
TICK = 100 / 9
JITTER_BELOW, JITTER_ABOVE = 2.5 * TICK + 1.5, 1.5 * TICK + 0.5


class Peers:
    """The program, beside its peers, in a folder."""

    def __init__(self, program: str, folder: str) -> None:
        self.program, self.folder = program, folder

    def path(self, name: str) -> str:
        return os.path.join(self.folder, name)

    def fgate(self, *words: str, given: bytes = b"") -> bytes:
        """What the program writes for these words. It has to end well."""
        ended = subprocess.run(
            [self.program, *words], input=given, capture_output=True, check=False
        )
        if ended.returncode:
            said = ended.stderr.decode().strip()
            raise AssertionError(f"{words[0]} ended with {ended.returncode}: {said}")
        return ended.stdout


def made_link(peers: Peers) -> bytes:
    """A trace of which one record in a hundred is lost."""
    trace = peers.path("link.trace")
    with contextlib.redirect_stdout(None):
        make_trace.main([trace, peers.path("link.ts"), "--loss", "1"])
    return Path(trace).read_bytes()


def output_of(*command: str) -> str:
    """What a peer writes. It has to end well."""
    return subprocess.run(command, capture_output=True, check=True, text=True).stdout


def capture_is_read(peers: Peers) -> bool:
    """tshark reads what `tocap` writes."""
    trace = made_link(peers)
    path = peers.path("link.pcap")
    Path(path).write_bytes(peers.fgate("tocap", given=trace))
    fields = (
        "frame.time_epoch",
        "udp.srcport",
        "udp.dstport",
        "udp.length",
        "ip.checksum.status",
        "udp.payload",
    )
    tshark = ["tshark", "-r", path, "-o", "ip.check_checksum:TRUE"]
    named = [word for name in fields for word in ("-e", name)]
    told = output_of(*tshark, "-T", "fields", *named)
    faulty = "_ws.malformed || _ws.expert.severity >= 0x600000"
    complained = output_of(*tshark, "-Y", faulty)
    seen = []
    for line in told.splitlines():
        moment, source, target, length, status, payload = line.split("\t")
        seconds, _, fraction = moment.partition(".")
        seen.append(
            (
                int(seconds) * 10**6 + int(fraction[:6]),
                int(source),
                int(target),
                int(length) - 8,
                status,
                bytes.fromhex(payload),
            )
        )
    wanted = [
        (at, port, port, len(datagram), "1", datagram)
        for at, port, datagram in records_of(trace)
    ]
    return seen == wanted and not complained


@contextlib.contextmanager
def recorded(path: str) -> Iterator[None]:
    """Lets tcpdump record what is sent to the ports meanwhile."""
    recorder = subprocess.Popen(
        [
            "tcpdump",
            "-i",
            "lo",
            "-s",
            "0",
            "-U",
            "-w",
            path,
            "--immediate-mode",
            "-B",
            "65536",
            "udp and dst portrange 5000-5004",
        ],
        stderr=subprocess.PIPE,
        text=True,
    )
    listeners = [socket.socket(socket.AF_INET, socket.SOCK_DGRAM) for _ in PORTS]
    try:
        for listener, port in zip(listeners, PORTS):
            listener.bind(("127.0.0.1", port))
        error_of(recorder).readline()
        yield
        time.sleep(1)
    finally:
        recorder.terminate()
        recorder.wait()
        for listener in listeners:
            listener.close()


def recording_is_taken(peers: Peers) -> bool:
    """`fromcap` reads what tcpdump takes."""
    path = peers.path("loopback.pcap")
    sent = [
        (PORTS[number % 3], os.urandom(1 + number * 37 % 1400)) for number in range(500)
    ]
    with recorded(path), socket.socket(socket.AF_INET, socket.SOCK_DGRAM) as sender:
        for port, datagram in sent:
            sender.sendto(datagram, ("127.0.0.1", port))
            time.sleep(0.0005)
    taken = records_of(peers.fgate("fromcap", given=Path(path).read_bytes()))
    rises = all(first[0] <= second[0] for first, second in zip(taken, taken[1:]))
    return [(port, datagram) for _, port, datagram in taken] == sent and rises


def made_stream(count: int) -> list[bytes]:
    # A payload that says that it begins a unit: FFmpeg looks at no PID before it has
    # seen one.
    return [
        b"\x47\x41\x00"
        + bytes([0x10 + number % 16])
        + bytes([number % 251]) * (PACKET - 4)
        for number in range(count)
    ]


def faults(peers: Peers, stream: list[bytes]) -> int:
    """The number of faults that `monitor` tells of a stream."""
    return int(peers.fgate("monitor", given=b"".join(stream)).split()[-1])


def complaints(peers: Peers, stream: list[bytes]) -> float:
    """And of those that FFmpeg logs."""
    path = peers.path("stream.ts")
    Path(path).write_bytes(b"".join(stream))
    told = subprocess.run(
        ["ffprobe", "-v", "debug", "-f", "mpegts", "-show_packets", path],
        capture_output=True,
        text=True,
        errors="replace",
        check=False,
    )
    # It reads so short a stream twice, to find out what is in it, and tells each break
    # both times.
    return told.stderr.count("Continuity check failed") / 2


def faults_are_ffmpegs(peers: Peers) -> bool:
    """`monitor` and FFmpeg find as many breaks, but for repeats."""
    whole = made_stream(700)
    cut = whole[:100] + whole[105:300] + whole[301:500] + whole[516:]
    doubled = [
        packet
        for number, packet in enumerate(whole)
        for _ in range(2 if number % 100 == 50 else 1)
    ]
    ours = [faults(peers, stream) for stream in (whole, cut, doubled)]
    theirs = [complaints(peers, stream) for stream in (whole, cut, doubled)]
    return ours == [0, 2, 0] and theirs == [0, 2, 7]


# What sends a stream for some seconds, with parity.
SENDERS = {
    "FFmpeg": "ffmpeg -v error -re -i {} -c copy -f rtp_mpegts "
    "-fec prompeg=l=8:d=5 rtp://127.0.0.1:5000",
    "GStreamer": "gst-launch-1.0 -q filesrc location={} "
    "! tsparse set-timestamps=true alignment=7 ! rtpmp2tpay ssrc=0 "
    "! rtpst2022-1-fecenc name=fec columns=5 rows=5 "
    "fec.src ! udpsink host=127.0.0.1 port=5000 "
    "fec.fec_0 ! udpsink host=127.0.0.1 port=5002 async=false "
    "fec.fec_1 ! udpsink host=127.0.0.1 port=5004 async=false",
}


def frames_of(path: str) -> tuple[bytes, list[Frame]]:
    """The header of a capture that tcpdump wrote, and its frames, each with its time in
    microseconds.
    """
    capture = Path(path).read_bytes()
    frames: list[Frame] = []
    place = 24
    while place < len(capture):
        seconds, fraction, size, _ = struct.unpack_from("=IIII", capture, place)
        frames.append(
            (seconds * 10**6 + fraction, capture[place + 16 : place + 16 + size])
        )
        place += 16 + size
    return capture[:24], frames


def write_frames(path: str, header: bytes, frames: list[Frame]) -> None:
    with open(path, "wb") as file:
        file.write(header)
        for at, frame in frames:
            file.write(
                struct.pack(
                    "=IIII", at // 10**6, at % 10**6, len(frame), len(frame)
                )
                + frame
            )


def variants(frames: list[Frame]) -> dict[str, list[Frame]]:
    """The frames, and what may become of them on a link: lost, one by one and in a
    burst; in another order, at the same times; or doubled.
    """
    draw = random.Random(1)
    swapped = [frame for _, frame in frames]
    for place in range(50, len(frames) - 5, 40):
        swapped[place], swapped[place + 3] = swapped[place + 3], swapped[place]
    return {
        "whole": frames,
        "thinned": [
            frame
            for number, frame in enumerate(frames)
            if not (draw.random() < 0.03 or 100 <= number < 130)
        ],
        "swapped": [(at, frame) for (at, _), frame in zip(frames, swapped)],
        "doubled": [
            frame
            for number, frame in enumerate(frames)
            for _ in range(2 if number % 50 == 10 else 1)
        ],
    }


def surveyed(peers: Peers, path: str) -> dict[str, int]:
    """What `survey` tells of the stream on the first port of a capture, by name."""
    trace = peers.fgate("fromcap", given=Path(path).read_bytes())
    told: dict[str, int] = {}
    for line in peers.fgate("survey", given=trace).decode().splitlines():
        kind, *words = line.split()
        if kind in ("stream", "jitter") and words[0] == str(PORTS[0]):
            told.update(zip(words[1::2], map(int, words[2::2])))
    return told


def told_by_tshark(path: str) -> tuple[int, int, float, float]:
    """What tshark tells of that stream: packets, lost, and the greatest difference of
    times and jitter in milliseconds.
    """
    rtp = ["-d", f"udp.port=={PORTS[0]},rtp", "-z", "rtp,streams"]
    told = output_of("tshark", "-q", *rtp, "-r", path)
    (line,) = [line for line in told.splitlines() if f" {PORTS[0]} 0x" in line]
    packets, lost, _, _, _, longest, _, _, jitter = (
        line.split(" 0x")[1].split("streams")[1].split()[:9]
    )
    return int(packets), int(lost), float(longest), float(jitter)


def survey_is_tsharks(peers: Peers, name: str) -> bool:
    """`survey` tells of what a peer sends what tshark does."""
    stream, path = peers.path("sent.ts"), peers.path("sent.pcap")
    subprocess.run(
        [
            "ffmpeg",
            "-v",
            "error",
            "-f",
            "lavfi",
            "-i",
            "testsrc=size=640x360:rate=25",
            "-t",
            "6",
            "-c:v",
            "mpeg2video",
            "-b:v",
            "2M",
            "-muxrate",
            "3M",
            "-f",
            "mpegts",
            stream,
        ],
        check=True,
    )
    with recorded(path):
        subprocess.run(
            [word.format(stream) for word in SENDERS[name].split()],
            check=True,
            timeout=60,
        )
    header, frames = frames_of(path)
    is_same = True
    for kind, left in variants(frames).items():
        varied = peers.path(kind + ".pcap")
        write_frames(varied, header, left)
        ours = surveyed(peers, varied)
        packets, lost, longest, jitter = told_by_tshark(varied)
        print(
            f"  {name}, {kind}: expected {ours['expected']}, lost {ours['lost']}, "
            f"duplicate {ours['duplicate']}, silence {ours['silence']}, jitter "
            f"{ours['most']} at most; tshark {packets} packets, lost {lost}, "
            f"{longest} and {jitter} ms"
        )
        is_same &= (
            ours["expected"] == packets + lost
            and ours["lost"] == lost + ours["duplicate"]
            and ours["late"] == 0
            and ours["silence"] == round(longest * 1000)
            and -JITTER_BELOW <= ours["most"] - jitter * 1000 <= JITTER_ABOVE
        )
    return is_same and len(frames) > 300


def ffmpegs_stream_is_surveyed(peers: Peers) -> bool:
    return survey_is_tsharks(peers, "FFmpeg")


def gstreamers_stream_is_surveyed(peers: Peers) -> bool:
    return survey_is_tsharks(peers, "GStreamer")


Check = Callable[[Peers], bool]
# Each check, and the peers that it needs.
CHECKS: list[tuple[Check, list[str]]] = [
    (capture_is_read, ["tshark"]),
    (recording_is_taken, ["tcpdump"]),
    (faults_are_ffmpegs, ["ffprobe"]),
    (ffmpegs_stream_is_surveyed, ["ffmpeg", "tcpdump", "tshark"]),
    (gstreamers_stream_is_surveyed, ["gst-launch-1.0", "ffmpeg", "tcpdump", "tshark"]),
]


def try_check(check: Check, program: str) -> bool:
    """Tells whether a check is right."""
    with tempfile.TemporaryDirectory() as folder:
        try:
            is_right = check(Peers(program, folder))
        except (
            AssertionError,
            OSError,
            subprocess.CalledProcessError,
            ValueError,
        ) as fault:
            print(f"{check.__name__}: {fault}")
            is_right = False
    print(f"{check.__name__}: {'ok' if is_right else 'WRONG'}", flush=True)
    return is_right


def main(arguments: Sequence[str]) -> int:
    words = argparse.ArgumentParser(
        prog="with_peers",
        description=__doc__,
        formatter_class=argparse.RawDescriptionHelpFormatter,
    )
    add_program(words)
    asked = words.parse_args(arguments)
    program = os.path.abspath(asked.program)
    if not os.access(program, os.X_OK):
        print(f"with_peers: there is no {program}", file=sys.stderr)
        return 1
    passed = failed = skipped = 0
    for check, needs in CHECKS:
        missing = [peer for peer in needs if not shutil.which(peer)]
        if missing:
            print(f"{check.__name__}: skipped, since there is no {missing[0]}")
            skipped += 1
        elif try_check(check, program):
            passed += 1
        else:
            failed += 1
    print(f"{passed} passed, {failed} failed, {skipped} skipped")
    return 1 if failed else 0
