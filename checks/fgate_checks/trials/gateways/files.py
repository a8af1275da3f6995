"""Lanes that are files."""

import os
import subprocess
import tempfile
import time

from . import link_lab as lab
from .common import (
    FLOW,
    OTHER,
    RATE,
    SHAPE,
    Skipped,
    case,
    ended_well,
    files_of,
    running,
    same,
    same_stream,
    send_all,
    stream_of,
    wanted,
    without_one_of,
)


@case()
def files_are_cut() -> None:
    """By size and by time, at whole packets."""
    stream, records = stream_of(5)
    for words, least, most in (
        (["--segment-size", "500000"], 6, 8),
        (["--segment-time", "1"], 4, 7),
    ):
        with tempfile.TemporaryDirectory() as folder:
            with running("--lane", folder, *words, "--flow", str(FLOW), ports=()) as (
                gateway,
            ):
                send_all(without_one_of(records, 31))
                time.sleep(0.5)
                ended_well(gateway)
                same_stream(files_of(folder), stream, "the lane")
                sizes = [
                    os.path.getsize(os.path.join(folder, name))
                    for name in os.listdir(folder)
                ]
                wanted(
                    least <= len(sizes) <= most
                    and not any(size % lab.PACKET for size in sizes),
                    f"files of {sizes}",
                )


@case("mount")
def folder_gets_full() -> None:
    """What doesn't fit is dropped and counted, and what comes once there is room is
    written. The other flow is whole.
    """
    stream, records = stream_of(12)
    other = lab.encoded(stream, OTHER, RATE, **SHAPE)
    new = tempfile.TemporaryDirectory
    with new() as folder, new() as roomy:
        if subprocess.run(
            ["mount", "-t", "tmpfs", "-o", "size=2M", "none", folder],
            capture_output=True,
            check=False,
        ).returncode:
            raise Skipped("it may not mount a small file system")
        try:
            words = [
                "--flow",
                str(FLOW),
                "--lane",
                folder,
                "--flow",
                str(OTHER),
                "--lane",
                roomy,
            ]
            with running(*words, "--log", folder, ports=()) as (gateway,):
                senders = [lab.Sender(one) for one in (records, other)]
                time.sleep(7)
                first = files_of(folder)
                gateway.ask()
                wanted(
                    gateway.counts(FLOW)["lost"] > 0,
                    "it isn't told while the folder is full",
                )
                for name in os.listdir(folder):
                    os.unlink(os.path.join(folder, name))
                time.sleep(2.5)
                second = files_of(folder)
                for name in os.listdir(folder):
                    os.unlink(os.path.join(folder, name))
                for one in senders:
                    one.wait()
                time.sleep(0.5)
                ended_well(gateway)
                same_stream(files_of(roomy), stream, "the other flow's lane")
                told = gateway.counts(FLOW)
                same(told["out"] + told["lost"], len(stream), "bytes out and lost")
                wanted(
                    stream.startswith(first) and len(first) > 1_500_000,
                    f"first {len(first)} bytes",
                )
                wanted(second and second[: lab.PAYLOAD] in stream, "what came after")
                wanted(
                    any("No space left" in one for one in gateway.errors),
                    f"it isn't said: {gateway.errors}",
                )
                same(
                    gateway.reports(FLOW)[0]["shown"] * lab.PAYLOAD,
                    len(stream),
                    "bytes shown",
                )
        finally:
            subprocess.run(["umount", folder], check=True)
