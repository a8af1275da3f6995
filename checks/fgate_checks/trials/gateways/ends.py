"""How a gateway ends."""

import contextlib
import json
import os
import signal
import subprocess
import tempfile
import time

from . import link_lab as lab
from .common import (
    FLOW,
    case,
    ended_well,
    files_of,
    running,
    same,
    same_stream,
    send_all,
    stream_of,
    to,
    wanted,
    without_one_of,
)


def ends_in_mid_stream(number: int, to_group: bool) -> None:
    """A signal while datagrams come: all that came before is out, and the report is
    whole.
    """
    stream, records = stream_of(6)
    with tempfile.TemporaryDirectory() as log:
        with running(*to(), "--log", log, under=["setsid"]) as (gateway, receiver):
            sender = lab.Sender(without_one_of(records, 31))
            time.sleep(3)
            sent = max(
                place
                for place, stamp in enumerate(sender.stamps)
                if stamp and stamp < time.time_ns() - 20_000_000
            )
            if to_group:
                os.killpg(gateway.process.pid, number)
                same(gateway.process.wait(20), 0, "status")
                gateway.end()
            else:
                ended_well(gateway, number)
            sender.wait()
            out = lab.without_nulls(receiver.close())
            at_least = (
                sum(one.port == FLOW for one in without_one_of(records, 31)[:sent])
                * lab.PAYLOAD
            )
            # Datagrams that were lost and whose parity hadn't come yet are gaps of the
            # last matrices.
            report = gateway.reports(FLOW)[0]
            wanted(
                len(out) >= at_least and len(out) == report["shown"] * lab.PAYLOAD,
                f"{len(out)} bytes of at least {at_least}",
            )
            gaps = {
                (one["first"] + more) * lab.PAYLOAD
                for one in report["gaps"]
                for more in range(one["length"])
            }
            length = (report["shown"] + report["missing"]) * lab.PAYLOAD
            shown = b"".join(
                stream[at : at + lab.PAYLOAD]
                for at in range(0, length, lab.PAYLOAD)
                if at not in gaps
            )
            wanted(report["missing"] <= 2, f"{report['missing']} missing")
            same(out, shown, "the stream")
            kept = os.listdir(log)
            wanted(
                len(kept) == 1 and kept[0].startswith(f"{FLOW}-"), f"the log has {kept}"
            )
            with open(os.path.join(log, kept[0]), "rb") as file:
                ended = subprocess.run(
                    lab.command("report_json"),
                    stdin=file,
                    capture_output=True,
                    check=True,
                    env=lab.environment_of_commands(),
                )
            same(json.loads(ended.stdout)["flows"][0], report, "the kept report")


@case("gst-launch-1.0")
def interrupt_in_mid_stream() -> None:
    """SIGINT, to the gateway alone."""
    ends_in_mid_stream(signal.SIGINT, False)


@case("gst-launch-1.0")
def control_c_in_mid_stream() -> None:
    """SIGINT to its process group, as a terminal sends it."""
    ends_in_mid_stream(signal.SIGINT, True)


@case("gst-launch-1.0")
def termination_in_mid_stream() -> None:
    """SIGTERM, as systemd sends it."""
    ends_in_mid_stream(signal.SIGTERM, False)


@case()
def second_signal() -> None:
    """A repair that hangs is waited for after the first signal, and not after the
    second.
    """
    with tempfile.TemporaryDirectory() as folder, running(
        "--flow", str(FLOW), "--lane", folder, ports=()
    ) as (gateway,):
        repair = gateway.parts("repair flow=")
        os.kill(repair[0], signal.SIGSTOP)
        parts = gateway.parts()
        gateway.process.send_signal(signal.SIGTERM)
        time.sleep(1.5)
        wanted(gateway.process.poll() is None, "the first signal didn't wait")
        same(gateway.end(signal.SIGTERM, 5), 128 + signal.SIGTERM, "status")
        time.sleep(0.2)
        wanted(not any(lab.command_line(one) for one in parts), "parts are left")


@case()
def killed_gateway() -> None:
    """Where the gateway itself is killed its parts end by themselves, the lane is
    whole, and the report is on standard error.
    """
    stream, records = stream_of(3)
    words = ["--flow", str(FLOW), "--lane"]
    folders = tempfile.TemporaryDirectory(), tempfile.TemporaryDirectory()
    with contextlib.ExitStack() as stack:
        folder, work = (stack.enter_context(one) for one in folders)
        place = {"RUNTIME_DIRECTORY": work}
        run = running(*words, folder, ports=(), environment=place)
        (gateway,) = stack.enter_context(run)
        send_all(without_one_of(records, 31))
        parts = gateway.parts()
        gateway.process.kill()
        until = time.monotonic() + 10
        while any(lab.command_line(one) for one in parts) and time.monotonic() < until:
            time.sleep(0.1)
        wanted(not any(lab.command_line(one) for one in parts), "parts are left")
        same_stream(files_of(folder), stream, "the lane")
        wanted(
            any(
                one.startswith(f"flow {FLOW} shown {len(stream) // lab.PAYLOAD} ")
                for one in gateway.errors
            ),
            "there is no report",
        )
        same(os.listdir(work), [], "what is left in its folder")
