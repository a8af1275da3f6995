"""What is told, and what is refused."""

import json
import os
import re
import shutil
import signal
import socket
import subprocess
import sys
import tempfile
import threading
import time
import urllib.request
from typing import Any

from ..program_runner import error_of, output_of
from ..runs import records_of
from . import link_lab as lab
from .common import (
    FLOW,
    OTHER,
    Skipped,
    case,
    ended_well,
    files_of,
    running,
    same,
    same_stream,
    send_all,
    stream_of,
    to,
    wanted,
    without_one_of,
)


@case("prometheus_client")
def metrics() -> None:
    """Prometheus is told what the lines tell."""
    stream, records = stream_of(2)
    with tempfile.TemporaryDirectory() as folder:
        with running(
            "--metrics", "9464", "--flow", str(FLOW), "--lane", folder, ports=()
        ) as (gateway,):
            send_all(records)
            time.sleep(1)
            with urllib.request.urlopen(
                "http://127.0.0.1:9464/metrics", timeout=5
            ) as answer:
                found = dict(
                    re.findall(
                        rf'^(fgate_\w+){{flow="{FLOW}"}} (\S+)$',
                        answer.read().decode(),
                        re.MULTILINE,
                    )
                )
            media = sum(one.port == FLOW for one in records)
            same(
                {
                    name: float(found[name])
                    for name in (
                        "fgate_media_datagrams_total",
                        "fgate_parity_datagrams_total",
                        "fgate_output_bytes_total",
                        "fgate_dropped_datagrams_total",
                    )
                },
                {
                    "fgate_media_datagrams_total": media,
                    "fgate_parity_datagrams_total": len(records) - media,
                    "fgate_output_bytes_total": len(stream),
                    "fgate_dropped_datagrams_total": 0,
                },
                "metrics",
            )
            wanted(float(found["fgate_silent_seconds"]) > 0.5, "silence isn't told")
            ended_well(gateway)


@case()
def lines() -> None:
    """What is told as lines has the names and numbers of the objects, each period and
    at the end, and then the report.
    """
    _, records = stream_of(2)
    with tempfile.TemporaryDirectory() as folder:
        settings = os.path.join(folder, "settings")
        with open(settings, "w", encoding="ascii") as file:
            file.write(
                f"# A link.\n--flow {FLOW}\n--lane '{folder}/a lane'  # with a blank\n"
                "--stats-period 1\n"
            )
        process = subprocess.Popen(
            [
                sys.executable,
                str(lab.GATEWAY / "gateway"),
                "--fgate",
                lab.Trial.program,
                f"@{settings}",
            ],
            stdout=subprocess.PIPE,
            text=True,
        )
        wanted(
            output_of(process).readline().endswith(" gateway: ready\n"),
            "it isn't ready",
        )
        send_all(records)
        time.sleep(1.2)
        process.send_signal(signal.SIGINT)
        told = process.communicate(timeout=20)[0].splitlines()
        same(process.returncode, 0, "status")
        line = re.compile(
            rf"\d{{4}}-\d\d-\d\dT\d\d:\d\d:\d\dZ flow {FLOW} "
            r"in (\d+) parity (\d+) dropped 0 unfed 0 out (\d+) lost 0 restarts 0 "
            r"silences \d+ silent [\d.]+"
        )
        counts = [one for one in map(line.fullmatch, told) if one]
        wanted(len(counts) >= 3, f"told: {told}")
        media = sum(one.port == FLOW for one in records)
        same(
            tuple(map(int, counts[-1].groups())),
            (media, len(records) - media, media * lab.PAYLOAD),
            "the last counts",
        )
        report = [one for one in told if not one.startswith("2")]
        windows = report[0].split()[9]
        columns, rows = (
            sum(one.port == FLOW + kind for one in records) for kind in (2, 4)
        )
        rest = "duplicate 0 conflict 0 late 0 notstarted 0 beforestart 0"
        rest += " ahead 0 crowded 0 bad 0"
        same(
            report,
            [
                f"flow {FLOW} shown {media} repaired 0 missing 0 windows {windows} "
                "inconsistent 0",
                f"media {FLOW} admitted {media} duplicate 0 conflict 0 late 0 bad 0",
                f"column {FLOW} admitted {columns} {rest}",
                f"row {FLOW} admitted {rows} {rest}",
                "other 0",
            ],
            "the report",
        )
        same(len(os.listdir(os.path.join(folder, "a lane"))), 1, "files")


@case()
def nobody_reads_what_is_told() -> None:
    """The flow goes on, and a signal ends it as ever."""
    stream, records = stream_of(6)
    with tempfile.TemporaryDirectory() as folder:
        process = subprocess.Popen(
            [
                sys.executable,
                str(lab.GATEWAY / "gateway"),
                "--fgate",
                lab.Trial.program,
                "--stats-period",
                "0.001",
                "--flow",
                str(FLOW),
                "--lane",
                folder,
            ],
            stdout=subprocess.PIPE,
        )
        time.sleep(1.5)
        send_all(without_one_of(records, 31))
        process.send_signal(signal.SIGTERM)
        same(process.wait(30), 0, "status")
        output_of(process).close()
        same_stream(files_of(folder), stream, "the lane")


def written(found: dict[str, Any]) -> str:
    """The text of a report's object, from the table of docs/FORMATS.md."""
    lines = []
    if "sample" in found:
        lines.append(
            "sample "
            + " ".join(
                f"{name} {found['sample'][name]}"
                for name in ("seed", "datagrams", "records", "lost")
            )
        )
    media = ("admitted", "duplicate", "conflict", "late", "bad")
    parity = media[:4] + ("notstarted", "beforestart", "ahead", "crowded", "bad")
    for flow in found["flows"]:
        port = flow["port"]
        lines.append(
            f"flow {port} "
            + " ".join(
                f"{name} {flow[name]}"
                for name in ("shown", "repaired", "missing", "windows", "inconsistent")
            )
        )
        for kind, names in (("media", media), ("column", parity), ("row", parity)):
            same(sorted(flow[kind]), sorted(names), kind)
            lines.append(
                f"{kind} {port} "
                + " ".join(f"{name} {flow[kind][name]}" for name in names)
            )
        if flow["runs"]:
            lines.append(
                f"runs {port} {flow['runs']['runs']} foreign {flow['runs']['foreign']}"
            )
        lines += [f"gap {port} {gap['first']} {gap['length']}" for gap in flow["gaps"]]
    lines.append(f"other {found['other']}")
    if found["ended"]:
        lines.append(f"{found['ended']['how']} at byte {found['ended']['byte']}")
    return "\n".join(lines) + "\n"


@case()
def report_as_json() -> None:
    """Each field of a report's object is that of the text, for reports with every kind
    of line.
    """
    stream, records = stream_of(2, ssrc=1)
    _, more = stream_of(1, ssrc=2)
    both = [
        one
        for number, one in enumerate(records + more)
        if number % 50 > 8 or not number
    ] + [lab.Record(9, 99, b"x")]
    trace = lab.trace_of(both)
    repair = ["repair", f"flow={OTHER}", f"flow={FLOW}", "workers=0"]
    with tempfile.TemporaryDirectory() as folder:
        for words, data in (
            (repair, trace),
            (repair, trace[:-1]),
            (repair + ["max=99999"], trace),
            (["sample", "seed=1"], b""),
            (["drill", "columns=5", "rows=5", "every=3"], stream),
        ):
            text = subprocess.run(
                [lab.Trial.program, *words],
                input=data,
                cwd=folder,
                capture_output=True,
                check=False,
            ).stdout
            ended = subprocess.run(
                lab.command("report_json"),
                input=text,
                capture_output=True,
                check=True,
                env=lab.environment_of_commands(),
            )
            wanted(b"other" in text, "there is no report")
            same(
                written(json.loads(ended.stdout)),
                text.decode(),
                f"the report of {words[0]}",
            )
    for text in (
        b"",
        b"x\n",
        b"flow 5000 shown 1\n",
        b"other 1 2\n",
        b"other x\n",
        b"media 5000 admitted 1\nother 0\n",
    ):
        same(
            subprocess.run(
                lab.command("report_json"),
                input=text,
                capture_output=True,
                check=False,
                env=lab.environment_of_commands(),
            ).returncode,
            1,
            str(text),
        )


@case()
def words_and_ports() -> None:
    """What can't be read or had is said in one line, with its status."""
    gateway = [
        sys.executable,
        str(lab.GATEWAY / "gateway"),
        "--fgate",
        lab.Trial.program,
    ]
    with tempfile.TemporaryDirectory() as folder, socket.socket(
        socket.AF_INET, socket.SOCK_DGRAM
    ) as taken:
        taken.bind(("0.0.0.0", FLOW + 2))
        lane = ["--lane", folder]
        refused: list[tuple[list[str], int, str]] = [
            ([], 64, "there is no --flow"),
            (["--flow", "0", *lane], 64, "argument --flow"),
            (["--flow", "5000"], 64, "takes one of"),
            (["--flow", "5000", *lane, "--pipe", "cat"], 64, "takes one of"),
            (["--flow", "5000", "--to", "x"], 64, "HOST:PORT"),
            (
                ["--flow", "5000", *lane, "--flow", "5002", *lane],
                64,
                "two flows have port",
            ),
            (["--hold", "0"], 64, "argument --hold"),
            (
                ["--window", "50", "--depth", "20", "--flow", "5000", *lane],
                64,
                "depth is below",
            ),
            (["@/no/file"], 64, "/no/file"),
            (
                ["--flow", str(FLOW), *lane],
                69,
                f"port {FLOW + 2}: Address already in use",
            ),
            (
                [
                    "--group",
                    "239.1.1.1",
                    "--interface",
                    "192.0.2.99",
                    "--flow",
                    "5010",
                    *lane,
                ],
                69,
                "group 239.1.1.1 on interface 192.0.2.99",
            ),
            (["--flow", "5010", "--lane", "/proc/x"], 69, "/proc/x"),
        ]
        for words, status, said in refused:
            ended = subprocess.run(
                [*gateway, *words],
                capture_output=True,
                text=True,
                timeout=20,
                check=False,
            )
            wanted(
                ended.returncode == status
                and said in ended.stderr
                and ended.stderr.count("\n") == 1,
                f"{words}: status {ended.returncode}, {ended.stderr!r}",
            )


@case()
def record_link_records() -> None:
    """The recorder by itself writes what was sent, in order, and ends at a signal."""
    _, records = stream_of(3)
    recorder = subprocess.Popen(
        [sys.executable, str(lab.GATEWAY / "record_link"), "--flow", str(FLOW)],
        stdout=subprocess.PIPE,
        stderr=subprocess.PIPE,
    )
    taken: list[bytes] = []
    out, err = output_of(recorder), error_of(recorder)
    reader = threading.Thread(target=lambda: taken.append(out.read()))
    reader.start()
    time.sleep(0.7)
    send_all(records)
    time.sleep(0.3)
    recorder.send_signal(signal.SIGINT)
    same(recorder.wait(10), 0, "status")
    reader.join()
    out.close()
    same(err.read(), b"", "what it says")
    err.close()
    found = records_of(taken[0])
    same(
        [(port, datagram) for _, port, datagram in found],
        [(one.port, one.datagram) for one in records],
        "the datagrams",
    )
    wanted(all(one[0] <= two[0] for one, two in zip(found, found[1:])), "times go back")


@case("systemd-analyze")
def unit() -> None:
    """systemd finds no fault with the unit."""
    with tempfile.TemporaryDirectory() as folder:
        path = os.path.join(folder, "fgate@try.service")
        with open(lab.GATEWAY / "fgate@.service", encoding="ascii") as file:
            text = file.read()
        with open(path, "w", encoding="ascii") as file:
            file.write(
                re.sub(r"(?m)^ExecStart=\S+", f"ExecStart={lab.GATEWAY}/gateway", text)
            )
        ended = subprocess.run(
            ["systemd-analyze", "verify", "--man=no", path],
            capture_output=True,
            text=True,
            check=False,
        )
        wanted(ended.returncode == 0 and not ended.stderr, ended.stderr)


RESTRICTED = """
import ctypes, os, struct, sys
libc = ctypes.CDLL(None, use_errno=True)
memory_deny_write_execute, no_new_privileges = (65, 1, 0, 0, 0), (38, 1, 0, 0, 0)
seccomp = (22, 2)
# A call of socket (41 on x86-64) with a family that is neither AF_UNIX nor AF_INET
# fails.
rules = b"".join(struct.pack("<HBBI", code, yes, no, value)
                 for code, value, yes, no in (
    (0x20, 0, 0, 0), (0x15, 41, 0, 4), (0x20, 16, 0, 0), (0x15, 1, 2, 0),
    (0x15, 2, 1, 0), (0x06, 0x50061, 0, 0), (0x06, 0x7fff0000, 0, 0)))
kept = ctypes.create_string_buffer(rules)
head = struct.pack("HxxxxxxP", len(rules) // 8, ctypes.addressof(kept))
program = ctypes.create_string_buffer(head)
os.setgroups([])
os.setgid(65534)
os.setuid(65534)
os.environ["HOME"] = "/nonexistent"
if (libc.prctl(*memory_deny_write_execute) or libc.prctl(*no_new_privileges)
        or libc.prctl(*seccomp, program)):
    sys.exit("restricted: " + os.strerror(ctypes.get_errno()))
os.execvp(sys.argv[1], sys.argv[1:])
"""


@case("gst-launch-1.0")
def with_few_rights() -> None:
    """Under what the unit restricts: another user without privileges, no new ones, no
    other address families, no memory that is written and run.
    """
    if (
        os.geteuid()
        or os.uname().machine != "x86_64"
        or not sys.executable.startswith("/usr/")
    ):
        raise Skipped("it takes the system's Python, and the rights to give up")
    stream, records = stream_of(3)
    with tempfile.TemporaryDirectory() as folder:
        program = shutil.copy(lab.Trial.program, folder)
        os.chmod(folder, 0o755)
        with running(
            *to(), "--fgate", program, under=[sys.executable, "-c", RESTRICTED]
        ) as (gateway, receiver):
            send_all(without_one_of(records, 31))
            time.sleep(1)
            ended_well(gateway)
            same_stream(receiver.close(), stream, "the stream")
            same(
                (gateway.errors, gateway.counts(FLOW)["restarts"]),
                ([], 0),
                "what it says, and restarts",
            )
