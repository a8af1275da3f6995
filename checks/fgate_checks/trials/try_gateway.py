"""Tries the gateway of gateway/ with the built program on links of this machine.

Each case says what has to come out: streams that are sent with loss, in bursts, out of
order or twice; a sender that restarts, falls silent or never speaks; signals, Ctrl-C,
parts that are killed, a folder that gets full; senders and receivers of GStreamer and
FFmpeg; two network namespaces; what is told; and some minutes in which memory has to
stay as it is. A case needs the packages that it names, and is left out with a line
where one is missing. Datagrams go to addresses of this machine and of the namespaces
that a case makes. The last line is 'N passed, M failed, K skipped'.
"""

import argparse
import importlib.util
import os
import shutil
import subprocess
import sys
from collections.abc import Sequence

from .gateways import ends, files, links, long_time, parts, peers, told
from .gateways.common import CASES, Case, Skipped
from .gateways.link_lab import Trial
from .program_runner import add_program

# Each module names its cases when it is read.
MODULES = (links, ends, parts, files, peers, told)
PACKAGES = {
    "gst-launch-1.0": "gstreamer1.0-tools, gstreamer1.0-plugins-good and -bad",
    "ffmpeg": "ffmpeg",
    "ip": "iproute2",
    "prometheus_client": "python3-prometheus-client",
    "systemd-analyze": "systemd",
    "mount": "mount",
}
FAULTS = (
    *(AssertionError, OSError, KeyError, IndexError, ValueError),
    subprocess.SubprocessError,
)


def is_there(need: str) -> bool:
    if need == "prometheus_client":
        return importlib.util.find_spec(need) is not None
    return shutil.which(need) is not None


def try_case(name: str, run: Case, needs: Sequence[str]) -> bool | None:
    """Whether a case passed, or None where it was left out."""
    missing = [PACKAGES[one] for one in needs if not is_there(one)]
    try:
        if missing:
            raise Skipped(f"it needs {', '.join(missing)}")
        run()
    except Skipped as reason:
        print(f"{name}: skipped, since {reason}", flush=True)
        return None
    except FAULTS as fault:
        kind = "" if isinstance(fault, AssertionError) else type(fault).__name__
        print(f"{name}: WRONG: {kind} {str(fault)[:600]}", flush=True)
        return False
    print(f"{name}: ok", flush=True)
    return True


def main(arguments: Sequence[str]) -> int:
    words = argparse.ArgumentParser(
        prog="try_gateway",
        description=__doc__,
        formatter_class=argparse.RawDescriptionHelpFormatter,
    )
    words.add_argument("names", nargs="*", metavar="NAME", help="these cases alone")
    words.add_argument(
        "--minutes", type=float, default=10, help="how long the long run is; 10"
    )
    add_program(words)
    asked = words.parse_args(arguments)
    Trial.program = os.path.abspath(asked.program)
    if not os.access(Trial.program, os.X_OK):
        print(f"try_gateway: there is no {Trial.program}", file=sys.stderr)
        return 1
    cases = {run.__name__: (run, needs) for run, needs in CASES}
    minutes = asked.minutes
    cases["long_run"] = (lambda: long_time.long_run(minutes), ("gst-launch-1.0",))
    for name in asked.names:
        if name not in cases:
            words.error(f"there is no case {name}; there are {' '.join(cases)}")
    results = [try_case(name, *cases[name]) for name in asked.names or cases]
    passed, failed = results.count(True), results.count(False)
    print(f"{passed} passed, {failed} failed, {results.count(None)} skipped")
    return 1 if failed else 0
