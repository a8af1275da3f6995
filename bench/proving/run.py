#!/usr/bin/env python3
"""Measures what it takes to prove the program from nothing, in units of an example of the kit, outside the gate.

run.py [gate]

In one run: the check of the kit's `examples/worked/bikes` with one job, which is the unit; then the first command of README.md on
a copy of the checkout with nothing kept. With `gate`, also the gate on such a copy. Each is told in seconds of the clock and
in seconds of processors, its children's counted in, and as a multiple of the unit: of the mean of one before it and one behind,
which have differed by a third. It wants a machine that does nothing else.
"""
import os
import resource
import shutil
import subprocess
import sys
import tempfile
import time

TOP = os.path.dirname(os.path.dirname(os.path.dirname(os.path.abspath(__file__))))
KIT = os.path.dirname(subprocess.run(["rt", "doc"], capture_output=True, text=True, check=True).stdout.strip())
EXAMPLE = "rattle/examples/worked/bikes"
FIRST = "tools/prove fgate && cd crates/fgate && out/fgate repair flow=5000 < data/four_lost.trace"


def spent(command, folder):
    """The seconds that a command takes in a folder: of the clock, and of processors."""

    def processors():
        used = resource.getrusage(resource.RUSAGE_CHILDREN)
        return used.ru_utime + used.ru_stime

    begun, before = time.monotonic(), processors()
    done = subprocess.run(["bash", "-c", command], cwd=folder, capture_output=True, text=True)
    if done.returncode:
        sys.exit(f"run.py: {command} failed:\n{done.stdout[-2000:]}{done.stderr[-2000:]}")
    return time.monotonic() - begun, processors() - before


def gate():
    """The gate from nothing, with as many proofs at once as `.ci/run` allows. Some kits keep what passed, and are told not to use it."""
    told = subprocess.run(["rt", "help"], capture_output=True, text=True)
    memory = next(int(it.split()[1]) for it in open("/proc/meminfo") if it.startswith("MemAvailable")) // 5_000_000
    lanes = max(1, min(len(os.sched_getaffinity(0)), memory))
    return f"RT_JOBS={lanes} rt ci {'--anew' if '--anew' in told.stdout + told.stderr else ''}"


def unit(room):
    """The unit, from nothing."""
    folder = f"{room}/unit"
    shutil.rmtree(folder, ignore_errors=True)
    shutil.copytree(f"{KIT}/{EXAMPLE}", folder)
    return spent("rt check --jobs 1", folder)


def checkout(room, name):
    subprocess.run(["git", "clone", "-q", TOP, f"{room}/{name}"], check=True)
    return f"{room}/{name}"


def tell(what, clock, processors, of):
    print(
        f"{what}: {clock:.0f} s of the clock, {processors:.0f} s of processors; "
        f"{clock / of[0]:.1f} and {processors / of[1]:.1f} units",
        flush=True,
    )


def main():
    words = sys.argv[1:]
    if words not in ([], ["gate"]):
        sys.exit(__doc__)
    with tempfile.TemporaryDirectory(prefix="proving-") as room:
        print(f"{len(os.sched_getaffinity(0))} processors")
        before = unit(room)
        tell("the unit", *before, before)
        for what, command in [("first command", FIRST), *([("gate", gate())] if words else [])]:
            took = spent(command, checkout(room, what.split()[0]))
            behind = unit(room)
            tell(f"the {what}", *took, [(one + other) / 2 for one, other in zip(before, behind)])
            before = behind


main()
