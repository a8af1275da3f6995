#!/usr/bin/env python3
"""What threads could save in a repair, told by a model in C (stages.c) before anything is proved, outside the gate.

run.py [DATAGRAMS] [ROUNDS] [--loops N] [--processor N]

Makes traces of 1, 4 and 64 flows with 3 datagrams in a hundred lost, and runs each arrangement of threads over them, in turns.
Prints the medians as ratios to one thread: of the clock, and of processor time. It wants a machine that does nothing else.
With `--loops`, so many busy loops run beside it; with `--processor`, all runs on that one.
"""
import argparse
import os
import resource
import statistics
import subprocess
import sys
import tempfile
import time

HERE = os.path.dirname(os.path.abspath(__file__))
TOP = os.path.dirname(os.path.dirname(HERE))
ARRANGEMENTS = [("one", 256), ("pw", 256), ("rp", 256), ("rpw", 256), ("rpw", 16), ("lent", 256), ("rppww", 256)]


def records(trace):
    place = 8
    while place < len(trace):
        end = place + 12 + (trace[place + 10] << 8 | trace[place + 11])
        yield trace[place:end]
        place = end


def in_turns(room, flows, datagrams):
    """A trace in which copies of one flow stand record by record in turns."""
    subprocess.run(
        [f"{TOP}/bench/make_trace", "--datagrams", str(datagrams // flows), "--loss", "3", "one.trace", "one.ts"],
        cwd=room, check=True, stdout=subprocess.DEVNULL,
    )
    one = open(f"{room}/one.trace", "rb").read()
    with open(f"{room}/{flows}.trace", "wb") as out:
        out.write(one[:8])
        for record in records(one):
            port = record[8] << 8 | record[9]
            for flow in range(flows):
                out.write(record[:8] + (port + 10 * flow).to_bytes(2, "big") + record[10:])


def spent(words, trace):
    """Seconds of the clock and of processors."""
    processors = lambda: sum(resource.getrusage(resource.RUSAGE_CHILDREN)[:2])
    begun, before = time.monotonic(), processors()
    subprocess.run(words, stdin=open(trace, "rb"), check=True)
    return time.monotonic() - begun, processors() - before


def main():
    words = argparse.ArgumentParser(description=__doc__, formatter_class=argparse.RawDescriptionHelpFormatter)
    words.add_argument("datagrams", nargs="?", type=int, default=200_000)
    words.add_argument("rounds", nargs="?", type=int, default=7)
    words.add_argument("--loops", type=int, default=0)
    words.add_argument("--processor", type=int)
    asked = words.parse_args()
    busy = [subprocess.Popen([sys.executable, "-c", "while True: pass"]) for _ in range(asked.loops)]
    room = tempfile.TemporaryDirectory(dir="/dev/shm" if os.path.isdir("/dev/shm") else None)
    try:
        subprocess.run(
            ["gcc", "-O3", "-march=x86-64-v2", "-pthread", "-o", f"{room.name}/stages", f"{HERE}/stages.c"], check=True
        )
        if asked.processor is not None:
            os.sched_setaffinity(0, {asked.processor})
        for flows in (1, 4, 64):
            in_turns(room.name, flows, asked.datagrams)
            took = {it: [] for it in ARRANGEMENTS}
            for _ in range(asked.rounds):
                for how, batch in ARRANGEMENTS:
                    run = [f"{room.name}/stages", how, str(batch), str(flows), f"{room.name}/out"]
                    took[how, batch].append(spent(run, f"{room.name}/{flows}.trace"))
            median = {it: [statistics.median(one) for one in zip(*found)] for it, found in took.items()}
            base = median["one", 256]
            print(f"{flows} flows, one thread {base[0]:.3f} s")
            for (how, batch), (clock, processors) in median.items():
                print(f"  {how} with {batch} records a batch: {clock / base[0]:.2f}, processors {processors / base[1]:.2f}")
            os.remove(f"{room.name}/{flows}.trace")
    finally:
        for it in busy:
            it.kill()
        room.cleanup()


main()
