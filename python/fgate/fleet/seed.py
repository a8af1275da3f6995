"""The process that a fleet's own workers come from."""

import contextlib
import multiprocessing
import multiprocessing.forkserver
import multiprocessing.resource_tracker
import os
import signal
from collections.abc import Iterator


def sow() -> None:
    """Start it: it reads in the engine while this one does so too.

    Each worker is then a copy of it. Neither it nor a worker nor what a worker starts
    heeds Ctrl-C, which goes to all of them: they end when this one says so. What the
    engine says in them, as that a worker which has just begun ends, goes nowhere: what
    becomes of a task is told here.
    """
    # The tracker would let the signal through to the thread that starts it, so it comes
    # first.
    multiprocessing.resource_tracker.ensure_running()
    multiprocessing.get_context("forkserver").set_forkserver_preload(["distributed"])
    signal.pthread_sigmask(signal.SIG_BLOCK, {signal.SIGINT})
    try:
        with silenced():
            multiprocessing.forkserver.ensure_running()
    finally:
        signal.pthread_sigmask(signal.SIG_UNBLOCK, {signal.SIGINT})


@contextlib.contextmanager
def silenced() -> Iterator[None]:
    """Have standard error go nowhere, for what is started in the meantime too."""
    errors, nowhere = os.dup(2), os.open(os.devnull, os.O_WRONLY)
    os.dup2(nowhere, 2)
    try:
        yield
    finally:
        os.dup2(errors, 2)
        os.close(errors)
        os.close(nowhere)
