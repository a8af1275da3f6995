"""Dask's distributed engine: a scheduler, or processes of this machine."""

import argparse
import asyncio
import concurrent.futures
import contextlib
import importlib.util
import logging
import queue
from collections.abc import Callable, Iterator, Sequence
from typing import Any

import cloudpickle
import dask
import distributed

from fgate.fleet import joins, marks, pipes, tasks

# Workers have none of this package's files: the tasks' code goes along with them.
for module in (joins, marks, pipes, tasks):
    cloudpickle.register_pickle_by_value(module)

#: Distributed's own client and future, which come without types.
Client = Any
Future = Any
#: A job that ended, what came of it, and what broke it.
Came = tuple[tasks.Job, Any, str | None]

CHATTY = ("distributed", "distributed.client", "tornado.application", "asyncio")
GONE = "the scheduler is gone"
VERSION = str(distributed.__version__)


class Gone(Exception):
    """There is no engine, or no more."""


@contextlib.contextmanager
def client_of(asked: argparse.Namespace) -> Iterator[Client]:
    """Have a client of the scheduler asked for, or of so many processes here."""
    for name in CHATTY:
        logging.getLogger(name).setLevel(logging.CRITICAL)
    dask.config.set({"distributed.comm.timeouts.connect": f"{asked.wait}s"})
    if asked.scheduler:
        with client_at(asked.scheduler, asked.wait) as client:
            yield client
        return
    dask.config.set({"distributed.worker.multiprocessing-method": "forkserver"})
    with distributed.LocalCluster(
        n_workers=asked.local,
        threads_per_worker=1,
        processes=True,
        memory_limit=0,
        dashboard_address=f"127.0.0.1:{asked.page}",
        silence_logs=logging.CRITICAL,
    ) as cluster:
        with distributed.Client(cluster) as client:
            yield client


@contextlib.contextmanager
def client_at(scheduler: str, wait: int) -> Iterator[Client]:
    """Have a client of a scheduler that has a worker, or raise Gone."""
    try:
        client = distributed.Client(scheduler, timeout=wait)
    except (OSError, ValueError) as told:
        raise Gone(f"there is no scheduler at {scheduler}: {told}") from None
    with client:
        try:
            client.wait_for_workers(1, timeout=wait)
        except (OSError, TimeoutError):
            raise Gone(f"the scheduler at {scheduler} has no worker") from None
        yield client


def page_of(client: Client) -> str:
    """Give where to watch: the engine's page, or the plain one without Bokeh."""
    link = str(client.dashboard_link)
    if importlib.util.find_spec("bokeh"):
        return link
    return link.replace("/status", "/info/main/workers.html")


class Tasks:
    """Tasks at work, and what came of them, in the order in which they end."""

    def __init__(
        self, client: Client, run: str, machines: Sequence[str] | None
    ) -> None:
        self.client, self.run, self.machines = client, run, machines
        self.ended: queue.Queue[Future] = queue.Queue()
        self.waiting: dict[str, tuple[Future, tasks.Job]] = {}
        self.bytes: dict[str, int] = {}
        client.subscribe_topic(run, self.hear)

    def hear(self, event: Any) -> None:
        """Take down how many bytes a task has gone through."""
        _, (name, count) = event
        self.bytes[name] = count

    def begin(self, work: Callable[[tasks.Job], Any], job: tasks.Job) -> None:
        """Have a worker do a job."""
        job = {**job, "topic": self.run}
        future = self.client.submit(
            work,
            job,
            key=f"{work.__name__}-{job['name']}-{self.run}",
            pure=False,
            workers=self.machines,
        )
        self.waiting[future.key] = (future, job)
        future.add_done_callback(self.ended.put)

    def next(self, seconds: float) -> Came | None:
        """Give the next job that ended, or None where none does in time."""
        try:
            future = self.ended.get(timeout=seconds)
        except queue.Empty:
            if self.client.status not in ("running", "connecting"):
                raise Gone(GONE) from None
            return None
        try:
            return self.came_of(future)
        except (
            OSError,
            TimeoutError,
            asyncio.TimeoutError,
            concurrent.futures.CancelledError,
        ):
            raise Gone(GONE) from None

    def came_of(self, future: Future) -> Came | None:
        """Give the job of a future that ended, or None where it is done once more."""
        if future.status in ("lost", "pending"):
            # What came of it died with its worker. It is done once more, and finds that
            # all is whole.
            future.add_done_callback(self.ended.put)
            return None
        if future.status == "finished":
            return self.waiting.pop(future.key)[1], future.result(), None
        if future.status == "error":
            job = self.waiting.pop(future.key)[1]
            return job, None, what_broke(future.exception())
        raise Gone(GONE)

    def cancel(self) -> None:
        """Give up what is at work."""
        with contextlib.suppress(Exception):
            futures = [future for future, _ in self.waiting.values()]
            self.client.cancel(futures, force=True)


def what_broke(told: BaseException) -> str:
    """Say what broke a task."""
    if isinstance(told, distributed.scheduler.KilledWorker):
        return "each worker that began it died"
    return f"{type(told).__name__}: {told}"


def look_at_machines(client: Client, job: tasks.Job) -> dict[str, tasks.Came]:
    """Give what each worker has, by its address."""
    found: dict[str, tasks.Came] = client.run(tasks.look, job)
    return found


def threads_of(client: Client) -> int:
    """Give how many threads all workers have."""
    return sum(client.nthreads().values())
