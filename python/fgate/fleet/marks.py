"""What is whole: files that are renamed into place, and marks of their inputs."""

from __future__ import annotations

import contextlib
import json
import os
import shutil
import socket
import threading
import time
from collections.abc import Iterator
from typing import Any

#: What a mark says, as JSON.
Mark = dict[str, Any]


def unique() -> str:
    """Give a name that nothing else has on any machine."""
    where = f"{socket.gethostname()}-{os.getpid()}-{threading.get_ident()}"
    return f"{where}-{time.monotonic_ns()}"


@contextlib.contextmanager
def folder_beside(path: str) -> Iterator[str]:
    """Have a new folder beside what is to be whole, that is gone at the end."""
    folder = os.path.join(path, f".{unique()}")
    os.mkdir(folder)
    try:
        yield folder
    finally:
        shutil.rmtree(folder, ignore_errors=True)


def write_mark(path: str, what: Any) -> None:
    """Write a mark, so that at each moment it is whole or isn't there."""
    beside = os.path.join(os.path.dirname(path), f".{unique()}")
    try:
        with open(beside, "w", encoding="ascii") as file:
            json.dump(what, file)
        os.rename(beside, path)
    except BaseException:
        with contextlib.suppress(OSError):
            os.unlink(beside)
        raise


def read_mark(path: str) -> Any:
    """Give what a mark says, or None where there is none that is whole."""
    try:
        with open(path, encoding="ascii") as file:
            return json.load(file)
    except (OSError, ValueError):
        return None


def looks_of(path: str) -> list[int] | None:
    """Give size and time of a file, by which it is known to be the same, or None."""
    try:
        found = os.stat(path)
    except OSError:
        return None
    return [found.st_size, found.st_mtime_ns]


def piece_at(work: str, key: str) -> str:
    """Give the path of a piece, which is a cut trace."""
    return os.path.join(work, "pieces", f"{key}.trace")


def size_of_piece(work: str, key: str) -> int | None:
    """Give how many bytes a piece has that is whole, or None."""
    mark = read_mark(os.path.join(work, "pieces", f"{key}.json"))
    looks = looks_of(piece_at(work, key))
    return looks[0] if mark and looks and mark["bytes"] == looks[0] else None


def flow_is_whole(out: str, work: str, flow: int, key: str) -> Mark | None:
    """Give a flow's mark where its lane and report were made from these inputs."""
    mark: Mark | None = read_mark(os.path.join(work, "flows", f"{flow}.json"))
    if (
        mark
        and mark["key"] == key
        and mark["lane"] == looks_of(os.path.join(out, f"{flow}.ts"))
        and mark["report"] == looks_of(os.path.join(out, f"{flow}.report"))
    ):
        return mark
    return None
