"""What is to be done: where files stand, which flows there are, and their sets."""

import hashlib
import json
import os
from collections.abc import Iterator, Mapping, Sequence
from typing import Any, NamedTuple

MOST_FLOWS = 64  # of one run of the program
# A run takes 2^40 bytes at most. Sets are made by a sample, so three quarters of that
# are planned.
MOST_BYTES = 3 << 38
MOST_PORT = 65531


class Wrong(Exception):
    """The words, or the files that they name, can't be used."""


class Capture(NamedTuple):
    """A capture or trace: its path, the name by which it is told, its size and time."""

    path: str
    name: str
    looks: list[int]


#: A set's flows as `flows`, and as `key` the name of the trace that is cut for them.
Piece = dict[str, Any]


def key_of(*what: Any) -> str:
    """Give a key that differs where anything of this does."""
    return hashlib.sha256(json.dumps(what).encode()).hexdigest()[:32]


def words_in(path: str) -> list[str]:
    """Give the words of a file of flows, without remarks."""
    try:
        with open(path, encoding="utf-8") as file:
            return [word for line in file for word in line.partition("#")[0].split()]
    except OSError as told:
        raise Wrong(f"{path}: {told.strerror or told}") from None
    except ValueError as told:
        raise Wrong(f"{path}: {told}") from None


def read_flows(path: str) -> list[int]:
    """Read the ports in a file: one or more on a line, and `#` before a remark."""
    owners: dict[int, int] = {}
    flows = []
    for word in words_in(path):
        if not word.isdecimal() or not 1 <= int(word) <= MOST_PORT:
            raise Wrong(f"{path}: {word} isn't a port, 1 to {MOST_PORT}")
        flow = int(word)
        for port in (flow, flow + 2, flow + 4):
            if port in owners:
                both = f"flows {owners[port]} and {flow}"
                raise Wrong(f"{path}: {both} have port {port} in common")
        owners.update({flow: flow, flow + 2: flow, flow + 4: flow})
        flows.append(flow)
    if not flows:
        raise Wrong(f"{path}: there is no flow")
    return flows


def files_in(folder: str, name: str) -> Iterator[Capture]:
    """Give the files of a folder by name, without those that begin with a dot."""
    for one in sorted(os.listdir(folder)):
        path = os.path.join(folder, one)
        if not one.startswith(".") and os.path.isfile(path):
            found = os.stat(path)
            looks = [found.st_size, found.st_mtime_ns]
            yield Capture(path, os.path.join(name, one), looks)


def recorders_below(folder: str, name: str) -> Iterator[list[Capture]]:
    """Give the captures of a folder, and then of each folder in it."""
    yield list(files_in(folder, name))
    for one in sorted(os.listdir(folder)):
        path = os.path.join(folder, one)
        if not one.startswith(".") and os.path.isdir(path):
            yield list(files_in(path, os.path.join(name, one)))


def recorders_in(folders: Sequence[str]) -> list[list[Capture]]:
    """Give the captures of each recorder, in order."""
    found: list[list[Capture]] = []
    for number, folder in enumerate(folders):
        try:
            name = f"{number}" if len(folders) > 1 else ""
            found += [one for one in recorders_below(folder, name) if one]
        except OSError as told:
            raise Wrong(f"{told.filename}: {told.strerror}") from None
    if not found:
        raise Wrong(f"there is no capture in {', '.join(folders)}")
    return found


def least_sets(flows: int, total: int) -> int:
    """Give as few sets as a run's limits allow for so many flows, and bytes of all."""
    return max(-(-flows // MOST_FLOWS), -(-total // MOST_BYTES))


def number_of_sets(flows: int, total: int, threads: int) -> int:
    """Give so many sets that all threads have as many.

    There are at most eight for each that there must be, since each costs a pick.
    """
    least = least_sets(flows, total)
    return min(flows, -(-least // threads) * threads, 8 * least)


class Share:
    """A set of flows on its way, and how many records they have."""

    def __init__(self, number: int) -> None:
        self.records, self.flows, self.number = 0, list[int](), number

    def rank(self) -> tuple[int, int, int]:
        """Give what is least for the set that gets the next flow."""
        return self.records, len(self.flows), self.number


def shared_out(
    flows: Sequence[int], records: Mapping[int, int], count: int
) -> list[list[int]]:
    """Share flows out in so many sets of about as many records.

    Each flow, the largest first, goes to the set that has the fewest so far, and of
    such to one with the fewest flows.
    """
    order = {flow: place for place, flow in enumerate(flows)}
    shares = [Share(number) for number in range(count)]
    for flow in sorted(flows, key=lambda one: (-records.get(one, 0), order[one])):
        open_ones = [one for one in shares if len(one.flows) < MOST_FLOWS]
        least = min(open_ones, key=Share.rank)
        least.records += records.get(flow, 0)
        least.flows.append(flow)
    return [sorted(one.flows, key=lambda flow: order[flow]) for one in shares]


def branches_of(sets: Sequence[Piece]) -> list[list[Piece]]:
    """Put sets side by side that one process can pick for first: 64 flows at most."""
    branches: list[list[Piece]] = []
    for one in sets:
        held = (
            sum(len(each["flows"]) for each in branches[-1]) if branches else MOST_FLOWS
        )
        if held + len(one["flows"]) <= MOST_FLOWS:
            branches[-1].append(one)
        else:
            branches.append([one])
    return branches
