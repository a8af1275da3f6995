"""What a run left, compared with the model's answer."""

import os

from ..plain_model.commands import answer
from ..plain_model.traces import Answer
from ..program_runner import Ended, Place, command_line
from .cases import Case


MEGABYTE = 2**20


def differences(wanted: Answer, ended: Ended, words: list[bytes]) -> list[str]:
    """What differs, by name."""
    found = []
    if ended.status != wanted.status:
        found.append(
            "hang"
            if ended.status is None
            else f"status {ended.status} for {wanted.status}"
        )
    if ended.err != wanted.line.encode():
        found.append("standard error")
    if wanted.out is None:
        if not ended.out.startswith(b"fgate"):
            found.append("help")
    elif ended.out != wanted.out:
        found.append("standard output")
    found += [
        f"lane {port}"
        for port in sorted({*wanted.lanes, *ended.lanes})
        if wanted.lanes.get(port) != ended.lanes.get(port)
    ]
    if ended.others:
        found.append(f"files {ended.others}")
    flows = sum(word.startswith(b"flow=") for word in words) or 1
    if ended.peak and ended.peak > 2 * (4 + 2 * flows) * MEGABYTE:
        found.append(f"memory {ended.peak // MEGABYTE} MB")
    return found


def keep(folder: str, case: Case, wanted: Answer, ended: Ended, program: str) -> str:
    """Keeps a case, and gives the line that runs it again."""
    os.makedirs(folder, exist_ok=True)
    words, data, _, old = case
    line = command_line(program, words) + " < input"
    files = {
        "input": data,
        "words": (line + "\n").encode(),
        "wanted.out": wanted.out or b"",
        "found.out": ended.out,
        "wanted.err": wanted.line.encode(),
        "found.err": ended.err,
    }
    for name, lanes in (("wanted.", wanted.lanes), ("found.", ended.lanes), ("", old)):
        files.update({f"{name}{port}.ts": lane for port, lane in lanes.items()})
    for name, text in files.items():
        with open(os.path.join(folder, name), "wb") as file:
            file.write(text)
    return f"(cd {folder} && {line})"


def differs(program: str, place: Place, name: str, case: Case) -> bool:
    """Runs a case, and tells and keeps it where it differs."""
    words, data, pieces, old = case
    place.start(program, words, data, old, pieces)
    # The model goes through it while the program runs.
    wanted = answer(words, data)
    wanted = wanted._replace(lanes={**old, **wanted.lanes})
    ended = place.end()
    found = differences(wanted, ended, words)
    if found:
        again = keep(name, case, wanted, ended, program)
        print(f"{name} differs in {', '.join(found)}: {again}", flush=True)
    return bool(found)
