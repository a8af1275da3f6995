"""What a report says, and the examples that are begun: the words and the input of each,
and what comes of them.
"""

from collections.abc import Iterable, Mapping
from typing import Any, NamedTuple

from .worked_traces import Sent, stream, trace


# How often each reply was given.
Counts = Mapping[str, int]
NONE: Counts = {}


class Example(NamedTuple):
    """The words and the input, standard output, the lanes by port (None where a
    sample's lane is told by its length alone), the status and the fault line.
    """

    words: str
    given: bytes
    out: bytes
    lanes: dict[int, bytes] | None
    status: int
    told: bytes


def counts(
    admitted: int = 0,
    duplicate: int = 0,
    conflict: int = 0,
    late: int = 0,
    bad: int = 0,
) -> str:
    return (
        f"admitted {admitted} duplicate {duplicate} conflict {conflict} late {late} "
        f"bad {bad}"
    )


def parities(
    admitted: int = 0,
    duplicate: int = 0,
    conflict: int = 0,
    late: int = 0,
    notstarted: int = 0,
    beforestart: int = 0,
    ahead: int = 0,
    crowded: int = 0,
    bad: int = 0,
) -> str:
    return (
        f"admitted {admitted} duplicate {duplicate} conflict {conflict} late {late} "
        f"notstarted {notstarted} beforestart {beforestart} ahead {ahead} "
        f"crowded {crowded} bad {bad}"
    )


def flow(
    shown: int,
    windows: int,
    port: int = 5000,
    repaired: int = 0,
    missing: int = 0,
    inconsistent: int = 0,
    media: Counts = NONE,
    column: Counts = NONE,
    row: Counts = NONE,
) -> str:
    """The lines of a flow, of which all that is shown was admitted but for what is
    repaired.
    """
    admitted = {"admitted": shown - repaired}
    return (
        f"flow {port} shown {shown} repaired {repaired} missing {missing} "
        f"windows {windows} inconsistent {inconsistent}\n"
        f"media {port} {counts(**{**admitted, **media})}\n"
        f"column {port} {parities(**column)}\n"
        f"row {port} {parities(**row)}\n"
    )


def report(*flows: str, more: str = "", other: int = 0, tail: str = "") -> str:
    return "".join(flows) + more + f"other {other}\n" + tail


BEGUN: dict[str, Example] = {}


def example(
    name: str,
    words: str,
    given: bytes,
    out: str | bytes = "",
    lanes: dict[int, bytes] | None = None,
    status: int = 0,
    told: str = "",
) -> None:
    """What comes of the words over these bytes: the text or bytes on standard output,
    the lanes by port, and the fault line.
    """
    assert name not in BEGUN, name
    text = out if isinstance(out, bytes) else out.encode()
    BEGUN[name] = Example(words, given, text, lanes or {}, status, told.encode())


def repairs(
    name: str,
    sent: list[Sent] | bytes,
    out: str,
    lane: Iterable[int],
    words: str = "",
    **more: Any,
) -> None:
    given = sent if isinstance(sent, bytes) else trace(sent)
    example(
        name,
        f"repair flow=5000 {words}".strip(),
        given,
        out,
        {5000: stream(lane)},
        **more,
    )
