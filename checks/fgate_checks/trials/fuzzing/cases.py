"""The cases of each command: settings that are fixed, and an input."""

from typing import Any

from ..plain_model.datagrams import PACKET
from ..plain_model.repairs import prove
from ..plain_model.traces import read_trace
from ..plain_model.surveys import media_of
from ..program_runner import Pieces
from .draws import Draw, likely, number_near
from .made_captures import made_capture
from .made_traces import LAST_TIME, limited, made_trace, spliced
from .sent_flows import layout
from .spoiled_words import as_bytes, line_of, spoiled_word
from .streams import made_packets, made_stream
from .surveyed_traces import surveyed_trace


# Settings that are fixed, and an input.
Asked = tuple[dict[str, Any], bytes]
# The words and the input of a case, its pieces where it comes from a pipe, and the
# lanes that are there before.
Case = tuple[list[bytes], bytes, Pieces | None, dict[int, bytes]]


def some_ports(draw: Draw) -> list[int]:
    count = draw.one_of([1, 1, 1, 2, 3])
    ports = [draw.one_of([1, 5000, 65531])]
    while len(ports) < count:
        ports.append(
            draw.one_of([ports[-1] + 6, ports[-1] + 1, 20000 + 10 * len(ports)])
        )
        if ports[-1] > 65531:
            ports[-1] = 100 + 10 * len(ports)
    return ports


def windows(draw: Draw) -> dict[str, int]:
    small = draw.small_windows and likely(draw, 60)
    window = draw.one_of([1, 2, 3, 4] if small else [1, 3, 10, 25, 50, 99, 100])
    return {
        "window": window,
        "depth": max(
            1, min(1000, window + draw.one_of([0, 1, 20, 100, 300, 900] * 9 + [-1]))
        ),
    }


def holds(draw: Draw, spacing: int) -> dict[str, int]:
    """Often none, and else a hold of some records, which come with this spacing of
    their times.
    """
    if not likely(draw, 40):
        return {}
    if likely(draw, 5):
        return {"hold": int(number_near(draw, (1, 3600000000)))}
    return {
        "hold": max(
            1,
            min(
                3600000000,
                draw.one_of([0, 1, 2, 3, 5, 10, 40, 150]) * spacing
                + draw.one_of([-1, 0, 0, 1]),
            ),
        )
    }


def repair_case(draw: Draw) -> Asked:
    ports = some_ports(draw)
    data = made_trace(draw, ports)
    if likely(draw, 12):
        data = spliced(draw, data)
    chosen = {
        **(windows(draw) if likely(draw, 90) else {}),
        **holds(draw, draw.one_of([5, 100, 100, 250, 250, 999])),
    }
    if likely(draw, 3):
        ports += [
            10000 + 6 * number
            for number in range(draw.one_of([5, 5, 5, 5, 61, 62, 64]))
        ]
    return {"flow": ports, **chosen, **limited(draw, data)}, data


def stream_case(draw: Draw) -> Asked:
    asked = layout(draw)
    packets = draw.one_of([1, 3, 7])
    stream = made_stream(
        draw,
        draw.one_of([0, 1, packets, 20 * packets, 130 * packets, 250 * packets + 1]),
    )
    if likely(draw, 20):
        stream = spliced(draw, stream)
    return {**asked, "packets": packets, **limited(draw, stream)}, stream


def drill_case(draw: Draw) -> Asked:
    asked, stream = stream_case(draw)
    asked["drop"] = [
        draw.one_of([1, draw.between(1, 400), 9999999999999])
        for _ in range(draw.one_of([0, 1, 10, 60]))
    ]
    if likely(draw, 2):
        asked["drop"] = [draw.between(1, 400) for _ in range(draw.one_of([1000, 1001]))]
    if likely(draw, 40):
        asked["every"] = draw.one_of([2, 3, 7, 37])
    asked["rate"] = draw.one_of([1, 10**6, 10**7, 10**7, 10**7, 10**10])
    return {
        **asked,
        **windows(draw),
        **holds(draw, asked["packets"] * PACKET * 8 * 10**6 // asked["rate"]),
    }, stream


def trace_case(draw: Draw) -> Asked:
    data = made_trace(draw, [5000, 65531][: draw.between(1, 2)])
    if likely(draw, 30):
        data = spliced(draw, data)
    return limited(draw, data), data


def inspect_case(draw: Draw) -> Asked:
    asked, data = trace_case(draw)
    return {
        "flow": draw.one_of([[5000], [5000, 65531], [5002], [4998], [1, 65531, 5000]]),
        **asked,
    }, data


def survey_case(draw: Draw) -> Asked:
    if likely(draw, 30):
        return trace_case(draw)
    data = surveyed_trace(draw)
    if likely(draw, 20):
        data = spliced(draw, data)
    return limited(draw, data), data


def pick_case(draw: Draw) -> Asked:
    """A trace, and some of the ports, sources and times that it has, or that it has
    not.
    """
    ports = some_ports(draw)
    data = surveyed_trace(draw) if likely(draw, 40) else made_trace(draw, ports)
    records = read_trace(data, len(data))[0] or []
    ports = draw.one_of([ports, [at for _, at, _ in records[:20]] or ports])
    read = [media_of(datagram) for _, _, datagram in records]
    sources = sorted({media[1] for media in read if media is not None})
    times = [time for time, _, _ in records] or [0]

    def some(values: list[int], chance: float) -> list[int]:
        return (
            [draw.one_of(values) for _ in range(draw.one_of([1, 1, 2, 3]))]
            if likely(draw, chance)
            else []
        )

    chosen: dict[str, Any] = {
        "flow": some([*ports, 1, 65531], 50),
        "port": some([*ports, ports[0] + 4, 9, 0, 65535], 30),
        "ssrc": some([*sources, 0, 2**32 - 1], 25),
        "without": some([*sources, 0, 2**32 - 1], 25),
    }
    if likely(draw, 2):
        chosen[draw.one_of(list(chosen))] = list(
            range(5000, 5000 + draw.one_of([16, 17, 64, 65]))
        )
    for name in ("from", "until"):
        if likely(draw, 40):
            chosen[name] = min(LAST_TIME, draw.one_of(times) + draw.one_of([0, 0, 1]))
    if likely(draw, 15):
        data = spliced(draw, data)
    return {**chosen, **limited(draw, data)}, data


def fromcap_case(draw: Draw) -> Asked:
    data = made_capture(draw)
    if likely(draw, 20):
        data = spliced(draw, data)
    return limited(draw, data), data


def monitor_case(draw: Draw) -> Asked:
    data = b"".join(made_packets(draw, draw.one_of([0, 1, 2, 20, 300])))
    if likely(draw, 20):
        data = spliced(draw, data)
    return limited(draw, data), data


def sample_case(draw: Draw) -> Asked:
    return {
        "datagrams": draw.one_of([1, 2, 9, 30, 99, 100, 101, 250]),
        "loss": draw.one_of([0, 3, 20]),
    }, b""


def prove_case(draw: Draw) -> Asked:
    asked, data = repair_case(draw)
    return {**asked, "flow": asked["flow"][:1]}, data


def bent(draw: Draw, text: bytes) -> bytes:
    """The text of cases with one thing changed: a number of a line, a line that is
    doubled, left out or moved, or a byte.
    """
    lines = text.split(b"\n")
    at, what = draw.below(len(lines)), draw.below(8)
    if what < 4:
        words = lines[at].split(b" ")
        place = draw.below(len(words))
        if words[place].isdigit():
            number = int(words[place]) + draw.one_of(
                [-1, 1, 1, 2, 100, 2**32, 2**62, 10**19]
            )
            words[place] = (
                str(max(0, number)).encode()
                if likely(draw, 95)
                else b"0" + words[place]
            )
        lines[at] = draw.one_of([b" ", b" ", b" ", b"  "] * 5 + [b"\t"]).join(words)
    elif what == 4:
        lines.insert(at, lines[draw.below(len(lines))])
    elif what == 5:
        del lines[at]
    elif what == 6:
        lines.insert(draw.below(len(lines)), lines.pop(at))
    else:
        return spliced(draw, text)
    return b"\n".join(lines)


def check_case(draw: Draw) -> Asked:
    """The cases of a trace, or a few that are made up, mostly bent."""
    asked, trace = prove_case(draw)
    records, _ = read_trace(trace, len(trace))
    chosen = {"window": 100, "depth": 400, "hold": 0, **asked}
    text = prove(
        records or [],
        asked["flow"][0],
        chosen["window"],
        max(chosen["depth"], chosen["window"]),
        chosen["hold"],
    ).encode()
    text = text or b"case 1 0 4\nline 0 1 4\nopen 1 2\nend\n"
    ends = [at + 4 for at in range(len(text)) if text.startswith(b"end\n", at)]
    text = text[: draw.one_of(ends[:6])]
    for _ in range(draw.one_of([0, 1, 1, 1, 2])):
        text = bent(draw, text)
    return limited(draw, text), text


def plan_case(draw: Draw) -> Asked:
    return {"burst": draw.between(1, 20), "most": draw.between(1, 100)}, b""


# The cases of each command, and how often it is drawn.
CASES = {
    "repair": (repair_case, 10),
    "encode": (stream_case, 3),
    "drill": (drill_case, 3),
    "inspect": (inspect_case, 2),
    "sample": (sample_case, 1),
    "fromcap": (fromcap_case, 3),
    "tocap": (trace_case, 2),
    "monitor": (monitor_case, 3),
    "prove": (prove_case, 5),
    "check": (check_case, 4),
    "plan": (plan_case, 1),
    "pick": (pick_case, 2),
    "survey": (survey_case, 3),
}


def pieces_of(draw: Draw, data: bytes) -> Pieces:
    """How the data goes into a pipe: in some hundred pieces at most, and in fewer where
    each is waited for.
    """
    waits = likely(draw, 10)
    return Pieces(
        max(
            1,
            len(data) // (60 if waits else 300),
            draw.one_of([100, 1400, 4000, 100_000]),
        ),
        waits,
    )


def old_lanes(draw: Draw, words: list[bytes]) -> dict[int, bytes]:
    """Lanes that an earlier run left, at times: of the first flow that is named, and of
    another.
    """
    if not likely(draw, 15):
        return {}
    named = [
        word[5:]
        for word in words
        if word[:5] in (b"flow=", b"port=") and word[5:].isdigit() and len(word) < 12
    ]
    ports = {int(port) for port in [*named[:1], b"5000"] if not port.startswith(b"0")}
    return {
        port: b"G" + draw.randbytes(draw.one_of([0, 5, 100_000]))
        for port in sorted(ports)
    }


def case_of(seed: int, number: int, only: str | None, small_windows: bool) -> Case:
    """The words and the input of a case, its pieces where it comes from a pipe, and the
    lanes that are there before.
    """
    draw = Draw(seed, number, small_windows)
    command = (
        only or draw.choices(list(CASES), [often for _, often in CASES.values()])[0]
    )
    asked, data = CASES[command][0](draw)
    words = line_of(draw, command, asked)
    for _ in range(draw.one_of([0] * 12 + [1, 2])):
        words = spoiled_word(draw, command, words) if words else words
    line = as_bytes(draw, words)
    return (
        line,
        data,
        pieces_of(draw, data) if likely(draw, 20) else None,
        old_lanes(draw, line),
    )
