"""What goes through a fleet's pipes, and the marks of what is whole."""

import io
import os
import threading
from collections.abc import Callable
from io import RawIOBase
from pathlib import Path
from typing import IO

import pytest

from fgate import traces
from fgate.fleet import joins, marks, pipes
from tests import links

WAYS: list[Callable[..., pipes.Way]] = [pipes.Copier, pipes.Sharer]


def through_pipe(write: Callable[[IO[bytes]], None]) -> bytes:
    """Give what is written into a pipe."""
    out, into = os.pipe()
    found = []

    def take() -> None:
        with open(out, "rb") as file:
            found.append(file.read())

    reader = threading.Thread(target=take)
    reader.start()
    with open(into, "wb", buffering=0) as file:
        write(file)
    reader.join()
    return found[0]


@pytest.mark.parametrize("way", WAYS)
@pytest.mark.parametrize("count", [1, 3])
def test_pipe_is_copied_to_several(
    way: Callable[..., pipes.Way], count: int, monkeypatch: pytest.MonkeyPatch
) -> None:
    """Each has all of it, with a copy and without, and the bytes are counted."""
    monkeypatch.setattr(pipes, "way_between", way)
    data = os.urandom(3_000_001)
    names = [f"copy-{number}" for number in range(count)]
    Path("data").write_bytes(data)
    source = pipes.start("/bin/cat", "data", stdout=-1)
    streams = [open(name, "wb") for name in names]
    sinks = [pipes.start("/bin/cat", "-", stdin=-1, stdout=one) for one in streams]
    counted: list[int] = []
    assert isinstance(source.stdout, RawIOBase)
    into = [one.stdin for one in sinks if one.stdin]
    assert pipes.hand_on(source.stdout, into, counted.append)
    assert [pipes.end(one) for one in (source, *sinks)] == [(0, "")] * (count + 1)
    assert [Path(name).read_bytes() == data for name in names] == [True] * count
    assert sum(counted) == len(data)
    for stream in streams:
        stream.close()


def test_sink_that_is_gone_is_told() -> None:
    """The others aren't waited for, since the process that is gone tells why."""
    Path("data").write_bytes(bytes(3_000_000))
    source = pipes.start("/bin/cat", "data", stdout=-1)
    sink = pipes.start("/bin/sh", "-c", "echo gone >&2; exit 3", stdin=-1)
    assert isinstance(source.stdout, RawIOBase) and sink.stdin
    assert not pipes.hand_on(source.stdout, [sink.stdin])
    assert pipes.end(sink) == (3, "gone")
    pipes.kill([source])


def test_status_of_a_signal_is_as_a_shell_tells_it() -> None:
    """A process that was killed has no line of its own."""
    killed = pipes.start("/bin/sh", "-c", "kill -9 $$")
    assert pipes.end(killed) == (137, "ended by signal 9")


def test_answer_of_a_thread_is_had_or_what_broke_it() -> None:
    """A fault of a thread comes out where its answer is asked for."""
    assert pipes.Thread(lambda: True).answer()

    def broken() -> bool:
        raise OSError("told")

    with pytest.raises(OSError, match="told"):
        pipes.Thread(broken).answer()


def keep(name: str, *times: int) -> tuple[str, list[traces.Record]]:
    """Keep a trace of records with these times, and give its path and records."""
    datagram = name.encode() * 300
    records = [traces.Record(time, 5000, datagram) for time in times]
    Path(name).write_bytes(links.trace_of(records))
    return name, records


def test_pieces_of_one_recorder_are_joined() -> None:
    """They stand one behind another, whatever their times."""
    one, first = keep("one", 5, 6)
    two, second = keep("two", 1, 2)
    empty, _ = keep("empty")
    counted: list[int] = []
    paths = [[one, empty, two]]
    told = through_pipe(lambda sink: joins.send(sink, paths, counted.append))
    assert told == links.trace_of(first + second)
    assert sum(counted) == len(told) - len(traces.MAGIC)


def test_recorders_are_merged_by_time() -> None:
    """Where times are the same, those of the first recorder come first."""
    one, first = keep("one", 1, 4, 4)
    two, second = keep("two", 9)
    three, third = keep("three", 1, 4, 5, 9)
    paths = [[one, two], [three]]
    told = through_pipe(lambda sink: joins.send(sink, paths, lambda _: None))
    wanted = sorted(first + second + third, key=lambda record: record.time)
    assert list(traces.records_of(io.BytesIO(told))) == wanted


def test_recorders_are_merged_across_blocks(monkeypatch: pytest.MonkeyPatch) -> None:
    """A block may end anywhere in a record."""
    monkeypatch.setattr(joins, "BLOCK", 700)
    one, first = keep("one", *range(0, 90, 3))
    three, third = keep("three", *range(0, 90, 2))
    paths = [[one], [three]]
    told = through_pipe(lambda sink: joins.send(sink, paths, lambda _: None))
    wanted = sorted(first + third, key=lambda record: record.time)
    assert list(traces.records_of(io.BytesIO(told))) == wanted


def test_mark_is_whole_or_not_there() -> None:
    """A mark that can't be written leaves nothing, and one that is broken is none."""
    marks.write_mark("mark", {"bytes": 3})
    assert marks.read_mark("mark") == {"bytes": 3}
    with pytest.raises(TypeError):
        marks.write_mark("mark", {"bytes": b"3"})
    assert marks.read_mark("mark") == {"bytes": 3}
    assert os.listdir() == ["mark"]
    Path("mark").write_text('{"bytes"')
    assert marks.read_mark("mark") is None and marks.read_mark("nowhere") is None


def test_piece_is_whole_by_its_size() -> None:
    """A piece that is cut, or has no mark, isn't whole."""
    Path("pieces").mkdir()
    Path(marks.piece_at(".", "key")).write_bytes(b"four")
    assert marks.size_of_piece(".", "key") is None
    marks.write_mark("pieces/key.json", {"bytes": 4})
    assert marks.size_of_piece(".", "key") == 4
    Path(marks.piece_at(".", "key")).write_bytes(b"fo")
    assert marks.size_of_piece(".", "key") is None
