"""Traces that are sent."""

import socket

from fgate import traces
from tests import links


def receiver() -> socket.socket:
    """Give a socket that receives on a port of this machine."""
    one = socket.socket(socket.AF_INET, socket.SOCK_DGRAM)
    one.bind(("127.0.0.1", 0))
    one.settimeout(5)
    return one


def test_datagrams_go_to_the_ports_of_their_records() -> None:
    """They come in order, and how late they were is told."""
    with receiver() as one, receiver() as other:
        ports = [some.getsockname()[1] for some in (one, other)]
        records = [
            traces.Record(1_000_000, ports[0], b"first"),
            traces.Record(1_050_000, ports[1], b"second"),
            traces.Record(1_020_000, ports[0], b"third"),
        ]
        ended = links.call("replay_link", given=links.trace_of(records))
        assert [one.recv(99), other.recv(99), one.recv(99)] == [
            b"first",
            b"second",
            b"third",
        ]
    assert (ended.status, ended.out) == (0, "")
    assert ended.errors.startswith("fgate-replay-link: the latest datagram was sent ")
    assert " of 3 more than 5\n" in ended.errors


def test_input_that_is_no_trace() -> None:
    """It is told, and so is one that ends inside a record."""
    record = traces.Record(0, 9, b"datagram")
    for given, told in (
        (b"FECTRAC2", "not a trace"),
        (links.trace_of([record])[:-1], "the trace ends inside a record"),
        (links.trace_of([])[:8] + b"1", "the trace ends inside a record"),
    ):
        ended = links.call("replay_link", given=given)
        assert ended == (1, "", f"fgate-replay-link: {told}\n")


def test_interface_is_an_address() -> None:
    """A name is refused as a word, and an address that isn't here by the system."""
    ended = links.call("replay_link", "--interface=eth0")
    assert ended.status == 2
    words = ("--to=239.1.1.1", "--interface=198.51.100.7")
    ended = links.call("replay_link", *words, given=traces.MAGIC)
    assert ended.status == 1
    assert ended.errors.startswith("fgate-replay-link: interface 198.51.100.7: ")
