"""Sends the datagrams of a trace by their times, each to the port that its record has.

fgate-replay-link [--to ADDRESS] [--interface ADDRESS] [--ttl N] < trace

They go to 127.0.0.1, or to the address that is named. Where that is a multicast group,
`--interface` names the interface by its address, and `--ttl` says how many routers they
may pass, one less than N. A record whose time is before that of one sent already goes
out at once. At the end a line on standard error tells how late the latest datagram was
sent, and how many were later than 5 milliseconds: where there are any, the trace was
too fast for this. The status is 1 where the input is no trace or ends inside a record,
or a datagram can't be sent, and 2 where the words can't be read.
"""

import argparse
import signal
import socket
import sys
import time
from collections.abc import Sequence
from typing import BinaryIO, NamedTuple

from fgate import command, traces

NAME = "fgate-replay-link"
LATE = 0.005  # seconds


class Sent(NamedTuple):
    """How many datagrams were sent, how many of them late, and the latest's seconds."""

    total: int
    late: int
    latest: float


class Unsent(Exception):
    """A datagram can't be sent, or there is none that can be read."""


def address(text: str) -> str:
    """Read an IPv4 address."""
    try:
        return socket.inet_ntoa(socket.inet_aton(text))
    except OSError:
        raise argparse.ArgumentTypeError(f"{text} isn't an address") from None


def read_words(arguments: Sequence[str] | None) -> argparse.Namespace:
    """Read the words of the command."""
    words = command.Parser(NAME, __doc__)
    words.add_argument(
        "--to", default="127.0.0.1", help="where they go; 127.0.0.1 unless it is there"
    )
    words.add_argument(
        "--interface",
        type=address,
        help="the address of the interface that sends to a multicast group, "
        "not its name",
    )
    words.add_argument(
        "--ttl",
        type=command.whole(0, 255),
        default=1,
        help="the routers that a multicast datagram may pass, and one more",
    )
    return words.parse_args(arguments)


def send(sender: socket.socket, to: str, trace: BinaryIO) -> Sent:
    """Send each datagram when it is due."""
    begins: tuple[float, float] | None = None
    due, sent, late, latest = 0.0, 0, 0, 0.0
    for stamp, port, datagram in traces.records_of(trace):
        if begins is None:
            begins = stamp / 1_000_000, time.monotonic()
        due = max(due, begins[1] + stamp / 1_000_000 - begins[0])
        time.sleep(max(0, due - time.monotonic()))
        by = time.monotonic() - due
        sent, late, latest = sent + 1, late + (by > LATE), max(latest, by)
        sender.sendto(datagram, (to, port))
    return Sent(sent, late, latest)


def choose_interface(sender: socket.socket, interface: str) -> None:
    """Have multicast datagrams leave by the interface of this address."""
    try:
        sender.setsockopt(
            socket.IPPROTO_IP, socket.IP_MULTICAST_IF, socket.inet_aton(interface)
        )
    except OSError as fault:
        raise Unsent(f"interface {interface}: {fault.strerror or fault}") from None


def replay(asked: argparse.Namespace, trace: BinaryIO) -> Sent:
    """Send all datagrams of the trace where the words say."""
    with socket.socket(socket.AF_INET, socket.SOCK_DGRAM) as sender:
        if asked.interface:
            choose_interface(sender, asked.interface)
        try:
            sender.setsockopt(socket.IPPROTO_IP, socket.IP_MULTICAST_TTL, asked.ttl)
            return send(sender, asked.to, trace)
        except OSError as fault:
            raise Unsent(fault.strerror or str(fault)) from None


def main(arguments: Sequence[str] | None = None) -> int:
    """Send a trace from standard input, and give the command's status."""
    asked = read_words(arguments)
    signal.signal(signal.SIGINT, signal.SIG_DFL)
    try:
        sent = replay(asked, sys.stdin.buffer)
    except (traces.NotATrace, Unsent) as fault:
        print(f"{NAME}: {fault}", file=sys.stderr)
        return 1
    print(
        f"{NAME}: the latest datagram was sent {sent.latest * 1000:.1f} milliseconds "
        f"late, and {sent.late} of {sent.total} more than {LATE * 1000:.0f}",
        file=sys.stderr,
    )
    return 0


if __name__ == "__main__":
    sys.exit(main())
