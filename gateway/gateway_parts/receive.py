"""Receives the datagrams of some ports in the order in which the system says that they arrived, for gateway/record_link and
for a flow of gateway/gateway."""
import operator
import select
import socket
import struct
import time
from typing import NamedTuple

SO_RCVBUFFORCE, SO_TIMESTAMPNS, SO_RXQ_OVFL = 33, 35, 40  # of Linux
ROOM = 64 << 20  # bytes asked for in each socket; the system may give less
MAGIC = b"FECTRAC1"
HEADER = struct.Struct(">QHH")  # microseconds, port, size
STAMP, COUNT = struct.Struct("qq"), struct.Struct("I")
SECOND = 1_000_000_000  # nanoseconds
BY_STAMP = operator.itemgetter(0)


class Arrived(NamedTuple):
    """A datagram with its nanosecond of arrival and its port."""
    stamp: int
    port: int
    datagram: bytes


def spelled(arrived):
    """Datagrams as records of a trace."""
    return b"".join(HEADER.pack(stamp // 1000, port, len(datagram)) + datagram for stamp, port, datagram in arrived)


def port_number(text):
    """A flow's media port, from a word of the command line."""
    number = int(text)
    if not 1 <= number <= 65531:
        raise ValueError
    return number


def ports_of(flow):
    """Where a flow's media, column parity and row parity come."""
    return flow, flow + 2, flow + 4


def address(text):
    """An IPv4 address, from a word of the command line."""
    try:
        return socket.inet_ntoa(socket.inet_aton(text))
    except OSError:
        raise ValueError from None


class PortFault(Exception):
    """A port that can't be had, or a group that can't be joined."""


def listen(port, group, interface):
    """A socket that receives on the port: of the group on the interface that has this address, or of this machine's
    addresses where the group is empty."""
    one = socket.socket(socket.AF_INET, socket.SOCK_DGRAM)
    try:
        doing = f"port {port}"
        try:
            one.setsockopt(socket.SOL_SOCKET, SO_RCVBUFFORCE, ROOM)
        except PermissionError:
            one.setsockopt(socket.SOL_SOCKET, socket.SO_RCVBUF, ROOM)
        one.setsockopt(socket.SOL_SOCKET, SO_TIMESTAMPNS, 1)
        one.setsockopt(socket.SOL_SOCKET, SO_RXQ_OVFL, 1)
        if group:
            # Others may listen to the group too. Without one they would take datagrams away, so the port is had alone.
            one.setsockopt(socket.SOL_SOCKET, socket.SO_REUSEADDR, 1)
        one.bind((group or "", port))
        one.setblocking(False)
        if group:
            doing = f"group {group} on interface {interface}"
            one.setsockopt(socket.IPPROTO_IP, socket.IP_ADD_MEMBERSHIP, socket.inet_aton(group) + socket.inet_aton(interface))
    except OSError as fault:
        one.close()
        raise PortFault(f"{doing}: {fault.strerror or fault}") from None
    return one


class Receiver:
    """The sockets of some ports, and what came of late.

    A datagram has its time before it stands in its socket, so the newest are held back for `held` nanoseconds, until all
    that arrived before them is here. Times are the system's clock at the start, and go on evenly where that clock is set.
    """

    def __init__(self, ports, group="", interface="0.0.0.0", held=50_000_000):
        self.sockets, self.held, self.waiting, self.dropped = {}, held, [], {}
        try:
            for port in ports:
                self.sockets[port] = listen(port, group, interface)
        except PortFault:
            self.close()
            raise
        self.ahead = time.time_ns() - time.monotonic_ns()

    def close(self):
        for one in self.sockets.values():
            one.close()

    def now(self):
        """The time on the receiver's clock, in nanoseconds."""
        return time.monotonic_ns() + self.ahead

    def wait(self, seconds):
        """Waits until something comes, but no longer than this."""
        select.select(list(self.sockets.values()), [], [], seconds)

    def take(self):
        """What came, but for the newest, in order."""
        now, before = self.now(), len(self.waiting)
        self._drain(now)
        came = len(self.waiting) > before
        if came:
            self.waiting.sort(key=BY_STAMP)
        count = self._older_than(now - self.held)
        ready = self.waiting[:count]
        del self.waiting[:count]
        return ready

    def rest(self):
        """All that came, the newest too, in order."""
        self._drain(self.now())
        ready, self.waiting = sorted(self.waiting, key=BY_STAMP), []
        return ready

    def _older_than(self, stamp):
        count = len(self.waiting)
        while count and self.waiting[count - 1].stamp > stamp:
            count -= 1
        return count

    def _drain(self, now):
        # What comes while this looks waits for the next look, so none of the sockets keeps the others waiting.
        shift = time.time_ns() - time.monotonic_ns() - self.ahead
        for port, one in self.sockets.items():
            self._drain_socket(port, one, shift, now)

    def _drain_socket(self, port, one, shift, now):
        take, keep, dropped = one.recvmsg, self.waiting.append, None
        stamp = 0
        while stamp < now:
            try:
                datagram, notes, _, _ = take(65535, 128)
            except BlockingIOError:
                break
            stamp = now
            for level, kind, data in notes:
                if level != socket.SOL_SOCKET:
                    continue
                if kind == SO_TIMESTAMPNS:
                    seconds, rest = STAMP.unpack_from(data)
                    stamp = seconds * SECOND + rest - shift
                elif kind == SO_RXQ_OVFL:
                    dropped = data
            # One that came meanwhile is later than now, but none is from the future, whatever was done to the clock.
            keep(Arrived(min(stamp, now + self.held), port, datagram))
        if dropped is not None:
            self.dropped[port] = COUNT.unpack_from(dropped)[0]
