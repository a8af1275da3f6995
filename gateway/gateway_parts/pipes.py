"""What goes from part to part of a flow without any of them waiting."""
import collections
import fcntl
import os
import struct
import termios
import time

F_SETPIPE_SZ = 1031  # of Linux
PIPE_ROOM = 1 << 20


def widen(file):
    """Lets the pipe hold more, where the system allows it."""
    try:
        fcntl.fcntl(file, F_SETPIPE_SZ, PIPE_ROOM)
    except OSError:
        pass


def unread(file):
    """How many bytes stand in a pipe."""
    return struct.unpack("i", fcntl.ioctl(file, termios.FIONREAD, struct.pack("i", 0)))[0]


class Queue:
    """Pieces that wait to be written: at most so many bytes, and none while the first has waited for so many seconds. A piece has a count
    of what its writer is to count."""

    def __init__(self, room, seconds=float("inf")):
        self.room, self.seconds, self.size, self.pieces = room, seconds, 0, collections.deque()

    def put(self, piece, count=0):
        """Whether the piece was taken."""
        now = time.monotonic()
        if self.size + len(piece) > self.room or (self.pieces and now - self.pieces[0][2] > self.seconds):
            return False
        if piece:
            self.pieces.append((piece, count, now))
            self.size += len(piece)
        return True

    def take(self):
        """The first piece and its count."""
        piece, count, _ = self.pieces.popleft()
        self.size -= len(piece)
        return piece, count

    def empty(self):
        """Drops all. How many bytes that were."""
        size, self.size = self.size, 0
        self.pieces.clear()
        return size


class Writer:
    """Writes pieces of a queue to a pipe, as far as the pipe takes them. It begins no piece once it has written `limit` bytes."""

    def __init__(self, file, first=b"", limit=float("inf")):
        self.file, self.left, self.written, self.counted, self.limit = file, memoryview(first), 0, 0, limit
        self.is_open = True
        os.set_blocking(file, False)
        widen(file)

    def is_full(self):
        """Whether no further piece is begun."""
        return not self.left and self.written >= self.limit

    def push(self, queue):
        """A pipe without a reader raises BrokenPipeError."""
        while self.left or (queue.pieces and self.written < self.limit):
            if not self.left:
                piece, count = queue.take()
                self.left, self.counted = memoryview(piece), self.counted + count
            try:
                count = os.write(self.file, self.left)
            except BlockingIOError:
                return
            self.written += count
            self.left = self.left[count:]

    def unread(self):
        """How many bytes of what was taken from the queue nobody has read."""
        return len(self.left) + unread(self.file) if self.is_open else 0

    def close(self):
        if self.is_open:
            os.close(self.file)
            self.is_open = False


class Pauses:
    """How long to wait before a part is started again: not at all where it had lived for a while, else longer each time."""
    LONG, LONGEST = 10, 16  # seconds

    def __init__(self):
        self.pause, self.started, self.next = 0, 0, 0

    def start(self):
        self.started = time.monotonic()

    def left(self):
        """The part has ended: the seconds until it may be started again."""
        now = time.monotonic()
        self.pause = 0 if now - self.started >= self.LONG else min(max(1, 2 * self.pause), self.LONGEST)
        self.next = now + self.pause
        return self.pause

    def is_over(self):
        return time.monotonic() >= self.next
