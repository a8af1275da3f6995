"""Writes a lane to files of a folder, cut by size or time: lanes.py FOLDER FLOW SIZE SECONDS < lane

A file is FLOW-YYYYMMDDTHHMMSSZ.ts, by the time of its beginning, and holds whole packets. Where it can't be written, as in a full
folder, what was written is kept, what comes is dropped, and another file is tried each second. How many bytes were dropped in all
is told on standard output, a line each time.
"""
import os
import sys
import time

PACKET = 188
PIECE = 340 * PACKET  # about as much as a pipe holds
PAUSE = 1  # seconds


class Lane:
    """The file that is being written, if there is one."""

    def __init__(self, folder, flow, longest, seconds):
        self.folder, self.flow, self.longest, self.seconds = folder, flow, longest, seconds
        self.file, self.size, self.began, self.dropped, self.next = None, 0, 0, 0, 0

    def write(self, packets):
        """Writes whole packets, or drops them."""
        try:
            if self.file is None and time.monotonic() >= self.next:
                self._open()
            if self.file is not None:
                self._write(packets)
                packets = b""
        except OSError as fault:
            print(f"gateway: flow {self.flow}: lane: {fault.strerror}: what comes is dropped until there is room", file=sys.stderr,
                  flush=True)
            self.next = time.monotonic() + PAUSE
            packets = packets[self._keep():]
        if packets:
            self.dropped += len(packets)
            print(self.dropped, flush=True)
        if self.file is not None and (self.size >= self.longest or time.monotonic() - self.began >= self.seconds):
            self.close()

    def _open(self):
        stem = os.path.join(self.folder, f"{self.flow}-{time.strftime('%Y%m%dT%H%M%SZ', time.gmtime())}")
        number = 1
        while self.file is None:
            self.path = f"{stem}.ts" if number == 1 else f"{stem}-{number}.ts"
            try:
                self.file = os.open(self.path, os.O_WRONLY | os.O_CREAT | os.O_EXCL, 0o644)
            except FileExistsError:
                number += 1
        self.size, self.part, self.began = 0, 0, time.monotonic()

    def _write(self, packets):
        self.part, left = 0, memoryview(packets)
        while left:
            count = os.write(self.file, left)
            left, self.part = left[count:], self.part + count
        self.size, self.part = self.size + len(packets), 0

    def _keep(self):
        """A write failed: keeps the whole packets. How many bytes of what was to be written are among them."""
        if self.file is None:
            return 0
        kept = self.part - self.part % PACKET
        os.ftruncate(self.file, self.size + kept)
        self.size += kept
        self.close()
        return kept

    def close(self):
        if self.file is not None:
            os.close(self.file)
            self.file = None
            if not self.size:
                os.unlink(self.path)


def main():
    folder, flow, longest, seconds = sys.argv[1:]
    lane = Lane(folder, flow, int(longest) or float("inf"), float(seconds) or float("inf"))
    rest = b""
    while True:
        came = os.read(0, PIECE)
        if not came:
            break
        came = rest + came
        whole = len(came) - len(came) % PACKET
        rest = came[whole:]
        if whole:
            lane.write(came[:whole])
    lane.close()


main()
