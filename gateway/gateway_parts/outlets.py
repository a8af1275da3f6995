"""Where a flow's lane goes: into a pipe, whose reader is GStreamer, a command of the operator's, or lanes.py."""
import contextlib
import os
import subprocess
import sys
import time

from . import pipes

QUEUE_ROOM, QUEUE_SECONDS = 64 << 20, 5  # what waits for a reader that is slow
SPARE_AFTER, SPARE_AGAIN = 2, 16  # seconds until a spare is started, and until it is tried again
PATIENCE = 30  # seconds without a sign of life of a reader that gets no more
HERE = os.path.dirname(os.path.abspath(__file__))


def gstreamer(settings):
    """The pipeline that sends a transport stream from its standard input, paced by its PCR.

    The time at which bytes are read is their arrival for `tsparse`, which finds from PCR and arrivals when each packet is
    due; `ts-offset` is the time that is left for what comes late. Without the queue what is read would wait for the sink, and
    arrivals with it. At its end `tsparse` gives all that came behind the last PCR as one piece, which `rtpmp2tpay` cuts into
    datagrams, for plain UDP too.
    """
    line = ["gst-launch-1.0", "-q", "fdsrc", "do-timestamp=true", "!", "queue", "max-size-buffers=0", "max-size-time=0",
            "max-size-bytes=4000000", "!"]
    line += ["tsparse", *(["set-timestamps=true", "alignment=7"] if settings.sync else []), "!", "rtpmp2tpay"]
    line += ["!", "rtpmp2tdepay"] if settings.protocol == "udp" else []
    line += ["!", "udpsink", f"host={settings.host}", f"port={settings.port}", "async=false",
             "auto-multicast=false", f"ttl-mc={settings.ttl}"]
    line += [f"bind-address={settings.from_address}"] if settings.from_address else []
    return line + (["sync=true", f"ts-offset={settings.latency * 1_000_000}"] if settings.sync else ["sync=false"])


def command(settings):
    """What is to read the lane."""
    if settings.pipe:
        return ["/bin/sh", "-c", settings.pipe]
    if settings.lane:
        return [sys.executable, os.path.join(HERE, "lanes.py"), settings.lane, str(settings.flow), str(settings.segment_size),
                str(settings.segment_time)]
    return gstreamer(settings)


class Reader:
    """One reader on its way, with the pipe to it. Where `tells` it writes to its standard output, line by line, how many bytes of
    what it read it has dropped so far."""

    def __init__(self, line, flow, tells):
        given, into = os.pipe()
        try:
            self.process = subprocess.Popen(line, stdin=given, stdout=subprocess.PIPE if tells else 2,
                                            env={**os.environ, "FLOW": str(flow)})
        except OSError:
            os.close(into)
            raise
        finally:
            os.close(given)
        self.writer, self.dropped, self.is_told = pipes.Writer(into), 0, False
        self.waiting, self.alive_at = 0, time.monotonic()
        if tells:
            os.set_blocking(self.process.stdout.fileno(), False)

    def newly_dropped(self):
        """How many bytes it has dropped since it was asked last."""
        before, told = self.dropped, b""
        if self.process.stdout:
            told = self.process.stdout.read() or b""
        if told.split():
            self.dropped = int(told.split()[-1])
        return self.dropped - before

    def look(self):
        """Whether it has read all. What it reads shows that it is alive."""
        before, self.waiting = self.waiting, self.writer.unread()
        if self.waiting < before or not self.waiting:
            self.alive_at = time.monotonic()
        return not self.waiting

    def hangs(self):
        return time.monotonic() - self.alive_at > PATIENCE


class Outlet:
    """What reads a flow's lane. One that leaves is started again, and what comes while it is away is dropped and counted. Of one that
    ends in each silence a spare waits, since what comes while it starts would be late."""

    def __init__(self, settings, tell):
        self.line, self.flow, self.tell = command(settings), settings.flow, tell
        self.tells, self.rests = bool(settings.lane), not settings.lane and not settings.pipe
        self.queue, self.pauses = pipes.Queue(QUEUE_ROOM, QUEUE_SECONDS), pipes.Pauses()
        self.reader, self.spare, self.leaving, self.is_finishing, self.has_begun = None, None, [], False, False
        self.given = self.lost = self.restarts = 0
        self.start()

    def start(self):
        self.pauses.start()
        self.spare_at, self.has_begun = time.monotonic() + SPARE_AFTER, False
        if self.spare:
            self.reader, self.spare = self.spare, None
            return
        try:
            self.reader = Reader(self.line, self.flow, self.tells)
        except OSError as fault:
            self._tell_of_a_start(f"the output can't be started: {fault.strerror or fault}", self.pauses.left())

    def put(self, packets):
        """Takes the packets, or drops and counts them."""
        self.given += len(packets)
        if not self.reader or not self.queue.put(packets):
            self.lost += len(packets)

    def turn(self):
        """Goes on with whatever there is to do."""
        self.leaving = [one for one in self.leaving if not self._has_left(one)]
        self._see_to_the_spare()
        if self.reader:
            self._push()
        elif not self.is_finishing and self.pauses.is_over():
            self.restarts += 1
            self.start()

    def _see_to_the_spare(self):
        if self.spare and self.spare.process.poll() is not None:
            self.spare.writer.close()
            self.spare, self.spare_at = None, time.monotonic() + SPARE_AGAIN
        if self.rests and self.reader and not self.spare and not self.is_finishing and time.monotonic() >= self.spare_at:
            self.spare_at = time.monotonic() + SPARE_AGAIN
            with contextlib.suppress(OSError):
                self.spare = Reader(self.line, self.flow, self.tells)

    def _push(self):
        reader = self.reader
        self.lost += reader.newly_dropped()
        try:
            reader.writer.push(self.queue)
        except BrokenPipeError:
            self._lose()
            return
        if reader.process.poll() is not None:
            self._lose()
            return
        self.has_begun = self.has_begun or reader.writer.written > 0
        has_read_all = reader.look() and not self.queue.pieces
        if self.is_finishing and has_read_all:
            self._let_go()
        elif self.is_finishing and reader.hangs():
            reader.process.kill()

    def _lose(self):
        """The reader has left, or closed its end."""
        reader, self.reader = self.reader, None
        self.lost += self.queue.empty() + reader.writer.unread() + reader.newly_dropped()
        reader.writer.close()
        reader.alive_at, reader.is_told = time.monotonic(), True
        self.leaving.append(reader)
        pause = self.pauses.left()
        status = reader.process.poll()
        how = "closed its input" if status is None else f"ended with status {shell_status(status)}"
        self._tell_of_a_start(f"the output {how}", pause)

    def _tell_of_a_start(self, what, pause):
        again = "" if self.is_finishing else f", and is started again{f' in {pause} seconds' if pause else ''}"
        self.tell(what + again)

    def _let_go(self):
        """Ends what the reader is given. It goes on with what it has."""
        self.reader.writer.close()
        self.reader.alive_at = time.monotonic()
        self.leaving.append(self.reader)
        self.reader = None

    def _has_left(self, reader):
        """Whether a reader that gets no more has ended. One that takes too long is ended."""
        status = reader.process.poll()
        if status is None and reader.hangs():
            self.tell("the output doesn't end, and is killed")
            reader.process.kill()
            reader.alive_at, reader.is_told = time.monotonic(), True
        if status is None:
            return False
        self.lost += reader.newly_dropped()
        if status and not reader.is_told:
            self.tell(f"the output ended with status {shell_status(status)}")
        return True

    def rest(self):
        """The flow is silent. What paces by the stream's clock shows the last packets only at the end, so it is ended and another
        one takes its place. Files and commands go on. Whether that is done, or nothing is to do: what is still read isn't cut."""
        if not self.rests or not self.reader or not self.has_begun:
            return True
        if self.queue.pieces or not self.reader.look():
            return False
        self._let_go()
        self.start()
        return True

    def finish(self):
        """No more comes."""
        self.is_finishing = True
        if self.spare:
            self.spare.writer.close()
            self.spare.alive_at = time.monotonic()
            self.leaving.append(self.spare)
            self.spare = None

    def is_done(self):
        return self.is_finishing and not self.reader and not self.leaving


def shell_status(status):
    return status if status >= 0 else 128 - status
