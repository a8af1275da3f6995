"""The repair of a flow: the program itself, what goes into it, its lane and its report."""
import os
import shutil
import subprocess
import tempfile
import time

from . import pipes, receive

PACKET = 188
READ = 1 << 20
# What a trace may have by the program's own limit, and the most that may come in one piece.
LONGEST_TRACE = 1 << 40
MARGIN = QUEUE_ROOM = 1 << 26
NOTHING = pipes.Queue(0)


class Repair:
    """A repair on its way. Nothing here waits for it."""

    def __init__(self, settings, folder):
        """Starts it in a folder of its own in this one. OSError where it can't be started."""
        self.is_finishing, self.rest, self.began = False, b"", time.strftime("%Y%m%dT%H%M%SZ", time.gmtime())
        self.folder = tempfile.mkdtemp(dir=folder, prefix="repair-")
        self.report, lane = (os.path.join(self.folder, f"{settings.flow}.{end}") for end in ("report", "ts"))
        os.mkfifo(lane, 0o600)
        # The program waits for a reader of its lane, so that is there first.
        self.lane = os.open(lane, os.O_RDONLY | os.O_NONBLOCK)
        given, into = os.pipe()
        try:
            with open(self.report, "wb") as report:
                self.process = subprocess.Popen(
                    [settings.program, "repair", f"flow={settings.flow}", "workers=0", f"window={settings.window}",
                     f"depth={settings.depth}", f"hold={settings.hold}"], stdin=given, stdout=report, cwd=self.folder)
        except OSError:
            os.close(into)
            os.close(self.lane)
            raise
        finally:
            os.close(given)
        pipes.widen(self.lane)
        self.writer = pipes.Writer(into, receive.MAGIC, settings.max - min(MARGIN, settings.max // 4))

    def push(self, queue):
        """Gives it records of the queue. Once it has had as many as a trace may have it is finished."""
        if not self.writer.is_open:
            return
        try:
            self.writer.push(NOTHING if self.is_finishing else queue)
        except BrokenPipeError:
            self.writer.close()
            return
        self.is_finishing = self.is_finishing or self.writer.is_full()
        if self.is_finishing and not self.writer.left:
            self.writer.close()

    def finish(self):
        """Ends its input behind the record that it is being given."""
        self.is_finishing = True

    def pull(self):
        """The packets of its lane that came since the last time. They are whole."""
        try:
            came = os.read(self.lane, READ)
        except BlockingIOError:
            return b""
        came = self.rest + came
        whole = len(came) - len(came) % PACKET
        self.rest = came[whole:]
        return came[:whole]

    def status(self):
        """Its status as a shell tells it, or None while it runs. Once there is one, its lane is at its end where `pull` gives
        nothing."""
        status = self.process.poll()
        return status if status is None or status >= 0 else 128 - status

    def close(self):
        """It has ended. Its report, as it wrote it."""
        self.writer.close()
        os.close(self.lane)
        with open(self.report, "rb") as report:
            text = report.read().decode("ascii", "replace")
        shutil.rmtree(self.folder, ignore_errors=True)
        return text
