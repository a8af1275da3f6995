"""One flow of a gateway, from its sockets to its output: flow.py SETTINGS FOLDER, which gateway/gateway starts.

It receives, repairs and hands on until standard input ends. Then the recorder ends first, the repair shows all that it has, and
what reads the lane ends last. On standard output it tells, a JSON object a line: `ready`, `counts`, `event`, `report`, and `fault`
where it can't begin. Its status is then 69, and else that of the repair that ended last.
"""
import collections
import contextlib
import json
import os
import select
import sys
import time

sys.dont_write_bytecode = True
sys.path.insert(0, os.path.dirname(os.path.dirname(os.path.abspath(__file__))))
from gateway_parts import outlets, pipes, receive, repair, reports, words

HELD = 10_000_000  # nanoseconds
TICK = 5  # milliseconds between two looks while datagrams come
IDLE = 100
MILLISECOND = 1_000_000  # nanoseconds
COUNTS = 0.25  # seconds
PATIENCE = 5  # seconds
TOLD_ROOM = 1 << 24
SETTLED = 0.03  # seconds in which a repair shows what it has
UNAVAILABLE = 69


class Teller:
    """Tells the gateway, without ever waiting for it. Where that is gone standard input ends too, and reports go to standard error."""

    def __init__(self):
        self.queue, self.writer, self.is_gone = pipes.Queue(TOLD_ROOM), pipes.Writer(1), False

    def tell(self, **what):
        self.queue.put(json.dumps(what).encode() + b"\n")
        self.push()
        if self.is_gone and "report" in what:
            sys.stderr.write(what["report"])

    def push(self):
        try:
            self.writer.push(self.queue)
        except OSError:
            self.is_gone, self.writer.left = True, b""
            self.queue.empty()

    def is_empty(self):
        return not self.queue.pieces and not self.writer.left

    def finish(self):
        """Gives the gateway a while to hear the rest."""
        until = time.monotonic() + PATIENCE
        while not self.is_empty() and time.monotonic() < until:
            time.sleep(0.01)
            self.push()


class Silence:
    """When a flow is silent, and when an empty record has to move the repair's clock, so that what waits is shown."""

    def __init__(self, after, hold):
        self.after, self.hold = after * MILLISECOND, hold * 1000
        self.last = self.next = None
        self.count, self.is_silent, self.is_over = 0, False, False

    def heard(self, stamp):
        self.last, self.next, self.is_silent, self.is_over = stamp, stamp + self.after, False, False

    def is_due(self, now):
        """Whether a record is due now. Once the hold is over all that waited is shown, and none is."""
        if self.last is None or self.is_over or now < self.next:
            return False
        if not self.is_silent:
            self.count, self.is_silent = self.count + 1, True
        self.is_over = now >= self.last + self.hold
        self.next = min(now + self.after, max(now, self.last + self.hold))
        return True

    def wait(self, now):
        """Until when nothing is due, in nanoseconds."""
        return IDLE * MILLISECOND if self.last is None or self.is_over else max(0, self.next - now)

    def seconds(self, now):
        """How long the flow has been silent."""
        return max(0, now - self.last) / receive.SECOND if self.is_silent else 0


class Flow:
    """What a flow has under way."""

    def __init__(self, settings, folder, teller):
        self.settings, self.folder, self.teller = settings, folder, teller
        self.receiver = receive.Receiver(receive.ports_of(settings.flow), settings.group, settings.interface, HELD)
        self.silence = Silence(settings.silence, settings.hold)
        self.queue, self.pauses = pipes.Queue(repair.QUEUE_ROOM), pipes.Pauses()
        self.repair, self.status, self.is_ending = None, 0, False
        self.came, self.unfed, self.restarts, self.told_at = collections.Counter(), 0, 0, 0
        self.start_repair()
        self.outlet = outlets.Outlet(settings, self.event)
        self.shown_at, self.rested = 0, True

    def event(self, text):
        self.teller.tell(event=text)

    # ---- The recorder ----

    def receive(self):
        """Hands on what came, and says whether anything did."""
        arrived = self.receiver.take()
        if arrived:
            self.silence.heard(arrived[-1].stamp)
            self.hand_on(arrived)
            return True
        if self.silence.is_due(self.receiver.now() - HELD):
            self.hand_on([receive.Arrived(self.receiver.now() - HELD, self.settings.flow + 4, b"")], empties=1)
            return True
        return bool(self.receiver.waiting)

    def hand_on(self, arrived, empties=0):
        if not empties:
            self.came.update(one.port - self.settings.flow for one in arrived)
        if not self.queue.put(receive.spelled(arrived), empties) and not empties:
            self.unfed += len(arrived)

    # ---- The repair ----

    def start_repair(self):
        self.pauses.start()
        try:
            self.repair = repair.Repair(self.settings, self.folder)
        except OSError as fault:
            pause, self.status = self.pauses.left(), UNAVAILABLE
            again = "" if self.is_ending else f"; it is tried again in {pause} seconds"
            self.event(f"the repair can't be started: {fault.strerror or fault}{again}")
            if self.is_ending:
                self.queue.empty()

    def turn_repair(self):
        """Gives the repair what it takes, and the output what it shows. Whether anything was shown."""
        if not self.repair:
            # At the end what still waits for a repair gets one at once.
            if self.queue.pieces if self.is_ending else self.pauses.is_over():
                self.start_repair()
            return False
        if self.is_ending and not self.queue.pieces:
            self.repair.finish()
        self.repair.push(self.queue)
        status = self.repair.status()
        packets = self.repair.pull()
        self.outlet.put(packets)
        if status is not None and not packets:
            self.end_repair(status)
        return bool(packets)

    def end_repair(self, status):
        finished = self.repair.is_finishing
        report, empties, began = self.repair.close(), self.repair.writer.counted, self.repair.began
        self.repair, self.status = None, status
        if report:
            self.teller.tell(report=reports.without_empties(report, self.settings.flow, empties), began=began)
        if finished and not status and self.is_ending:
            return
        if finished and not status:
            self.event("the repair has had as much as it may, and another goes on")
            self.start_repair()
            return
        lost = "" if report else ", and left no report"
        if self.is_ending:
            self.event(f"the repair ended with status {status}{lost}")
            return
        self.restarts += 1
        pause = self.pauses.left()
        self.event(f"the repair ended with status {status}{lost}; another goes on{f' in {pause} seconds' if pause else ''}")
        if not pause:
            self.start_repair()

    # ---- The whole ----

    def counts(self):
        """What is told of the flow so far."""
        came, outlet = self.came, self.outlet
        return {"in": came[0], "parity": came[2] + came[4], "dropped": sum(self.receiver.dropped.values()), "unfed": self.unfed,
                "out": outlet.given - outlet.lost, "lost": outlet.lost, "restarts": self.restarts + outlet.restarts,
                "silences": self.silence.count, "silent": round(self.silence.seconds(self.receiver.now()), 1)}

    def tell_counts(self):
        now = time.monotonic()
        self.teller.push()
        if now - self.told_at >= COUNTS and self.teller.is_empty():
            self.told_at = now
            self.teller.tell(counts=self.counts())

    def end(self):
        """The recorder ends."""
        self.is_ending = True
        self.hand_on(self.receiver.rest())
        self.receiver.close()

    def wait(self, is_busy):
        """Whether the flow goes on. While there is something to do this looks at all of it after a tick."""
        watched, waits = select.poll(), TICK
        if not self.is_ending:
            watched.register(0, select.POLLIN)
            if not is_busy:
                self.watch_all(watched)
                waits = min(IDLE, self.silence.wait(self.receiver.now() - HELD) // MILLISECOND + 1)
        return all(file for file, _ in watched.poll(waits))

    def watch_all(self, watched):
        for one in self.receiver.sockets.values():
            watched.register(one, select.POLLIN)
        if self.repair:
            watched.register(self.repair.lane, select.POLLIN)

    def run(self):
        self.teller.tell(ready=True)
        is_busy = True
        while not self.outlet.is_done():
            if not self.wait(is_busy) and not self.is_ending:
                self.end()
            is_busy = self.turn()
            self.tell_counts()
        self.teller.tell(counts=self.counts())
        self.teller.finish()
        return self.status

    def turn(self):
        """Goes on with all that there is to do. Whether there is more."""
        came = not self.is_ending and self.receive()
        shown = self.turn_repair()
        is_resting = self.rest_when_silent(came or shown)
        if self.is_ending and not self.repair:
            self.outlet.finish()
        self.outlet.turn()
        return came or shown or is_resting or bool(self.queue.pieces) or bool(self.outlet.queue.pieces)

    def rest_when_silent(self, is_busy):
        """Once a silence has shown all that waited, the output may rest. Whether that is soon."""
        if is_busy or not self.silence.is_over:
            self.shown_at, self.rested = time.monotonic(), False
        elif not self.rested and time.monotonic() - self.shown_at > SETTLED:
            self.rested = self.outlet.rest()
        return self.silence.is_over and not self.rested


def main():
    settings, folder = words.Settings(**json.loads(sys.argv[1])), sys.argv[2]
    os.makedirs(folder, exist_ok=True)
    teller = Teller()
    try:
        flow = Flow(settings, folder, teller)
    except receive.PortFault as fault:
        teller.tell(fault=str(fault))
        sys.exit(UNAVAILABLE)
    status = flow.run()
    # The gateway does this too, where it is still there.
    with contextlib.suppress(OSError):
        os.rmdir(folder)
        os.rmdir(os.path.dirname(folder))
    sys.exit(status)


if __name__ == "__main__":
    main()
