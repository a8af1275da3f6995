"""What a gateway tells: lines or JSON objects, and Prometheus' metrics."""
import contextlib
import datetime
import json
import os
import queue
import threading

from . import reports

# Prometheus' name of each count, and what it counts.
METRICS = {"in": ("fgate_media_datagrams", "media datagrams that came"),
           "parity": ("fgate_parity_datagrams", "parity datagrams that came"),
           "dropped": ("fgate_dropped_datagrams", "datagrams that the system dropped since the gateway was too slow"),
           "unfed": ("fgate_unfed_datagrams", "datagrams that the gateway dropped since the repair was too slow or away"),
           "out": ("fgate_output_bytes", "bytes given to the output"),
           "lost": ("fgate_output_lost_bytes", "bytes dropped since the output was away, full or too slow"),
           "restarts": ("fgate_restarts", "parts that were started again"),
           "silences": ("fgate_silences", "times that the flow fell silent")}
SILENT = ("fgate_silent_seconds", "how long the flow has been silent")


def now():
    return datetime.datetime.now(datetime.timezone.utc).strftime("%Y-%m-%dT%H:%M:%SZ")


class Voice:
    """Tells on standard output. Where nobody reads that what is told is dropped, and where it is gone the gateway goes on."""
    ROOM = 10_000  # texts
    PATIENCE = 5  # seconds

    def __init__(self, as_json):
        self.as_json, self.texts = as_json, queue.Queue(self.ROOM)
        self.thread = threading.Thread(target=self._write_all, daemon=True)
        self.thread.start()

    def write(self, text):
        with contextlib.suppress(queue.Full):
            self.texts.put_nowait(text)

    def _write_all(self):
        for text in iter(self.texts.get, None):
            data = memoryview(text.encode())
            with contextlib.suppress(OSError):
                while data:
                    data = data[os.write(1, data):]

    def finish(self):
        """Gives a reader a while to take the rest."""
        with contextlib.suppress(queue.Full):
            self.texts.put(None, timeout=self.PATIENCE)
        self.thread.join(self.PATIENCE)

    def _object(self, flow, **what):
        self.write(json.dumps({"time": now(), **({} if flow is None else {"flow": flow}), **what}) + "\n")

    def counts(self, flow, counts):
        if self.as_json:
            self._object(flow, **counts)
        else:
            self.write(f"{now()} flow {flow} {' '.join(f'{name} {number}' for name, number in counts.items())}\n")

    def event(self, flow, text):
        if self.as_json:
            self._object(flow, event=text)
        else:
            self.write(f"{now()} {'gateway' if flow is None else f'flow {flow}'}: {text}\n")

    def report(self, flow, text):
        if not self.as_json:
            self.write(text)
            return
        try:
            self._object(flow, report=reports.parsed(text))
        except reports.NotAReport:
            self._object(flow, event=f"a report that isn't whole: {text}")


def serve_metrics(port, flows):
    """Answers Prometheus on this port of this machine alone. `flows` gives the counts of each flow."""
    import prometheus_client
    from prometheus_client.core import CounterMetricFamily, GaugeMetricFamily

    class Counts:
        def collect(self):
            counts = flows()
            for name, (metric, text) in METRICS.items():
                family = CounterMetricFamily(metric, text, labels=["flow"])
                for flow, one in counts.items():
                    family.add_metric([str(flow)], one.get(name, 0))
                yield family
            family = GaugeMetricFamily(*SILENT, labels=["flow"])
            for flow, one in counts.items():
                family.add_metric([str(flow)], one.get("silent", 0))
            yield family

    registry = prometheus_client.CollectorRegistry(auto_describe=False)
    registry.register(Counts())
    prometheus_client.start_http_server(port, "127.0.0.1", registry)
