"""The words of gateway/gateway, and what they come to for each flow."""
import argparse
import os
import shlex
import shutil
from typing import NamedTuple

from . import receive, repair

ONE_OUTPUT = ("to", "lane", "pipe")


class Settings(NamedTuple):
    """What a flow is to do."""
    flow: int
    program: str
    group: str = ""
    interface: str = "0.0.0.0"
    hold: int = 250_000
    window: int = 10
    depth: int = 1000
    max: int = repair.LONGEST_TRACE
    silence: int = 50
    protocol: str = ""
    host: str = ""
    port: int = 0
    from_address: str = ""
    ttl: int = 1
    latency: int = 60
    sync: bool = True
    lane: str = ""
    segment_time: float = 0
    segment_size: int = 0
    pipe: str = ""


def whole(least, greatest):
    def read(text):
        number = int(text)
        if not least <= number <= greatest:
            raise argparse.ArgumentTypeError(f"{text} isn't {least} to {greatest}")
        return number
    return read


def seconds(text):
    number = float(text)
    if not 0 < number < 1e9:
        raise ValueError
    return number


def target(text):
    """Protocol, host and port of [udp://|rtp://]HOST:PORT."""
    protocol, found, rest = text.rpartition("://")
    host, colon, port = rest.rpartition(":")
    if protocol not in ("udp", "rtp", "") or (found and not protocol) or not colon or not host:
        raise argparse.ArgumentTypeError(f"{text} isn't HOST:PORT, udp://HOST:PORT or rtp://HOST:PORT")
    return protocol or "udp", host, whole(1, 65535)(port)


class ForFlow(argparse.Action):
    """A word behind `--flow` is for that flow, and one before the first `--flow` for all."""

    def __call__(self, parser, asked, value, word=None):
        flows = getattr(asked, "flows", None) or [{}]
        if self.dest == "flow":
            flows.append({})
        flows[-1][self.dest] = self.const if self.nargs == 0 else value
        asked.flows = flows


class Words(argparse.ArgumentParser):
    def convert_arg_line_to_args(self, line):
        return shlex.split(line, comments=True)

    def error(self, message):
        self.exit(64, f"gateway: words: {message}\n")


def parser(text):
    words = Words(description=text, formatter_class=argparse.RawDescriptionHelpFormatter, fromfile_prefix_chars="@",
                  allow_abbrev=False)

    def each(name, kind, placeholder, text, **more):
        flows.add_argument(f"--{name}", type=kind, action=ForFlow, metavar=placeholder, help=text, **more)

    flows = words.add_argument_group("of a flow: behind its --flow, or before the first one for all flows")
    each("flow", receive.port_number, "PORT", "its media port, 1 to 65531; parity comes two and four above")
    each("group", receive.address, "ADDRESS", "the multicast group to join")
    each("interface", receive.address, "ADDRESS", "the address of the interface on which to join it, not its name")
    each("hold", whole(1, 3_600_000_000), "MICROSECONDS", "how long a datagram waits for its parity at most; 250000")
    each("window", whole(1, 100), "N", "datagrams that are shown at a time where the depth closes a window; 10")
    each("depth", whole(1, 1000), "N", "how many datagrams later a window is closed, whatever the hold; 1000")
    each("silence", whole(1, 3_600_000), "MILLISECONDS", "after so long without a datagram a flow is silent; 50")
    each("max", whole(1_000_000, repair.LONGEST_TRACE), "BYTES",
         "after so many bytes of datagrams the repair reports, and another goes on; 1099511627776")
    each("to", target, "HOST:PORT", "send the stream there over UDP, or over RTP to rtp://HOST:PORT")
    each("localaddr", receive.address, "ADDRESS", "the address of the interface that sends, not its name")
    each("ttl", whole(1, 255), "N", "how many routers what is sent to a group may pass, and one more; 1")
    each("latency", whole(1, 10_000), "MILLISECONDS", "how long what is sent waits for what paces it: longer than from PCR to PCR; 60")
    each("no-sync", None, None, "send at once, and not by PCR: for streams without it", nargs=0, const=False)
    each("lane", str, "FOLDER", "write the stream to files in this folder")
    each("segment-time", seconds, "SECONDS", "begin another file after so long")
    each("segment-size", whole(188, 1 << 50), "BYTES", "begin another file at this size")
    each("pipe", str, "COMMAND", "give the stream to this command of the shell, which has the flow's port in $FLOW")
    words.add_argument("--log", metavar="FOLDER", default="", help="keep the reports in this folder too")
    words.add_argument("--stats-period", type=seconds, default=60, metavar="SECONDS", help="how often it tells of each flow; 60")
    words.add_argument("--json", action="store_true", help="tell it as JSON objects, one on each line")
    words.add_argument("--metrics", type=whole(1, 65535), metavar="PORT", help="answer Prometheus on this port of 127.0.0.1")
    words.add_argument("--fgate", default="", metavar="PATH", help="the program; else the one on the path, or that of this clone")
    return words


def read(text, arguments):
    """The settings of each flow, and all that is for the whole."""
    words = parser(text)
    asked = words.parse_args(arguments)
    flows = getattr(asked, "flows", [{}])
    if len(flows) == 1:
        words.error("there is no --flow")
    if "flow" in flows[0]:
        words.error("--flow")
    program = program_at(asked.fgate)
    if not program:
        words.error("there is no fgate on the path: name it by --fgate")
    settings = [settled(words, {**flows[0], **without_other_outputs(flow, flows[0])}, program) for flow in flows[1:]]
    ports = [port for one in settings for port in receive.ports_of(one.flow)]
    shared = [port for port in ports if ports.count(port) > 1]
    if shared:
        words.error(f"two flows have port {shared[0]}")
    return settings, asked


def without_other_outputs(flow, common):
    """A flow's own words. One that has an output takes none of those for all."""
    if any(name in flow for name in ONE_OUTPUT):
        for name in ONE_OUTPUT:
            common = {key: value for key, value in common.items() if key != name}
            flow.setdefault(name, None)
    return flow


def settled(words, given, program):
    """The settings of a flow."""
    flow = given["flow"]
    outputs = [name for name in ONE_OUTPUT if given.get(name)]
    if len(outputs) != 1:
        words.error(f"flow {flow} takes one of --to, --lane and --pipe, behind its --flow or before the first one")
    taken = {name: value for name, value in given.items() if name in Settings._fields and name not in ONE_OUTPUT}
    if given.get("to"):
        taken["protocol"], taken["host"], taken["port"] = given["to"]
    taken.update({new: given[old] for old, new in (("localaddr", "from_address"), ("no_sync", "sync")) if old in given})
    taken.update(lane=os.path.abspath(given["lane"]) if given.get("lane") else "", pipe=given.get("pipe") or "")
    one = Settings(program=program, **taken)
    if one.depth < one.window:
        words.error(f"flow {flow}: its depth is below its window")
    if one.protocol and not shutil.which("gst-launch-1.0"):
        words.error("--to needs gst-launch-1.0, of Debian's gstreamer1.0-tools, and gstreamer1.0-plugins-good and -bad")
    return one


def program_at(path):
    """The program by its whole path, or an empty text."""
    here = os.path.dirname(os.path.abspath(__file__))
    for one in [path] if path else [shutil.which("fgate") or "", os.path.join(here, "../../crates/fgate/out/fgate")]:
        if one and os.path.isfile(one) and os.access(one, os.X_OK):
            return os.path.abspath(one)
    return ""
