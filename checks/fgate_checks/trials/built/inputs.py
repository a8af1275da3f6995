"""Inputs of the cases: traces, streams and captures that are made byte by byte, and the
reports that they come to.
"""

import contextlib
import struct
import tempfile
from pathlib import Path

from fgate import make_trace

from ..program_runner import TOP

KEPT = TOP / "checks/program_cases"


def kept(name: str) -> bytes:
    """A file of checks/program_cases."""
    return (KEPT / name).read_bytes()


MAGIC = b"FECTRAC1"
# The trace of one packet on flow 5000, and one of the same on flows 5000 and 6000.
ONE = kept("one_packet.trace")
PACKET = ONE[-188:]
TWO = ONE + struct.pack(">QHH", 0, 6000, 200) + ONE[-200:]
CUT = TWO[:400]
UNSYNCED = PACKET + b"F" + PACKET[1:]
# 16 datagrams of seven packets, and one packet more that has no sync byte.
STREAM = 112 * PACKET
UNSYNCED_END = STREAM + bytes(188)


def flow_report(port: int, shown: int, windows: int) -> bytes:
    """The report of a flow that has so many media datagrams, which are all shown, and
    nothing else.
    """
    parity = "admitted 0 duplicate 0 conflict 0 late 0"
    rest = "notstarted 0 beforestart 0 ahead 0 crowded 0 bad 0"
    return (
        f"flow {port} shown {shown} repaired 0 missing 0 windows {windows} "
        "inconsistent 0\n"
        f"media {port} admitted {shown} duplicate 0 conflict 0 late 0 bad 0\n"
        f"column {port} {parity} {rest}\n"
        f"row {port} {parity} {rest}\n"
    ).encode()


def parity_report(column: int, row: int) -> str:
    """The lines on the parity of flow 5000, of which so much was admitted."""
    rest = "notstarted 0 beforestart 0 ahead 0 crowded 0 bad 0"
    return "".join(
        f"{kind} 5000 admitted {count} duplicate 0 conflict 0 late 0 {rest}\n"
        for kind, count in (("column", column), ("row", row))
    )


OTHER = b"other 0\n"
INSPECTED = b"0 0 5000 200 media seq 0 len 188\n"
ONE_REPORT = flow_report(5000, 1, 1) + OTHER
# One packet on each of 64 flows.
MANY_PORTS = range(5000, 5379, 6)
MANY = MAGIC + b"".join(
    struct.pack(">QHH", 0, port, 200) + ONE[-200:] for port in MANY_PORTS
)
MANY_REPORT = b"".join(flow_report(port, 1, 1) for port in MANY_PORTS) + OTHER
BOTH_REPORT = flow_report(6000, 1, 1) + flow_report(5000, 1, 1) + OTHER
CUT_REPORT = flow_report(5000, 1, 1) + OTHER + b"cut at byte 220\n"
# What comes of a stream of no packet, and of a sample of one datagram.
NO_REPORT = flow_report(5000, 0, 0) + OTHER
SAMPLE_REPORT = b"sample seed 7 datagrams 1 records 1 lost 0\n" + ONE_REPORT
DRILL_REPORT = (
    "flow 5000 shown 16 repaired 4 missing 0 windows 1 inconsistent 0\n"
    "media 5000 admitted 12 duplicate 0 conflict 0 late 0 bad 0\n"
    f"{parity_report(3, 4)}other 0\n"
).encode()
# 20,000 media records, and for each 100 of them 10 columns and 10 rows.
SAMPLED = b"""sample seed 7 datagrams 20000 records 24000 lost 0
flow 5000 shown 20000 repaired 0 missing 0 windows 200 inconsistent 0
"""

# The capture of that one packet: its frame has 242 bytes. And one with another link
# type, and a trace whose record is later than the last second of a capture.
CAPTURE = (
    struct.pack(">IHHIIII", 0xA1B2C3D4, 2, 4, 0, 0, 262144, 1)
    + struct.pack(">IIII", 0, 0, 242, 242)
    + bytes.fromhex("0200000000020200000000010800")
    + bytes.fromhex("450000e400004000401126070a0000010a000002")
    + struct.pack(">HHHH", 5000, 5000, 208, 0)
    + ONE[-200:]
)
NO_RECORD = CAPTURE[:24]
COOKED = CAPTURE[:23] + b"\x71"
LATE = MAGIC + struct.pack(">QHH", 2**32 * 1_000_000, 5000, 0)
# Two packets of a PID with the counters 3 and 5.
BROKEN = b"".join(
    b"\x47\x01\x00" + bytes([counter]) + bytes(184) for counter in (0x13, 0x15)
)
BREAKS = b"packet 1 pid 256 counter 5 after 3\npackets 2 faults 1\n"
WHOLE = b"packets 1 faults 0\n"
NO_PACKET = b"packets 0 faults 0\n"


def packets(pid: int, counter: int, byte: int) -> bytes:
    """Seven packets of this multiple of the PID 256, with this counter, and behind it
    this byte and zeros.
    """
    head = b"\x47" + bytes([pid, 0, 0x10 + counter, byte])
    return 7 * (head + bytes(183))


def media(time: int, number: int) -> bytes:
    """A media record of flow 5000 at this time in microseconds. Its packets have its
    sequence number as their counter.
    """
    rtp = struct.pack(">BBHII", 0x80, 0x21, number, 0, 0)
    return struct.pack(">QHH", time, 5000, 1328) + rtp + packets(1, number, 0)


# Two traces in which datagram 2 comes last: before datagram 3 has waited for 1,000
# microseconds, and when it has.
LAST_AT = {
    last: MAGIC
    + b"".join(
        media(time, number)
        for time, number in ((0, 0), (500, 1), (900, 3), (1500, 4), (last, 2))
    )
    for last in (1600, 1900)
}
FIVE = b"".join(packets(1, number, 0) for number in (0, 1, 2, 3, 4))
FOUR = b"".join(packets(1, number, 0) for number in (0, 1, 3, 4))
IN_TIME = flow_report(5000, 5, 2) + OTHER
TOO_LATE = (
    "flow 5000 shown 4 repaired 0 missing 1 windows 3 inconsistent 0\n"
    "media 5000 admitted 4 duplicate 0 conflict 0 late 1 bad 0\n"
    f"{parity_report(0, 0)}gap 5000 2 1\nother 0\n"
).encode()


def shows(sender: int, number: int) -> bytes:
    """The seven packets of a sender's record. The senders have a PID each, and the
    first one's packets tell the number plus 1.
    """
    return packets(sender, number % 16, number + 1 if sender == 1 else 0)


def sent(sender: int, number: int) -> bytes:
    """A media record of flow 5000 at time 0, with the SSRC 1 or 2 of the sender."""
    rtp = struct.pack(">BBHII", 0x80, 0x21, number, 0, sender)
    return struct.pack(">QHH", 0, 5000, 1328) + rtp + shows(sender, number)


# A sender that another one takes the place of, whose next datagram comes late.
RESTART = MAGIC + b"".join(
    [*(sent(1, number) for number in (0, 1, 2)), sent(2, 7), sent(2, 8), sent(1, 3)]
)
RESTART_LANE = b"".join(
    [*(shows(1, number) for number in (0, 1, 2)), shows(2, 7), shows(2, 8)]
)
RESTART_REPORT = flow_report(5000, 5, 2) + b"runs 5000 2 foreign 1\n" + OTHER

# The same, and the first sender's row of its numbers 12 to 15 comes late too. Its words
# differ in the number plus 1 alone, and 13, 14, 15 and 16 sum to 0x1c. Of the second
# sender's 12 to 15 the number 13 is lost, and comes back with that sum.
ROW_OF_FIRST = (
    struct.pack(">QHH", 0, 5004, 1344)
    + b"\x80\x60"
    + bytes(10)
    + struct.pack(">HHBBBBIBBBB", 12, 0, 0x80, 0, 0, 0, 0, 0x40, 1, 4, 0)
    + 7 * (bytes([0, 0, 0, 0, 0x1C]) + bytes(183))
)
OTHER_ROW = (
    MAGIC
    + b"".join(sent(1, number) for number in range(8, 16))
    + sent(2, 10)
    + ROW_OF_FIRST
    + b"".join(sent(2, number) for number in (11, 12, *range(14, 22)))
)
OTHER_ROW_LANE = (
    b"".join(shows(1, number) for number in range(8, 16))
    + b"".join(shows(2, number) for number in (10, 11, 12))
    + packets(2, 13, 0x1C)
    + b"".join(shows(2, number) for number in range(14, 22))
)
OTHER_ROW_REPORT = (
    "flow 5000 shown 20 repaired 1 missing 0 windows 2 inconsistent 0\n"
    "media 5000 admitted 19 duplicate 0 conflict 0 late 0 bad 0\n"
    f"{parity_report(0, 1)}runs 5000 2 foreign 0\nother 0\n"
).encode()


def square() -> bytes:
    """Four columns and four rows of which a square of four is lost."""
    words = ["--columns", "4", "--rows", "4", "--datagrams", "16"]
    for record in (6, 7, 11, 12):
        words += ["--drop", str(record)]
    with tempfile.TemporaryDirectory() as folder:
        trace = Path(folder, "trace")
        with contextlib.redirect_stdout(None):
            make_trace.main([str(trace), *words])
        return trace.read_bytes()


SQUARE_CASES = b"""case 5000 0 16
known 0 5
known 7 2
known 11 5
line 0 1 4
line 4 1 4
line 8 1 4
line 0 4 4
line 1 4 4
line 2 4 4
line 3 4 4
line 12 1 4
open 5 2
open 9 2
end
"""
YES = b"case 0 yes\n"
CHOSEN = b"columns 10 rows 10\n"
ALONE_CASES = SQUARE_CASES + SQUARE_CASES.replace(b"\nopen 9 2\n", b"\nopen 9 1\n")
ALONE = b"case 0 yes\ncase 1 alone 2\n"
# The second case has a number with a leading zero.
ZERO_CASES = SQUARE_CASES + ALONE_CASES[len(SQUARE_CASES) :].replace(
    b"\nknown 0 5\n", b"\nknown 00 5\n"
)
KNOWN_CASES = SQUARE_CASES.replace(b"\nopen 5 2\n", b"\nopen 4 3\n")
KNOWN = b"case 0 known 4\n"


def numbered(count: int) -> bytes:
    """A case of so many lines, of which all but three are known positions."""
    known = "".join(f"known {at} 1\n" for at in range(0, 2 * (count - 4) + 1, 2))
    return f"case 5000 20001 1\n{known}open 20001 1\nend\n".encode()
