"""Makes a trace to try repair on, the same at each call.

fgate-make-trace [--columns N] [--rows N] [--datagrams N] [--drop N ..] [--loss PERCENT]
                 TRACE [STREAM]

It is a stream of made transport packets, encoded with parity of its rows and columns,
and some records left out. Media is on port 5000, column parity on 5002 and row parity
on 5004 (SMPTE ST 2022-1 over SMPTE ST 2022-2), at 10 Mb/s. Columns begin at the first
row of their matrix. The last line of output says how many records there are. The status
is 1 where a file can't be written, and 2 where the words can't be read.
"""

import argparse
import random
import struct
import sys
from collections.abc import Iterable, Iterator, Sequence

from fgate import command, traces

NAME = "fgate-make-trace"
PORT, PACKETS, PACKET = 5000, 7, 188
SIZE = PACKETS * PACKET
# Made packets hold bytes below 32 alone, so that a trace in the repository has no text
# by chance.
SMALL = bytes(byte % 32 for byte in range(256))


def rtp(payload_type: int, sequence: int, stamp: int) -> bytes:
    """Give an RTP header without a marker, of source 0."""
    return struct.pack(">BBHII", 0x80, payload_type, sequence % 65536, stamp, 0)


class Equation:
    """The XOR of the datagrams of a row or a column so far."""

    def __init__(self, base: int) -> None:
        self.base = base
        self.stamp, self.length, self.payload_type, self.payload = 0, 0, 0, 0

    def add(self, stamp: int, payload: bytes) -> None:
        """Sum a datagram."""
        self.stamp ^= stamp
        self.length ^= len(payload)
        self.payload_type ^= 33
        self.payload ^= int.from_bytes(payload, "big")

    def datagram(
        self, sequence: int, stamp: int, is_row: bool, offset: int, count: int
    ) -> bytes:
        """Give the parity datagram of all that was summed."""
        parity = struct.pack(
            ">HHBBBBIBBBB",
            self.base % 65536,
            self.length,
            0x80 | self.payload_type,
            *(0, 0, 0),
            self.stamp,
            0x40 if is_row else 0,
            offset,
            count,
            0,
        )
        return rtp(96, sequence, stamp) + parity + self.payload.to_bytes(SIZE, "big")


def made_packet(number: int, draw: random.Random) -> bytes:
    """Give the transport packet of this number."""
    header = b"\x47\x01\x00" + bytes([0x10 + number % 16])
    return header + draw.randbytes(PACKET - 4).translate(SMALL)


def payloads(datagrams: int, draw: random.Random) -> Iterator[bytes]:
    """Give the payloads of so many media datagrams."""
    for slot in range(datagrams):
        numbers = range(slot * PACKETS, (slot + 1) * PACKETS)
        yield b"".join(made_packet(number, draw) for number in numbers)


def encoding(
    stream: Iterable[bytes], columns: int, rows: int
) -> Iterator[traces.Record]:
    """Give the records of the encoding."""
    of_columns: dict[int, Equation] = {}
    of_row: Equation | None = None
    column_sequence = row_sequence = 0
    for slot, payload in enumerate(stream):
        bits = slot * SIZE * 8
        time, stamp = bits // 10, bits * 9 // 1000 % 2**32
        yield traces.Record(time, PORT, rtp(33, slot, stamp) + payload)
        row, column = divmod(slot % (columns * rows), columns)
        of_columns.setdefault(column, Equation(slot)).add(stamp, payload)
        of_row = of_row or Equation(slot)
        of_row.add(stamp, payload)
        if row == rows - 1:
            ended = of_columns.pop(column)
            parity = ended.datagram(column_sequence, stamp, False, columns, rows)
            yield traces.Record(time, PORT + 2, parity)
            column_sequence += 1
        if column == columns - 1:
            parity = of_row.datagram(row_sequence, stamp, True, 1, columns)
            yield traces.Record(time, PORT + 4, parity)
            row_sequence += 1
            of_row = None


def left_of(
    records: Iterable[traces.Record], dropped: Sequence[int], loss: float
) -> Iterator[traces.Record | None]:
    """Give each record, or None where it is left out."""
    losses = random.Random(1)
    for number, record in enumerate(records):
        is_lost = losses.random() * 100 < loss
        is_out = number in dropped or (is_lost and number > 0)
        yield None if is_out else record


def read_words(arguments: Sequence[str] | None) -> argparse.Namespace:
    """Read the words of the command."""
    words = command.Parser(NAME, __doc__)
    words.add_argument("trace", help="the file that gets the records that are left")
    words.add_argument(
        "stream",
        nargs="?",
        help="the file that gets the transport packets that were encoded",
    )
    for name in ("--columns", "--rows"):
        words.add_argument(
            name, type=command.whole(1, 255), default=10, metavar="N", help="10"
        )
    words.add_argument(
        "--datagrams",
        type=command.whole(0, 2**32),
        default=1000,
        metavar="N",
        help="how many media datagrams are encoded; 1000",
    )
    words.add_argument(
        "--drop",
        type=command.whole(0, 2**63),
        action="append",
        default=[],
        metavar="N",
        help="leave this record out, counted from 0",
    )
    words.add_argument(
        "--loss",
        type=float,
        default=0,
        metavar="PERCENT",
        help="leave out each but the first with this chance in a hundred",
    )
    return words.parse_args(arguments)


def write(asked: argparse.Namespace) -> tuple[int, int]:
    """Write the trace and the stream, and give how many records are left and lost."""
    left = lost = 0
    stream = list(payloads(asked.datagrams, random.Random(2022)))
    records = encoding(stream, asked.columns, asked.rows)
    with open(asked.trace, "wb") as trace:
        trace.write(traces.MAGIC)
        for record in left_of(records, asked.drop, asked.loss):
            if record is None:
                lost += 1
                continue
            left += 1
            trace.write(traces.spelled(record))
    if asked.stream:
        with open(asked.stream, "wb") as packets:
            packets.writelines(stream)
    return left, lost


def main(arguments: Sequence[str] | None = None) -> int:
    """Make the files that are asked for, and give the command's status."""
    try:
        left, lost = write(read_words(arguments))
    except OSError as fault:
        print(f"{NAME}: {fault.filename}: {fault.strerror}", file=sys.stderr)
        return 1
    print(f"{left} records left, {lost} lost")
    return 0


if __name__ == "__main__":
    sys.exit(main())
