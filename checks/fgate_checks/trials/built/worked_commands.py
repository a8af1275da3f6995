"""Worked examples of the other commands: drills, cases of gaps, captures, encodings and
command lines.
"""

import struct
from collections.abc import Sequence

from .worked_reports import BEGUN, Example, example, flow, report
from .worked_traces import (
    BLOCK,
    MAGIC,
    PACKET,
    PAYLOAD,
    SQUARE,
    TEN,
    TWO_PASSES,
    media,
    payload,
    record,
    stamp,
    stream,
    trace,
)


def drills(
    name: str,
    words: str,
    datagrams: int,
    out: str,
    missing: Sequence[int] = (),
    length: int | None = None,
) -> None:
    numbers = [it for it in range(datagrams) if it not in missing]
    example(
        name,
        f"drill {words}",
        stream(range(datagrams))[:length],
        out,
        {5000: stream(numbers)[:length]},
    )


def drilled() -> None:
    four = {"admitted": 4}
    drills(
        "drill_of_two_passes",
        "columns=4 rows=4 ssrc=4294967295 drop=6 drop=7 drop=12 drop=13 drop=22",
        16,
        report(flow(16, 1, repaired=4, column={"admitted": 3}, row=four)),
    )
    # Each row and column of the four has two lost.
    drills(
        "drill_of_a_square",
        "columns=4 rows=4 drop=6 drop=7 drop=11 drop=12",
        16,
        report(
            flow(12, 1, missing=4, column=four, row=four),
            more="gap 5000 5 2\ngap 5000 9 2\n",
        ),
        (5, 6, 9, 10),
    )
    # Slot 25 plays the window of 0 to 24. Then the column of slots 6, 11, 16, 21 and 26
    # comes, and gives 26.
    staggered = "columns=5 rows=5 fec=column layout=staggered window=25 depth=25"
    drills(
        "column_after_its_first_slots",
        f"{staggered} ssrc=1 drop=27",
        50,
        report(flow(50, 2, repaired=1, column={"admitted": 6})),
    )
    # Three payloads of 1,316 bytes and one of 188, which the row gives.
    drills(
        "a_short_last_datagram",
        "columns=4 rows=4 drop=3",
        4,
        report(flow(4, 1, repaired=1, row={"admitted": 1})),
        length=4136,
    )
    # The column of slots 1, 5, 9 and 13 comes at 13,000 microseconds. Slot 6, of 6,000,
    # is held by then, and closes 5.
    drills(
        "held_until_its_parity",
        "columns=4 rows=4 fec=column rate=10528000 drop=5 hold=7000",
        16,
        report(
            flow(15, 9, missing=1, column={"admitted": 3, "late": 1}),
            more="gap 5000 5 1\n",
        ),
        [5],
    )
    # A microsecond more, and the column gives 5.
    drills(
        "held_longer_than_its_parity_takes",
        "columns=4 rows=4 fec=column rate=10528000 drop=5 hold=7001",
        16,
        report(flow(16, 8, repaired=1, column={"admitted": 4})),
    )
    # Of 2,400 records 64 are left out: 53 media, 5 columns and 6 rows. No row loses two
    # of its records.
    for workers in (0, 1, 4, 16):
        drills(
            f"each_37th_record_by_{workers}",
            f"columns=10 rows=10 window=100 depth=400 workers={workers} every=37",
            2000,
            report(
                flow(
                    2000,
                    20,
                    repaired=53,
                    column={"admitted": 195},
                    row={"admitted": 194},
                )
            ),
        )


def bursts() -> None:
    """Drills of two matrices of 10 by 10, with parity of columns, that lose so many
    media records from a slot on: the parity of a matrix's ten columns comes after the
    slots of its last row, each after its own.
    """
    sent = stream(range(29))[: 200 * PACKET]

    def lose(first: int, lost: int) -> str:
        records = [
            slot + slot // 100 * 10 + max(slot % 100 - 90, 0)
            for slot in range(first, first + lost)
        ]
        return "drill columns=10 rows=10 fec=column packets=1 " + " ".join(
            f"drop={it}" for it in records
        )

    # Ten slots in a row are in ten columns, or in two matrices.
    for first in range(1, 100):
        out = report(flow(200, 2, repaired=10, column={"admitted": 20}))
        example(
            f"ten_lost_from_{first}_come_back", lose(first, 10), sent, out, {5000: sent}
        )
    # Of eleven from slot 45 on, column 5 loses slots 45 and 55.
    left = sent[: 45 * PACKET] + sent[46 * PACKET : 55 * PACKET] + sent[56 * PACKET :]
    example(
        "eleven_lost_leave_two_out",
        lose(45, 11),
        sent,
        report(
            flow(198, 2, repaired=9, missing=2, column={"admitted": 20}),
            more="gap 5000 45 1\ngap 5000 55 1\n",
        ),
        {5000: left},
    )


CASE = """case 5000 0 16
known 0 5
known 7 2
known 11 5
line 0 1 4
line 4 1 4
line 8 1 4
line 0 4 4
line 1 4 4
line 2 4 4
line 3 4 4
line 12 1 4
open 5 2
open 9 2
end
"""


def gaps() -> None:
    example("a_square_is_proved", "prove flow=5000", trace(BLOCK, lost=SQUARE), CASE)
    # Parity gives them all back, and then there is nothing to prove.
    example(
        "what_comes_back_has_no_case", "prove flow=5000", trace(BLOCK, lost=TWO_PASSES)
    )
    case = CASE.encode()
    example("a_case_is_checked", "check", case, "case 0 yes\n")
    example("a_case_is_checked_within_its_size", "check max=157", case, "case 0 yes\n")
    for most, place in ((156, 153), (15, 15), (14, 0)):
        example(
            f"a_case_past_{most}_bytes",
            f"check max={most}",
            case,
            status=5,
            told=f"too long at byte {place}\n",
        )
    example(
        "a_limit_that_is_too_small",
        "check max=7",
        case,
        status=1,
        told="words: bad word 1\n",
    )
    # The second case of the first text is none because of its last line.
    example(
        "a_hole_alone",
        "check",
        b"case 1 0 1\nopen 0 1\nend\ncase 1 0 3\nline 0 1 3\nopen 1 1\nend\n",
        "case 0 yes\ncase 1 alone 0\n",
        status=10,
        told="unproved case 1\n",
    )
    example(
        "a_known_hole_and_half_a_case",
        "check",
        b"case 1 0 1\nknown 0 1\nopen 0 1\nend\ncase 1 0 3",
        "case 0 known 0\n",
        status=11,
        told="not a case at line 4\n",
    )
    example(
        "a_case_in_disorder",
        "check",
        b"case 1 0 1\nend\ncase 1 0 1\nopen 0 1\nknown 0 1\n",
        "case 0 disorder\n",
        status=11,
        told="not a case at line 4\n",
    )
    for words, told in (
        ("burst=5 most=20", "columns 10 rows 10"),
        ("burst=5 most=20 fec=column", "columns 5 rows 5"),
        ("most=15 fec=column burst=6", "columns 6 rows 7"),
        ("burst=10 most=19", "none"),
    ):
        example(f"plan {words}".replace(" ", "_"), f"plan {words}", MAGIC, f"{told}\n")


def captured(datagram: bytes) -> bytes:
    """The record of a capture with such a media datagram of flow 5000, at time 0: from
    10.0.0.1 to 10.0.0.2, with the checksum that RFC 1071 defines and none of UDP.
    """
    ip = bytes.fromhex("4500054c000040004011219f0a0000010a000002")
    udp = struct.pack(">HHHH", 5000, 5000, 8 + len(datagram), 0)
    frame = bytes.fromhex("020000000002" "020000000001" "0800") + ip + udp + datagram
    return struct.pack(">IIII", 0, 0, len(frame), len(frame)) + frame


def captures() -> None:
    whole = trace(TEN)
    head = b"\xa1\xb2\xc3\xd4\0\2\0\4\0\0\0\0\0\0\0\0\0\4\0\0\0\0\0\1"
    capture = head + b"".join(captured(datagram) for _, datagram in TEN)
    example("a_trace_becomes_a_capture", "tocap", whole, capture)
    example("the_capture_comes_back", "fromcap", capture, whole)
    cooked = head[:-1] + b"\x71"
    ethernet = b"\xd4\xc3\xb2\xa1\2\0\4\0\0\0\0\0\0\0\0\0\0\0\4\0\1\0\0\0"
    example("no_capture", "fromcap", b"", status=8, told="not a capture at byte 0\n")
    example(
        "a_capture_of_cooked_frames",
        "fromcap",
        cooked,
        status=8,
        told="not a capture at byte 20\n",
    )
    example(
        "a_capture_past_23_bytes",
        "fromcap max=23",
        ethernet,
        status=5,
        told="too long at byte 0\n",
    )
    example(
        "a_capture_is_no_trace",
        "tocap",
        cooked,
        status=4,
        told="not a trace at byte 0\n",
    )
    late = MAGIC + record(1_000_000 << 32, 5000, b"")
    example(
        "a_record_that_fits_no_capture",
        "tocap",
        late,
        head,
        status=8,
        told="record 0 does not fit a capture\n",
    )
    # A packet of PID 256 follows one with the counter 3, and has the counter 5.
    broken = b"".join(
        it.ljust(PACKET, b"\0") for it in (b"\x47\1\0\x13", b"\x47\1\0\x15")
    )
    example(
        "a_break_of_continuity",
        "monitor",
        broken,
        "packet 1 pid 256 counter 5 after 3\npackets 2 faults 1\n",
    )
    example(
        "a_byte_is_no_packet",
        "monitor",
        b"G",
        status=7,
        told="not transport: length 1\n",
    )


def encoded() -> None:
    packet = b"\x47" + bytes(187)
    # Only the magic is written.
    for name, words, behind, status, told in (
        ("unsynced", "", b"\x46" + bytes(187), 7, "not transport: packet 1"),
        ("ragged", "", b"\x47\0", 7, "not transport: length 190"),
        ("past_the_limit", " packets=1 max=187", packet, 5, "too long at byte 0"),
    ):
        example(
            f"{name}_stream",
            f"encode columns=4 rows=4{words}",
            packet + behind,
            MAGIC,
            status=status,
            told=f"{told}\n",
        )
    # Three whole datagrams and one of a packet, whose row gives the last: the lengths
    # 1316, 1316, 1316 and 188 sum to 0x0598. With 0x0540 the length is 100, which is no
    # packet's.
    short = stream(range(4))[: 22 * PACKET]
    stamps, summed = (
        0,
        int.from_bytes(short[-PACKET:] + bytes(PAYLOAD - PACKET), "big"),
    )
    for number in range(3):
        stamps ^= stamp(number)
        summed ^= int.from_bytes(payload(number), "big")
    stamps ^= stamp(3)
    for length, out, lane in (
        (0x0598, report(flow(4, 1, repaired=1, row={"admitted": 1})), short),
        (
            0x0540,
            report(
                flow(3, 1, missing=1, inconsistent=1, row={"admitted": 1}),
                more="gap 5000 3 1\n",
            ),
            short[:-PACKET],
        ),
    ):
        head = (
            b"\x80\x60"
            + bytes(10)
            + struct.pack(
                ">HHBBBBIBBBB", 0, length, 0x80, 0, 0, 0, stamps, 0x40, 1, 4, 0
            )
        )
        given = trace(
            [media(0), media(1), media(2), (4, head + summed.to_bytes(PAYLOAD, "big"))]
        )
        example(
            f"a_length_sum_of_{length}", "repair flow=5000", given, out, {5000: lane}
        )


def command_lines() -> None:
    def many(count: int) -> str:
        return " ".join(f"flow={5000 + 10 * i}" for i in range(count))

    for name, line, told in (
        ("no_command", "", "no command"),
        ("missing_flow", "repair", "missing flow"),
        ("missing_columns", "encode rows=4", "missing columns"),
        ("missing_rows", "encode columns=4", "missing rows"),
        ("missing_seed", "sample datagrams=1", "missing seed"),
        ("missing_burst", "plan most=20", "missing burst"),
        ("missing_most", "plan burst=5", "missing most"),
        ("help_before_a_command", "--help repair", "bad word 0"),
        ("flows_that_clash", "repair flow=5000 flow=5002", "flows 4 at 1"),
        (
            "a_depth_below_the_window",
            "repair window=50 flow=5000 depth=20",
            "depth below window at word 3",
        ),
        ("no_hold", "repair flow=5000 window=4 depth=8 hold=0", "bad word 4"),
        ("rows_of_three", "encode columns=3 rows=4 fec=both", "layout 4"),
        ("a_matrix_of_120", "encode columns=20 rows=6", "layout 3"),
        ("a_matrix_without_columns", "encode rows=99 columns=0", "layout 1"),
        ("a_matrix_of_three_rows", "drill rows=3 columns=4", "layout 2"),
        ("sixty_five_flows", "repair " + many(65), "flows 2"),
        ("a_last_flow_that_clashes", f"repair {many(63)} flow=5002", "flows 4 at 63"),
        ("a_bad_twelfth_word", f"repair {many(11)} flow=0", "bad word 12"),
    ):
        example(name, line, MAGIC, status=1, told=f"words: {told}\n")
    example("version", "--version", b"", "fgate 0.1.0\n")
    # 100 media records, 10 columns and 10 rows.
    said = "sample seed 1 datagrams 100 records 120 lost 0\n" + report(
        flow(100, 1, column={"admitted": 10}, row={"admitted": 10})
    )
    asked = "sample seed=1 datagrams=100 loss=0 workers=0"
    BEGUN["a_sample_without_losses"] = Example(asked, b"", said.encode(), None, 0, b"")
