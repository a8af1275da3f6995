"""Worked examples of traces that are damaged, and of records that are odd."""

from .worked_reports import example, flow, repairs, report
from .worked_traces import MAGIC, TEN, media, record, row, trace


def inspected(number: int, port: int, length: int, rest: str) -> str:
    return f"{number} 0 {port} {length} {rest}\n"


LINES = [inspected(i, 5000, 1328, f"media seq {10 + i} len 1316") for i in range(3)]

# The commands that read a trace.
READERS = ["repair flow=5000", "inspect flow=5000", "tocap"]


def damaged() -> None:
    whole = trace(TEN)
    example("three_inspected", "inspect flow=5000", whole, "".join(LINES))
    for place in range(8):
        flipped = whole[:place] + bytes([whole[place] ^ 1]) + whole[place + 1 :]
        for reader in READERS:
            command = reader.split()[0]
            told = f"not a trace at byte {place}\n"
            example(
                f"magic_flipped_at_{place}_{command}",
                reader,
                flipped,
                status=4,
                told=told,
            )
            example(
                f"magic_cut_at_{place}_{command}",
                reader,
                MAGIC[:place],
                status=4,
                told=told,
            )
    # The magic has 8 bytes, and each record 1,340. A trace that ends between two
    # records is whole. Each length is tried where the trace is read, below the
    # commands.
    for length in (
        8,
        9,
        19,
        20,
        1347,
        1348,
        1349,
        1360,
        2687,
        2688,
        2689,
        2700,
        4000,
        4027,
    ):
        records, rest = divmod(length - 8, 1340)
        place = 8 + 1340 * records
        told = f"cut at byte {place}\n" if rest else ""
        status = 4 if rest else 0
        out = report(flow(records, min(records, 1)), tail=told)
        repairs(
            f"cut_at_{length}",
            whole[:length],
            out,
            TEN_NUMBERS[:records],
            "workers=0",
            status=status,
            told=told,
        )
        example(
            f"cut_at_{length}_inspected",
            "inspect flow=5000",
            whole[:length],
            "".join(LINES[:records]),
            status=status,
            told=told,
        )
    # The third record begins at byte 2,688.
    too_long = "too long at byte 2688\n"
    repairs(
        "more_bytes_than_there_may_be",
        TEN,
        report(flow(2, 1), tail=too_long),
        [10, 11],
        "max=2700",
        status=5,
        told=too_long,
    )


TEN_NUMBERS = [10, 11, 12]


def odd_records() -> None:
    # A record of the datagram on each of the three ports: bytes that are missing, and
    # payloads of the wrong size.
    bad_ones = report(flow(0, 0, media={"bad": 1}, column={"bad": 1}, row={"bad": 1}))
    for name, length, sent, other, kinds in (
        ("records_without_a_byte", 0, b"", b"", (1, 1, 1)),
        (
            "the_longest_records",
            65535,
            media(0)[1].ljust(65535, b"\0"),
            row(0)[1].ljust(65535, b"\0"),
            (5, 6, 6),
        ),
    ):
        given = (
            MAGIC
            + record(0, 5000, sent)
            + record(0, 5002, other)
            + record(0, 5004, other)
        )
        repairs(f"{name}_are_bad", given, bad_ones, [])
        named = zip(("media", "column", "row"), kinds)
        lines = [
            inspected(i, 5000 + 2 * i, length, f"{kind} bad {fault}")
            for i, (kind, fault) in enumerate(named)
        ]
        example(f"{name}_inspected", "inspect flow=5000", given, "".join(lines))
    # Offsets and counts of parity. The first three have fault 5. The last is one that
    # may be, whose last slot is 99 past its first, and the second parity of one base
    # and one shape is a duplicate, also on another port.
    given, lines = trace([media(0)]), [inspected(0, 5000, 1328, "media seq 0 len 1316")]
    for offset, na in ((0, 4), (4, 0), (20, 6), (9, 12)):
        plain = row(0)[1]
        shaped = plain[:25] + bytes([offset, na]) + plain[27:]
        given += record(0, 5002, shaped) + record(0, 5004, shaped)
        told = f"base 0 offset {offset} na {na}" if na == 12 else "bad 5"
        lines += [
            inspected(len(lines) + i, 5002 + 2 * i, 1344, f"{kind} {told}")
            for i, kind in enumerate(("column", "row"))
        ]
    repairs(
        "shapes_that_may_not_be_are_bad",
        given,
        report(
            flow(1, 1, column={"admitted": 1, "bad": 3}, row={"duplicate": 1, "bad": 3})
        ),
        [0],
    )
    example("shapes_inspected", "inspect flow=5000", given, "".join(lines))
