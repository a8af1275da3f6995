"""Worked examples of repairs."""

from .worked_reports import Counts, example, flow, repairs, report
from .worked_traces import (
    Sent,
    BAD,
    BLOCK,
    FLIPPED,
    MAGIC,
    SQUARE,
    TEN,
    TWO_PASSES,
    column,
    media,
    on_flows,
    record,
    row,
    row_from,
    stream,
    timed,
    trace,
)


def one_flow() -> None:
    everything = range(16)
    repairs("three_in_order", TEN, report(flow(3, 1)), [10, 11, 12])
    repairs("the_magic_alone", [], report(flow(0, 0)), [])
    # Column 1 gives 5, then row 1 gives 6, column 2 gives 10, and row 2 gives 11.
    repairs(
        "block_of_two_passes",
        trace(BLOCK, lost=TWO_PASSES),
        report(flow(16, 1, repaired=4, column={"admitted": 3}, row={"admitted": 4})),
        everything,
    )
    repairs(
        "four_lost_in_a_square",
        trace(BLOCK, lost=SQUARE),
        report(
            flow(12, 1, missing=4, column={"admitted": 4}, row={"admitted": 4}),
            more="gap 5000 5 2\ngap 5000 9 2\n",
        ),
        [0, 1, 2, 3, 4, 7, 8, 11, 12, 13, 14, 15],
    )
    repairs(
        "order_is_that_of_sequence_numbers",
        [media(65534), media(65535), media(1), media(0)],
        report(flow(4, 1)),
        [65534, 65535, 0, 1],
    )
    # Media 4 plays 0 to 3 first, so 2 is late.
    repairs(
        "played_before_what_makes_it_due",
        [media(0), media(1), media(3), media(4), media(2)],
        report(flow(4, 2, missing=1, media={"late": 1}), more="gap 5000 2 1\n"),
        [0, 1, 3, 4],
        "window=4 depth=4",
    )
    repairs(
        "parity_before_any_media",
        [column(0), row(0), media(0)],
        report(flow(1, 1, column={"notstarted": 1}, row={"notstarted": 1})),
        [0],
    )
    # All media are there, and one equation of them does not hold.
    repairs(
        "a_flipped_bit",
        FLIPPED,
        report(
            flow(16, 1, inconsistent=1, column={"admitted": 4}, row={"admitted": 4})
        ),
        everything,
    )
    # Row 1 and column 1 give two words for 5.
    repairs(
        "two_words_for_one_slot",
        trace(FLIPPED, lost=[6]),
        report(
            flow(
                15,
                1,
                missing=1,
                inconsistent=1,
                column={"admitted": 4},
                row={"admitted": 4},
            ),
            more="gap 5000 5 1\n",
        ),
        [it for it in everything if it != 5],
    )
    # The first row of the block without media 2, the parity of row 0 under an RTP
    # header that begins otherwise, and media datagrams with an extension bit and of 11
    # bytes: the parity gives 2, and the last two are bad.
    odd = 4, b"\xbf\xff" + row(0)[1][2:]
    extended = 0, b"\x90\x21" + media(4)[1][2:]
    repairs(
        "what_is_ignored_and_what_is_bad",
        [media(0), media(1), media(3), odd, extended, BAD],
        report(flow(4, 1, repaired=1, media={"bad": 2}, row={"admitted": 1})),
        [0, 1, 2, 3],
    )


def restarts() -> None:
    # 500 begins a run behind 11, and 12 is then of the sender before.
    repairs(
        "restarted",
        [
            media(10, 1),
            media(11, 1),
            media(500, 2),
            media(501, 2),
            media(12, 1),
            media(502, 2),
        ],
        report(flow(5, 2), more="runs 5000 2 foreign 1\n"),
        [10, 11, 500, 501, 502],
    )
    # The parity from 8 on goes with the first run. That from 499 on begins before the
    # second one, and that from 500 on gives 501.
    repairs(
        "parity_on_both_sides",
        [
            media(8, 1),
            media(9, 1),
            row_from(8),
            media(500, 2),
            row_from(499),
            media(502, 2),
            media(503, 2),
            row_from(500),
        ],
        report(
            flow(6, 2, repaired=1, row={"admitted": 2, "beforestart": 1}),
            more="runs 5000 2 foreign 0\n",
        ),
        [8, 9, 500, 501, 502, 503],
    )
    # The sender of the first run begins the fourth one.
    for words in ("", "workers=0"):
        repairs(
            f"four_runs{words[:7]}",
            [media(10, 1), media(20, 2), media(30, 3), media(40, 1)],
            report(flow(4, 4), more="runs 5000 4 foreign 0\n"),
            [10, 20, 30, 40],
            words,
        )


def jumps() -> None:
    # Half of all numbers back is before the first one.
    repairs(
        "half_of_all_numbers_back",
        [media(0), media(32768)],
        report(flow(1, 1, media={"late": 1})),
        [0],
    )
    # Position 32,767 plays windows of 100 until it is less than 400 past the mark: 324,
    # up to position 32,399. The last is at position -1. Four more windows are flushed.
    repairs(
        "forth_and_back",
        [media(0), media(32767), media(65535)],
        report(
            flow(2, 328, missing=32766, media={"late": 1}), more="gap 5000 1 32766\n"
        ),
        [0, 32767],
    )
    # Position 65,534 plays 328 windows more, up to position 65,199. The last is at
    # position 32,766, which is played and empty, and stays so. Four more windows are
    # flushed.
    repairs(
        "twice_forth_and_back",
        [media(0), media(32767), media(65534), media(32766)],
        report(
            flow(3, 656, missing=65532, media={"late": 1}),
            more="gap 5000 1 32766\ngap 5000 32768 32766\n",
        ),
        [0, 32767, 65534],
    )


def held() -> None:
    last = {
        at: [
            (0, media(0)),
            (500, media(1)),
            (900, media(3)),
            (1500, media(4)),
            (at, media(2)),
        ]
        for at in (1600, 1900)
    }
    in_time = report(flow(5, 2))
    for workers in (0, 1, 4):
        words = f"window=4 depth=8 hold=1000 workers={workers}"
        # At 1500 positions 0 and 1 are held, and are played. The flush plays 2 to 4.
        repairs(
            f"last_within_the_hold_by_{workers}",
            timed(last[1600]),
            in_time,
            range(5),
            words,
        )
        # At 1900 position 3 is held, and 2 and 3 are played.
        repairs(
            f"last_past_the_hold_by_{workers}",
            timed(last[1900]),
            report(flow(4, 3, missing=1, media={"late": 1}), more="gap 5000 2 1\n"),
            [0, 1, 3, 4],
            words,
        )
    # Media 4 of a window of 4 is not due yet, and nothing is held.
    repairs(
        "a_hold_longer_than_the_trace",
        timed(last[1900]),
        in_time,
        range(5),
        "window=4 depth=8 hold=3600000000",
    )
    # The clock stays at 2000 while times go back, so 2 is not held before 3000.
    repairs(
        "times_that_go_back",
        timed([(2000, media(0)), (100, media(2)), (2999, media(1)), (3000, media(3))]),
        report(flow(4, 2)),
        range(4),
        "hold=1000",
    )
    repairs(
        "all_at_one_time",
        timed([(7, media(0)), (7, media(2)), (7, media(1))]),
        report(flow(3, 1)),
        range(3),
        "hold=1",
    )
    # 0 is played at 1, and 1 and 2 at 2.
    repairs(
        "the_shortest_hold",
        timed([(0, media(0)), (1, media(2)), (1, media(1)), (2, media(3))]),
        report(flow(4, 3)),
        range(4),
        "hold=1",
    )
    # The time of 1 and the hold make more than 64 bits. At the last time 2 is held to
    # the microsecond, and 1 and 2 are played.
    end = 2**64 - 1
    repairs(
        "the_greatest_hold",
        timed(
            [
                (0, media(0)),
                (end - 3_600_000_000, media(2)),
                (end - 1, media(1)),
                (end, media(4)),
                (5, media(3)),
            ]
        ),
        report(flow(5, 3)),
        range(5),
        "hold=3600000000",
    )
    # The parity plays 0 to 2, which all its datagrams but 3 are of. So does a datagram
    # that is bad, or of another sender.
    kinds: list[tuple[str, Sent, Counts, Counts]] = [
        ("parity", row(0), {"late": 1}, {"late": 1}),
        ("a_bad_datagram", BAD, {"late": 1, "bad": 1}, {}),
    ]
    for name, at_1000, media_counts, row_counts in kinds:
        repairs(
            f"{name}_moves_the_clock",
            timed([(0, media(0)), (0, media(2)), (1000, at_1000), (500, media(1))]),
            report(
                flow(2, 1, missing=1, media=media_counts, row=row_counts),
                more="gap 5000 1 1\n",
            ),
            [0, 2],
            "hold=1000",
        )
    repairs(
        "a_foreign_datagram_moves_the_clock",
        timed(
            [
                (0, media(0, 1)),
                (0, media(5, 2)),
                (0, media(7, 2)),
                (1000, media(1, 1)),
                (500, media(6, 2)),
            ]
        ),
        report(
            flow(3, 2, missing=1, media={"late": 1}),
            more="runs 5000 2 foreign 1\ngap 5000 2 1\n",
        ),
        [0, 5, 7],
        "hold=1000",
    )
    # At 1000 only 0 is held. The restart then plays 1 to 4, and 5.
    repairs(
        "a_restart_plays_what_is_not_held",
        timed([(0, media(0, 1)), (500, media(5, 1)), (1000, media(500, 2))]),
        report(flow(3, 4, missing=4), more="runs 5000 2 foreign 0\ngap 5000 1 4\n"),
        [0, 5, 500],
        "window=4 depth=8 hold=1000",
    )
    # A record of another flow moves no clock.
    given = on_flows(
        [
            (0, 5000, media(0)),
            (0, 5000, media(2)),
            (1000, 6000, media(0)),
            (1000, 4999, media(0)),
            (500, 5000, media(1)),
        ]
    )
    example(
        "a_record_of_another_flow_moves_no_clock",
        "repair flow=5000 flow=6000 hold=1000",
        given,
        report(flow(3, 1), flow(1, 1, port=6000), other=1),
        {5000: stream([0, 1, 2]), 6000: stream([0])},
    )


def several_flows() -> None:
    everything = range(16)
    first = flow(16, 1, repaired=4, column={"admitted": 3}, row={"admitted": 4})
    # The second flow begins with media 3.
    second = flow(
        13,
        1,
        port=7000,
        column={"admitted": 1, "beforestart": 3},
        row={"admitted": 3, "beforestart": 1},
    )
    sent = []
    for number, it in enumerate(BLOCK):
        sent += [(0, 5000, it)] * (number not in TWO_PASSES) + [(0, 7000, it)] * (
            number > 2
        )
    given, lanes = on_flows(sent), {
        5000: stream(everything),
        7000: stream(everything[3:]),
    }
    example(
        "two_flows", "repair flow=5000 flow=7000", given, report(first, second), lanes
    )
    example(
        "two_flows_in_the_other_order",
        "repair flow=7000 flow=5000",
        given,
        report(second, first),
        lanes,
    )
    example(
        "records_of_another_flow_are_other",
        "repair flow=7000",
        given,
        report(second, other=19),
        {7000: lanes[7000]},
    )
    example(
        "one_of_two_flows_restarts",
        "repair flow=5000 flow=7000",
        on_flows(
            [
                (0, 5000, media(1, 1)),
                (0, 7000, media(1, 1)),
                (0, 5000, media(2, 1)),
                (0, 7000, media(9, 2)),
            ]
        ),
        report(flow(2, 1), flow(2, 2, port=7000), more="runs 7000 2 foreign 0\n"),
        {5000: stream([1, 2]), 7000: stream([1, 9])},
    )
    example(
        "a_flow_without_records",
        "repair flow=6000 flow=5000",
        on_flows([(0, 5000, it) for it in TEN] + [(0, 4999, media(0))]),
        report(flow(0, 0, port=6000), flow(3, 1), other=1),
        {6000: b"", 5000: stream([10, 11, 12])},
    )
    ports = range(1000, 1640, 10)
    example(
        "sixty_four_flows",
        "repair " + " ".join(f"flow={port}" for port in ports),
        on_flows([(0, port, media(port)) for port in ports]),
        report(*(flow(1, 1, port=port) for port in ports)),
        {port: stream([port]) for port in ports},
    )


def batches() -> None:
    """Traces that a read gives at once, of more than a batch holds: 256 records, or
    those that are held whole.
    """
    # Each media datagram is the first of 64 records, so that each fourth of them is the
    # first record for which a batch has no room, and so is the last record.
    given = MAGIC
    for number in range(20):
        given += record(0, 5000, media(number)[1]) + 63 * record(0, 5000, b"\x47")
    example(
        "a_batch_that_ends_by_its_number",
        "repair flow=5000 flow=5010 flow=5020 window=4 depth=4 workers=2",
        given + record(0, 5010, media(7)[1]),
        report(
            flow(20, 5, media={"bad": 1260}),
            flow(1, 1, port=5010),
            flow(0, 0, port=5020),
        ),
        {5000: stream(range(20)), 5010: stream([7]), 5020: b""},
    )
    # A batch ends where the next record is not held whole. Here that is one of the
    # greatest.
    greatest = record(0, 5000, b"\x47" * 65535)
    example(
        "a_batch_that_ends_by_what_is_held",
        "repair flow=5000 flow=5010 workers=2",
        MAGIC
        + b"".join(
            record(0, 5000, media(number)[1]) + greatest for number in range(20)
        ),
        report(flow(20, 1, media={"bad": 20}), flow(0, 0, port=5010)),
        {5000: stream(range(20)), 5010: b""},
    )
