"""Cases of one machine: captures of all kinds, and runs that are started again."""

import json
import os
import random
import shutil

from .nights import (
    wrapped,
    Trial,
    a_night,
    case,
    finished,
    in_time,
    link,
    one_process,
    parts_of,
    read_when_there,
    same,
    stalling,
    wanted,
)


@case
def as_one_process() -> None:
    """Seventy flows in captures and a trace: two sets, and all as one process's.
    Started again, nothing is made anew.
    """
    flows = list(range(5000, 5700, 10))
    records = in_time([link(flow, 50) for flow in flows])
    with a_night(flows) as night:
        first, *others = parts_of(records, 4)
        night.keep("a.trace", first, as_trace=True)
        for name, part in zip("bcd", others):
            night.keep(f"{name}.pcap", part)
        ended = night.run("--keep-pieces")
        ended.is_well()
        night.is_as(one_process(records, flows))
        same(
            ended.counts(
                "flows",
                "whole",
                "cuts_made",
                "pieces_made",
                "repairs_made",
                "flows_made",
            ),
            (70, 70, 4, 8, 2, 70),
            "what was made",
        )
        with open(os.path.join(night.out, "flows.txt"), encoding="ascii") as file:
            same(len(file.read().splitlines()), 71, "lines of the table")
        with open(os.path.join(night.out, "flows.json"), encoding="ascii") as file:
            table = json.load(file)
        same([one["port"] for one in table["flows"]], flows, "flows of the table")
        same(
            all(one["whole"] and one["shown"] == 50 for one in table["flows"]),
            True,
            "shown of the table",
        )
        again = night.run()
        again.is_well()
        same(
            again.counts("whole", "cuts_made", "repairs_made", "flows_kept"),
            (70, 0, 0, 70),
            "what was made the second time",
        )
        same(night.pieces(), {}, "pieces when all is whole")


@case
def small_sets() -> None:
    """Many small sets are picked in two steps, and are the same."""
    flows = list(range(5000, 5100, 10))
    records = in_time([link(flow, 100) for flow in flows])
    with a_night(flows) as night:
        night.keep_parts(records, 2)
        night.keep("z.trace", [], as_trace=True)
        ended = night.run("--sets", "5")
        ended.is_well()
        night.is_as(one_process(records, flows))
        same(ended.counts("pieces_made", "repairs_made"), (15, 5), "pieces and sets")


@case
def sets_have_as_many_records() -> None:
    """One flow has as many records as six others, and stands alone."""
    flows = list(range(5000, 5070, 10))
    with a_night(flows) as night:
        night.keep_parts(
            in_time([link(flow, 600 if flow == 5030 else 100) for flow in flows])
        )
        night.run("--keep-pieces").is_well()
        with open(os.path.join(night.out, "work/plan.json"), encoding="ascii") as file:
            sets = json.load(file)["sets"]
        same(
            sorted(sets, key=len),
            [[5030], [flow for flow in flows if flow != 5030]],
            "sets",
        )


@case
def set_that_kills_its_workers() -> None:
    """After some workers the engine gives it up. The others come out."""
    flows = list(range(5000, 5080, 10))
    records = in_time([link(flow) for flow in flows])
    with a_night(flows) as night:
        night.keep_parts(records)
        kills = 'case "$*" in repair*flow=5020*) kill -9 $PPID;; esac'
        night.program = wrapped(night.folder, kills)
        ended = night.run("--sets", "4")
        same(
            (ended.status, ended.errors, ended.counts("whole")),
            (1, "", (6,)),
            "status, errors and whole flows",
        )
        same(
            [(one["flow"], one["line"]) for one in ended.failed()],
            [(flow, "each worker that began it died") for flow in (5020, 5060)],
            "faults",
        )
        night.is_as(
            one_process(records, flows),
            [flow for flow in flows if flow not in (5020, 5060)],
        )
        night.program = Trial.program
        again = night.run()
        again.is_well()
        night.is_as(one_process(records, flows))


@case
def capture_cut_off() -> None:
    """Of a capture that is cut off the whole records count, and it is told."""
    flows = [5000, 5010, 5020]
    records = in_time([link(flow, 300) for flow in flows])
    first, second, third = parts_of(records, 3)
    for as_trace, command in ((False, "fromcap"), (True, "pick")):
        with a_night(flows) as night:
            night.keep("1", first)
            night.keep("2", second, as_trace=as_trace, less=5)
            night.keep("3", third)
            ended = night.run()
            night.is_as(one_process(first + second[:-1] + third, flows))
            same(
                (ended.status, ended.errors, ended.counts("whole")),
                (1, "", (3,)),
                "status, errors and whole flows",
            )
            (fault,) = ended.failed()
            same(
                (
                    fault["capture"],
                    fault["command"],
                    fault["status"],
                    fault["line"][:12],
                ),
                ("2", command, 4, "cut at byte "),
                "fault",
            )
            with open(os.path.join(night.out, "failed.txt"), encoding="ascii") as file:
                wanted(
                    file.read().startswith(
                        f"capture 2 {command} status 4: cut at byte "
                    ),
                    "failed.txt doesn't tell it",
                )
            again = night.run()
            same(
                (
                    again.status,
                    len(again.failed()),
                    again.counts("cuts_made", "repairs_made"),
                ),
                (1, 1, (0, 0)),
                "what is told again",
            )


@case
def no_captures() -> None:
    """What is no capture gives nothing and is told; so does an empty file."""
    flows = [5000, 5010]
    records = in_time([link(flow) for flow in flows])
    with a_night(flows) as night:
        night.keep("1.pcap", records)
        for name, data in (("2.txt", b"a remark on the night"), ("3.pcap", b"")):
            with open(os.path.join(night.captures, name), "wb") as file:
                file.write(data)
        ended = night.run()
        night.is_as(one_process(records, flows))
        same(
            [(one["capture"], one["status"]) for one in ended.failed()],
            [("2.txt", 8), ("3.pcap", 8)],
            "faults",
        )
        same(ended.status, 1, "status")


@case
def two_recorders_that_overlap() -> None:
    """Two recorders of the same links lose different records, and are merged by time;
    those of the first come first.
    """
    flows = [5000, 5010, 5020]
    whole = in_time([link(flow, 400, lost=0) for flow in flows])
    draw = random.Random(7)
    east, west = (
        [one for one in whole[from_:to] if draw.random() >= 0.2]
        for from_, to in ((0, len(whole) * 3 // 4), (len(whole) // 4, len(whole)))
    )
    with a_night(flows) as night:
        for name, records in (("east", east), ("west", west)):
            for number, part in enumerate(parts_of(records, 3)):
                night.keep(
                    f"{name}/{number}.pcap",
                    part,
                    as_trace=number == 1 and name == "east",
                )
        ended = night.run()
        ended.is_well()
        expected = one_process(sorted(east + west, key=lambda one: one[0]), flows)
        night.is_as(expected)
        wanted(
            all(
                "duplicate 0" not in report.splitlines()[1]
                for _, report in expected.values()
            ),
            "no datagram came twice",
        )
        # As captures of one recorder they aren't in order: it says so.
        shutil.rmtree(night.out)
        for name in ("east", "west"):
            for number in range(3):
                os.rename(
                    os.path.join(night.captures, name, f"{number}.pcap"),
                    os.path.join(night.captures, f"{name}-{number}.pcap"),
                )
        ended = night.run()
        same(
            [
                "west-0.pcap begins before east-2.pcap" in one.get("event", "")
                for one in ended.told
            ].count(True),
            1,
            "remarks on their order",
        )


@case
def flow_without_records() -> None:
    """Its lane is empty, and its report says so."""
    flows = [5000, 5010, 6000]
    records = in_time([link(flow) for flow in flows[:2]])
    with a_night(flows) as night:
        night.keep_parts(records)
        night.run().is_well()
        night.is_as(one_process(records, flows))
        same(
            (night.lane(6000), night.lane(6000, "report").split()[3]),
            (b"", b"0"),
            "what the flow has",
        )


@case
def flow_that_cannot_be_written() -> None:
    """A folder stands where its lane belongs: it fails alone. Once that is gone it is
    made, and nothing else.
    """
    flows = [5000, 5010, 5020, 5030]
    records = in_time([link(flow) for flow in flows])
    expected = one_process(records, flows)
    with a_night(flows) as night:
        night.keep_parts(records)
        os.makedirs(os.path.join(night.out, "5010.ts"))
        ended = night.run()
        night.is_as(expected, [5000, 5020, 5030])
        same(
            (
                ended.status,
                [one["flow"] for one in ended.failed()],
                ended.counts("flows_made"),
            ),
            (1, [5010], (3,)),
            "status, fault and flows",
        )
        os.rmdir(os.path.join(night.out, "5010.ts"))
        again = night.run()
        again.is_well()
        night.is_as(expected)
        same(
            again.counts(
                "cuts_made", "pieces_made", "repairs_made", "flows_made", "flows_kept"
            ),
            (0, 0, 1, 1, 3),
            "what was made again",
        )


@case
def flow_that_is_too_large() -> None:
    """Past a limit on the size of files the program ends with a write fault, or by a
    signal: the flow that is too large ends no other.
    """
    flows = [5000, 5010, 5020, 5030, 5040]
    records = in_time([link(flow, 2000 if flow == 5020 else 150) for flow in flows])
    expected = one_process(records, flows)
    with a_night(flows) as night:
        limits = '[ "$1" = repair ] && ulimit -f 256 && trap "" XFSZ'
        night.program = wrapped(night.folder, limits)
        night.keep_parts(records)
        ended = night.run("--sets", "1")
        night.is_as(expected, [5000, 5010, 5030, 5040])
        same(
            [(one["flow"], one["status"], one["line"]) for one in ended.failed()],
            [(5020, 3, "write fault")],
            "fault",
        )
        same((ended.status, ended.counts("whole")), (1, (4,)), "status and whole flows")
        wanted(
            not os.path.exists(os.path.join(night.out, "5020.ts")),
            "there is a lane that isn't whole",
        )


@case
def only_what_changed() -> None:
    """A further capture is cut alone; other words cut nothing; a lane that was changed
    is made again, alone.
    """
    flows = [5000, 5010, 5020]
    records = in_time([link(flow, 300) for flow in flows])
    first, second = parts_of(records, 2)
    with a_night(flows) as night:
        night.keep("1.pcap", first)
        night.run("--keep-pieces").is_well()
        night.is_as(one_process(first, flows))
        night.keep("2.pcap", second)
        ended = night.run("--keep-pieces")
        ended.is_well()
        night.is_as(one_process(records, flows))
        same(
            ended.counts("cuts_made", "pieces_kept", "flows_made"),
            (1, 2, 3),
            "what a further capture made",
        )
        ended = night.run("--keep-pieces", "--window", "1", "--depth", "1")
        same(ended.counts("cuts_made", "flows_made"), (0, 3), "what other words made")
        ended = night.run("--keep-pieces")
        night.is_as(one_process(records, flows))
        with open(os.path.join(night.out, "5010.ts"), "ab") as file:
            file.write(b"more")
        ended = night.run("--keep-pieces")
        night.is_as(one_process(records, flows))
        same(
            ended.counts("cuts_made", "repairs_made", "flows_made", "flows_kept"),
            (0, 1, 1, 2),
            "what a changed lane made",
        )


@case
def check_says_what_is_missing() -> None:
    """A program that isn't there, one without the command, a folder that isn't there;
    and a second run beside one.
    """
    with a_night([5000]) as night:
        night.keep_parts(in_time([link(5000)]))
        same(night.run("--check").status, 0, "status where all is there")
        for program, told in (
            ("/nowhere/fgate", "there is no program /nowhere/fgate"),
            ("/bin/false", "/bin/false has no pick"),
        ):
            night.program = program
            ended = night.run("--check")
            same(
                (ended.status, sum(told in one["event"] for one in ended.told)),
                (69, 3),
                f"status and remarks with {program}",
            )
            same(night.run().status, 69, f"status of a run with {program}")
        night.program, night.captures = Trial.program, "/nowhere"
        same(
            sum(
                "there is no folder /nowhere" in one["event"]
                for one in night.run("--check").told
            ),
            2,
            "remarks on the folder",
        )
    with a_night([5000, 5010]) as night:
        night.keep_parts(in_time([link(5000)]))
        night.program = stalling(night.folder, "pick")
        running = night.start()
        try:
            read_when_there(os.path.join(night.folder, "worker"))
            ended = night.run()
            same(
                (ended.status, "another fleet is at work" in ended.errors),
                (69, True),
                "status and line of a second run",
            )
        finally:
            with open(os.path.join(night.folder, "go"), "w", encoding="ascii"):
                pass
            finished(running).is_well()


@case
def bad_words() -> None:
    """Flows that share a port, no port, no flow: nothing is done."""
    with a_night([5000, 5002]) as night:
        night.keep_parts(in_time([link(5000)]))
        for text, told in (
            ("5000\n5002\n", "flows 5000 and 5002 have port 5002 in common"),
            ("5000 x\n", "x isn't a port"),
            ("# none\n", "there is no flow"),
        ):
            with open(
                os.path.join(night.folder, "flows"), "w", encoding="ascii"
            ) as file:
                file.write(text)
            ended = night.run()
            same(
                (ended.status, told in ended.errors),
                (64, True),
                f"status and line for {text!r}",
            )
