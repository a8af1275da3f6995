"""Writes a report of repair, drill or sample as one JSON object.

fgate-report-json < report > object

`flows` has an object for each flow in the report's order: its `port`, the numbers of
its line, objects `media`, `column` and `row` with those of theirs, `runs` with `runs`
and `foreign`, or null where the sender had one run, and `gaps`, each with `first` and
`length`. `other` is the number of records on a port of no flow. `ended` is null, or
says `how` and at which `byte` the trace ended too early. The report of a sample has an
object `sample` too. Names and numbers are those of the text. The status is 1 where the
input is no report, and 2 where the words can't be read.
"""

import json
import sys
from collections.abc import Sequence

from fgate import command, reports

NAME = "fgate-report-json"


def main(arguments: Sequence[str] | None = None) -> int:
    """Write standard input's report as an object, and give the command's status."""
    command.Parser(NAME, __doc__).parse_args(arguments)
    try:
        found = reports.parsed(sys.stdin.buffer.read().decode("ascii", "replace"))
    except reports.NotAReport as fault:
        print(f"{NAME}: no report: {fault}", file=sys.stderr)
        return 1
    print(json.dumps(found))
    return 0


if __name__ == "__main__":
    sys.exit(main())
