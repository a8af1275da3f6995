"""A report as the program writes it, and as an object."""

import re
from typing import Any

#: The numbers of a line, by their names.
Counts = dict[str, int]
#: A report, or a flow of one, as JSON has it.
Json = dict[str, Any]

LINE = re.compile(r"(flow|media|column|row|runs|gap) (\d+)((?: \S+)+)")


class NotAReport(Exception):
    """The text has a line that no report has, or no end."""


def counts(words: list[str]) -> Counts:
    """Read names and numbers that stand in turns."""
    if len(words) % 2:
        raise NotAReport
    return {name: int(number) for name, number in zip(words[::2], words[1::2])}


def parsed(text: str) -> Json:
    """Give the report as an object.

    It has the flows, how many records were of none, and where the trace ended too
    early.
    """
    found: Json = {"flows": [], "other": None, "ended": None}
    for line in text.splitlines():
        try:
            take_line(found, line)
        except (ValueError, IndexError, KeyError, NotAReport):
            raise NotAReport(line) from None
    if found["other"] is None:
        raise NotAReport("it has no end")
    return found


def take_line(found: Json, line: str) -> None:
    """Add what a line of the report says."""
    words = line.split(" ")
    if words[0] == "sample":
        found["sample"] = counts(words[1:])
    elif words[0] == "other":
        found.update(other=counts(words)["other"])
    elif " at byte " in line:
        how, _, place = line.partition(" at byte ")
        found["ended"] = {"how": how, "byte": int(place)}
    else:
        match = LINE.fullmatch(line)
        if not match:
            raise NotAReport
        kind, port, rest = match.groups()
        take_line_of_flow(found["flows"], kind, int(port), rest.split())


def take_line_of_flow(
    flows: list[Json], kind: str, port: int, words: list[str]
) -> None:
    """Add what a line says of its flow, which is the last one but for a first line."""
    if kind == "flow":
        kinds = {"media": None, "column": None, "row": None}
        flows.append({"port": port, **counts(words), **kinds, "runs": None, "gaps": []})
        return
    flow = flows[-1]
    if flow["port"] != port:
        raise NotAReport
    if kind == "gap":
        first, length = words
        flow["gaps"].append({"first": int(first), "length": int(length)})
    elif kind == "runs":
        number, *rest = words
        flow["runs"] = {"runs": int(number), **counts(rest)}
    else:
        flow[kind] = counts(words)
