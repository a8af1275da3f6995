"""The words of a command line, and the settings that they give."""

import re
from typing import Any, NamedTuple

from .encodings import layout_fault
from .traces import KINDS, Settings

# The least and the greatest number, or the two words.
Values = tuple[int, int] | tuple[str, str]


class Row(NamedTuple):
    """A setting: the commands that have it, its name and values, its default (or that
    it is needed), and how often it may stand, where that is limited.
    """

    commands: list[str]
    name: str
    values: Values
    default: object
    most: int | None


NEEDED = object()
REPAIRS, ENCODES = ["repair", "drill", "prove"], ["encode", "drill"]
READERS = [
    *["repair", "encode", "drill", "inspect", "fromcap", "tocap", "monitor", "prove"],
    *["check", "survey", "pick"],
]
TABLE = [
    Row(["repair", "inspect"], "flow", (1, 65531), NEEDED, None),
    Row(["prove"], "flow", (1, 65531), NEEDED, 1),
    Row(REPAIRS, "window", (1, 100), 100, 1),
    Row(REPAIRS, "depth", (1, 1000), 400, 1),
    Row(REPAIRS, "hold", (1, 3600000000), 0, 1),
    Row(["repair", "drill", "sample"], "workers", (0, 16), 4, 1),
    Row(READERS, "max", (8, 1099511627776), 1099511627776, 1),
    Row(ENCODES, "columns", (0, 255), NEEDED, 1),
    Row(ENCODES, "rows", (0, 255), NEEDED, 1),
    Row(["plan"], "burst", (1, 20), NEEDED, 1),
    Row(["plan"], "most", (1, 100), NEEDED, 1),
    Row([*ENCODES, "plan"], "fec", ("column", "both"), "both", 1),
    Row(ENCODES, "layout", ("block", "staggered"), "block", 1),
    Row(ENCODES, "packets", (1, 7), 7, 1),
    Row(ENCODES, "rate", (1, 10000000000), 10000000, 1),
    Row(ENCODES, "port", (1, 65531), 5000, 1),
    Row(ENCODES, "seq", (0, 65535), 0, 1),
    Row(ENCODES, "ssrc", (0, 4294967295), 0, 1),
    Row(ENCODES, "stamp", (0, 4294967295), 0, 1),
    Row(["drill"], "drop", (1, 9999999999999), None, 1000),
    Row(["drill"], "every", (2, 9999999999999), None, 1),
    Row(["sample"], "seed", (0, 9999999999999), NEEDED, 1),
    Row(["sample"], "datagrams", (1, 20000), 1000, 1),
    Row(["sample"], "loss", (0, 20), 3, 1),
    Row(["survey"], "format", ("lines", "json"), "lines", 1),
    Row(["pick"], "flow", (1, 65531), None, 64),
    Row(["pick"], "port", (0, 65535), None, 64),
    Row(["pick"], "ssrc", (0, 4294967295), None, 16),
    Row(["pick"], "without", (0, 4294967295), None, 16),
    Row(["pick"], "from", (0, 18446744073709551615), 0, 1),
    Row(["pick"], "until", (0, 18446744073709551615), None, 1),
]
COMMANDS = [
    *["repair", "encode", "drill", "inspect", "sample", "fromcap", "tocap", "monitor"],
    *["prove", "check", "plan", "survey", "pick"],
]
MANY = ("flow", "drop")


def rows_of(command: str) -> list[Row]:
    return [row for row in TABLE if command in row[0]]


def value_of(text: str, values: Values) -> int | str | None:
    """The value that the text spells, or None."""
    least, greatest = values
    if isinstance(least, str) or isinstance(greatest, str):
        return text if text in values else None
    if not re.fullmatch("0|[1-9][0-9]{0,19}", text):
        return None
    return int(text) if least <= int(text) <= greatest else None


def ports_fault(ports: list[int]) -> str | None:
    """The end of a line on the first rule that a table of flows breaks, or None."""
    if not ports:
        return "1"
    if len(ports) > 64:
        return "2"
    for number, port in enumerate(ports):
        own = {port + kind for kind in KINDS}
        if any(own & {other + kind for kind in KINDS} for other in ports[:number]):
            return f"4 at {number}"
    return None


def settings_of(
    command: str, words: list[bytes]
) -> tuple[Settings, dict[str, int]] | str:
    """The settings that the words behind a command give, with the places of those that
    have one, or the line of their fault.
    """
    rows = {row[1]: row for row in rows_of(command)}
    settings: dict[str, list[Any]] = {}
    places: dict[str, int] = {}
    for place, word in enumerate(words, 1):
        try:
            name, cut, text = word.decode().partition("=")
        except UnicodeDecodeError:
            return f"words: bad word {place}"
        if not cut or name not in rows:
            return f"words: bad word {place}"
        _, _, values, _, most = rows[name]
        value, stood = value_of(text, values), settings.setdefault(name, [])
        if value is None or (most is not None and len(stood) == most):
            return f"words: bad word {place}"
        stood.append(value)
        places[name] = place
    for name, (_, _, _, default, _) in rows.items():
        if name not in settings and default is NEEDED:
            return f"words: missing {name}"
    whole = {
        name: settings.get(name, [])
        if name in MANY or row.most != 1
        else settings.get(name, [row.default])[0]
        for name, row in rows.items()
    }
    return whole, places


def asked_of(words: list[bytes]) -> tuple[str, Settings] | str:
    """The command and its settings; or "help"; or the line of the first fault."""
    if not words:
        return "words: no command"
    if words in ([b"--help"], [b"--version"]):
        return "help"
    command = next(
        (command for command in COMMANDS if command.encode() == words[0]), None
    )
    if command is None:
        return "words: bad word 0"
    if words[1:] == [b"--help"]:
        return "help"
    found = settings_of(command, words[1:])
    if isinstance(found, str):
        return found
    settings, places = found
    if "depth" in settings and settings["depth"] < settings["window"]:
        return f"words: depth below window at word {places['depth']}"
    if "columns" in settings:
        rule = layout_fault(settings["columns"], settings["rows"], settings["fec"])
        if rule:
            return f"words: layout {rule}"
    if "flow" in settings and command != "pick":
        fault = ports_fault(settings["flow"])
        if fault:
            return f"words: flows {fault}"
    return command, settings
