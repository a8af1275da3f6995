"""Functions and statements that stand in several places, for `duplicates`.

A function of Rattle is alike another one where both are the same up to their own names
and those of parameters and `let`s. A statement of a proof file is alike another one
that is the same word for word.
"""

import re
from collections import defaultdict
from collections.abc import Iterator, Mapping, Sequence
from typing import NamedTuple

FUNCTION = re.compile(
    r"^(?P<indent> *)(?:pub(?:\([^)]*\))? )?(?:const |unsafe )*fn (?P<name>\w+)"
)
STATEMENT = re.compile(
    r"^(?:pub |abbrev )*(?P<name>[^\s:(]+) : (?P<said>.*(?:\n[ \t]+.*)*)", re.MULTILINE
)
# The least lines of code of a function, and the least letters of a statement.
LEAST_LINES, LEAST_LETTERS = 4, 60


class Named(NamedTuple):
    """A function or a statement: its file, line and name."""

    path: str
    line: int
    name: str

    def __str__(self) -> str:
        return f"{self.path}:{self.line} {self.name}"


class Alike(NamedTuple):
    """Places that have the same, and how many lines or letters that is."""

    size: int
    places: tuple[Named, ...]


def functions_of(text: str) -> Iterator[tuple[int, str, list[str]]]:
    """The functions that have a body: line, name, and lines without comments."""
    lines = text.splitlines()
    for at, line in enumerate(lines):
        found = FUNCTION.match(line)
        if not found:
            continue
        end = found["indent"] + "}"
        for last in range(at, len(lines)):
            if lines[last].startswith(end):
                body = [re.sub(r"\s*//.*", "", one) for one in lines[at : last + 1]]
                yield at + 1, found["name"], [one for one in body if one.strip()]
                break
            if last > at and FUNCTION.match(lines[last]):
                break


def shape_of(name: str, lines: Sequence[str]) -> str:
    """The function's text with its own names numbered."""
    text = " ".join(" ".join(lines).split())
    header = text.partition("{")[0]
    own = re.findall(r"\b(\w+): ", header) + re.findall(r"\blet (?:mut )?(\w+)", text)
    numbers = {one: f"_{at}" for at, one in enumerate(dict.fromkeys(own))}
    text = re.sub(r"\b\w+\b", lambda word: numbers.get(word[0], word[0]), text)
    return re.sub(rf"^.*?\bfn {name}\b", "fn", text)


def alike(texts: Mapping[str, str]) -> list[Alike]:
    """All that stands in several places, the most places first."""
    places: dict[str, list[Named]] = defaultdict(list)
    sizes: dict[str, int] = {}
    for path, text in texts.items():
        if path.endswith(".rt"):
            for line, name, lines in functions_of(text):
                count = sum(bool(re.search(r"\w", one)) for one in lines)
                if count >= LEAST_LINES:
                    shape = shape_of(name, lines)
                    places[shape].append(Named(path, line, name))
                    sizes[shape] = count
        else:
            for found in STATEMENT.finditer(text):
                said = " ".join(found["said"].split())
                if len(said) >= LEAST_LETTERS:
                    line = text.count("\n", 0, found.start()) + 1
                    places[said].append(Named(path, line, found["name"]))
                    sizes[said] = said.count(" ") + 1
    several = [
        Alike(sizes[shape], tuple(there))
        for shape, there in places.items()
        if len(there) > 1
    ]
    return sorted(several, key=lambda one: (-len(one.places) * one.size, one.places))
