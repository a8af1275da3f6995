"""Lists what the .rt and .antt files repeat: functions and statements that stand in
several places, and pairs of places that share six or more lines, read as code.

A function counts where it has four lines or more, and is the same up to its name and
those of parameters and `let`s; a statement of a proof file where it is the same word
for word. For the pairs blank lines, comments, lines of punctuation alone and lines that
import are passed over, and white space is folded. What repeats the most is told first,
each pair with the first of its lines. Nothing says that a repetition has to go: it is a
place to look.

With --change only that is told of which one place has a line that isn't in HEAD. The
last line is 'N stand in several places, M pairs', and the status is 0.
"""

import argparse
import re
import subprocess
from collections import defaultdict
from collections.abc import Iterable, Iterator, Sequence
from pathlib import Path
from typing import NamedTuple

from .alike import Alike, alike

TOP = Path(__file__).resolve().parents[2]
ENDINGS = (".rt", ".antt")
KEYWORDS = frozenset(
    "as break const continue else ensures enum fn for forall if impl in let loop match "
    "mut pub ref requires return self Self struct trait type where while Ok Err Some "
    "None true false".split()
)
# Pairs with fewer lines that differ from one another are tables.
DISTINCT = 3
# A line of code that stands in more places than this is common, and begins no pair.
COMMON = 60


class Line(NamedTuple):
    """A line of code: its number in the file, its text with white space folded, and the
    text by which it is compared.
    """

    number: int
    text: str
    key: str


class Place(NamedTuple):
    """Lines of a file, from the first to the last."""

    path: str
    first: int
    last: int

    def __str__(self) -> str:
        return f"{self.path}:{self.first}-{self.last}"


class Pair(NamedTuple):
    """Two places that share so many lines of code, of which the first is told."""

    lines: int
    one: Place
    other: Place
    begins: str


def is_code(path: str, text: str) -> bool:
    """Whether a folded line counts. A comment begins with `//` in Rattle, and with `--`
    in a proof.
    """
    comment = "--" if path.endswith(".antt") else "//"
    if not re.search(r"\w", text) or text.startswith(comment):
        return False
    return not re.match(r"(pub )?(ghost )?(use|open|import) ", text)


def shape_of(text: str) -> str:
    """A line in which each name, string and number that isn't a keyword is a blank."""
    text = re.sub(r'"[^"]*"', "_", text)
    return re.sub(
        r"\b\w+\b", lambda word: word[0] if word[0] in KEYWORDS else "_", text
    )


def code_of(path: str, text: str, shapes: bool) -> list[Line]:
    """The lines of code in a file's text."""
    folded = (" ".join(line.split()) for line in text.splitlines())
    return [
        Line(at, line, shape_of(line) if shapes else line)
        for at, line in enumerate(folded, 1)
        if is_code(path, line)
    ]


def files(folders: Sequence[str]) -> list[str]:
    """The files that git knows or would know in these folders, with such endings."""
    command = ["git", "ls-files", "-co", "--exclude-standard", *folders]
    told = subprocess.run(command, cwd=TOP, capture_output=True, text=True, check=True)
    names = [name for name in told.stdout.splitlines() if name.endswith(ENDINGS)]
    return [name for name in sorted(set(names)) if (TOP / name).is_file()]


def changed_lines() -> dict[str, set[int]]:
    """For each file the numbers of the lines that aren't in HEAD."""
    command = ["git", "diff", "-U0", "--no-color", "--no-prefix", "HEAD"]
    told = subprocess.run(command, cwd=TOP, capture_output=True, text=True, check=True)
    changed: dict[str, set[int]] = defaultdict(set)
    path = ""
    for line in told.stdout.splitlines():
        if line.startswith("+++ "):
            path = line[4:]
        elif found := re.match(r"@@ -\S+ \+(\d+)(?:,(\d+))? @@", line):
            first, count = int(found[1]), int(found[2] or 1)
            changed[path].update(range(first, first + count))
    command = ["git", "ls-files", "-o", "--exclude-standard"]
    told = subprocess.run(command, cwd=TOP, capture_output=True, text=True, check=True)
    for path in told.stdout.splitlines():
        if path.endswith(ENDINGS):
            count = len((TOP / path).read_text().splitlines())
            changed[path].update(range(1, count + 1))
    return changed


def starts_of(
    code: dict[str, list[Line]], least: int
) -> Iterable[list[tuple[str, int]]]:
    """The places that begin with the same `least` lines, where there are several."""
    places: dict[tuple[str, ...], list[tuple[str, int]]] = defaultdict(list)
    for path, lines in code.items():
        texts = [line.key for line in lines]
        for at in range(len(texts) - least + 1):
            places[tuple(texts[at : at + least])].append((path, at))
    return [there for there in places.values() if 1 < len(there) <= COMMON]


def length_of(one: list[Line], at: int, other: list[Line], there: int) -> int:
    """How many lines are the same from these on. In one file places don't overlap."""
    most = min(len(one) - at, len(other) - there)
    if one is other:
        most = min(most, abs(there - at))
    shared = 0
    while shared < most and one[at + shared].key == other[there + shared].key:
        shared += 1
    return shared


def pairs_of(code: dict[str, list[Line]], least: int) -> Iterator[Pair]:
    """The pairs of places that share at least so many lines, each as long as can be."""
    for there in starts_of(code, least):
        for number, (path, at) in enumerate(there):
            one = code[path]
            for other_path, other_at in there[number + 1 :]:
                other = code[other_path]
                before = at and other_at and one[at - 1].key == other[other_at - 1].key
                if before:
                    continue
                shared = length_of(one, at, other, other_at)
                distinct = len({line.key for line in one[at : at + shared]})
                if shared >= least and distinct >= DISTINCT:
                    first = Place(path, one[at].number, one[at + shared - 1].number)
                    last = other[other_at + shared - 1].number
                    second = Place(other_path, other[other_at].number, last)
                    yield Pair(shared, first, second, one[at].text)


def is_changed(place: Place, changed: dict[str, set[int]]) -> bool:
    """Whether one of the place's lines isn't in HEAD."""
    lines = changed.get(place.path, set())
    return any(number in lines for number in range(place.first, place.last + 1))


def parser() -> argparse.ArgumentParser:
    words = argparse.ArgumentParser(
        prog="duplicates",
        description=__doc__,
        formatter_class=argparse.RawDescriptionHelpFormatter,
    )
    words.add_argument(
        "folders", nargs="*", default=["crates"], help="where to look; crates"
    )
    words.add_argument(
        "--min-lines", type=int, default=6, help="the least lines of a pair; 6"
    )
    words.add_argument(
        "--most", type=int, default=40, help="so many of each list are told; 40"
    )
    words.add_argument(
        "--change", action="store_true", help="what a change since HEAD repeats"
    )
    words.add_argument(
        "--shapes",
        action="store_true",
        help="lines that differ in names, strings and numbers alone are the same",
    )
    words.add_argument(
        "--only", choices=("src", "specs", "proofs"), help="files of such folders alone"
    )
    return words


def is_in_change(found: Alike | Pair, changed: dict[str, set[int]]) -> bool:
    """Whether one of its places is changed."""
    if isinstance(found, Pair):
        return is_changed(found.one, changed) or is_changed(found.other, changed)
    return any(place.line in changed.get(place.path, set()) for place in found.places)


def main(arguments: Sequence[str]) -> int:
    asked = parser().parse_args(arguments)
    names = files(asked.folders)
    if asked.only:
        names = [name for name in names if f"/{asked.only}/" in name]
    texts = {name: (TOP / name).read_text() for name in names}
    code = {name: code_of(name, text, asked.shapes) for name, text in texts.items()}
    several = alike(texts)
    pairs = sorted(set(pairs_of(code, asked.min_lines)))
    pairs.sort(key=lambda pair: -pair.lines)
    if asked.change:
        changed = changed_lines()
        several = [one for one in several if is_in_change(one, changed)]
        pairs = [pair for pair in pairs if is_in_change(pair, changed)]
    for one in several[: asked.most]:
        print(f"{len(one.places)} places  {', '.join(map(str, one.places))}")
    for pair in pairs[: asked.most]:
        print(f"{pair.lines} lines  {pair.one}  {pair.other}\n    {pair.begins}")
    print(f"{len(several)} stand in several places, {len(pairs)} pairs")
    return 0
