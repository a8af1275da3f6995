"""Links between the documents."""

from __future__ import annotations

import re
from collections.abc import Iterator
from pathlib import Path

LINK = re.compile(
    r"(?<!!)\[(?P<text>(?:[^\[\]]|\[[^\]]*\])+)\]\((?P<to>[^)\s]+)\)",
)
PICTURE = re.compile(r"!\[[^\]]*\]\(([^)\s]+)\)")
FENCE = re.compile(r"^ *```.*?^ *```$", re.M | re.S)


def anchor(heading: str, seen: dict[str, int]) -> str:
    """A heading's anchor, as GitHub makes it."""
    text = LINK.sub(r"\g<text>", heading).strip().lower()
    name = re.sub(r"[^\w\- ]", "", text).replace(" ", "-")
    seen[name] = seen.get(name, -1) + 1
    return name if seen[name] == 0 else f"{name}-{seen[name]}"


def anchors(text: str) -> set[str]:
    """The anchors of a document: of its headings, and those that it sets by hand."""
    text, seen = FENCE.sub("", text), dict[str, int]()
    headings = re.findall(r"^#+ +(.*)$", text, re.M)
    found = {anchor(heading, seen) for heading in headings}
    return found | set(re.findall(r'<a (?:id|name)="([^"]+)"', text))


def leads(page: Path, to: str) -> bool:
    """Whether a link of a page leads to a file and a heading that are there."""
    path, _, part = to.partition("#")
    target = page.parent / path if path else page
    if not part:
        return target.exists()
    return target.is_file() and part in anchors(target.read_text(encoding="utf-8"))


def broken(page: Path) -> Iterator[str]:
    """Each link of a document that leads nowhere, those to other sites left out."""
    text = FENCE.sub("", page.read_text(encoding="utf-8"))
    for to in [found["to"] for found in LINK.finditer(text)] + PICTURE.findall(text):
        if not re.match(r"\w+:", to) and not leads(page, to):
            yield to
