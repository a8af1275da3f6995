"""Makes pages of the code, the proofs and the benches, for who reads them.

Each crate has a page with its public functions and their clauses, its definitions and
its must-fail edits. CALLS.md has a row for each public call, TESTS.md the tests and the
edits in words, LEMMAS.md the lemma files that other crates cite, and FIGURES.md what
was measured. git ignores docs/made, where they come without a folder.
"""

from __future__ import annotations

import argparse
from collections.abc import Iterator, Sequence
from pathlib import Path

from fgate_checks import contracts, lists, public_calls
from fgate_checks.rattle_crate import all_crates
from fgate_checks.repository import TOP

MADE = TOP / "docs" / "made"


def pages() -> Iterator[tuple[str, str]]:
    """Each page's name and text."""
    for crate in all_crates():
        yield f"{crate.name}.md", contracts.page(crate)
    yield "CALLS.md", public_calls.page()
    yield "TESTS.md", lists.tests_page()
    yield "LEMMAS.md", lists.lemmas_page()
    yield "FIGURES.md", lists.figures_page()


def main(arguments: Sequence[str]) -> int:
    """Makes the pages, and tells where they are."""
    words = argparse.ArgumentParser(
        prog="pages",
        description=__doc__,
        formatter_class=argparse.RawDescriptionHelpFormatter,
    )
    words.add_argument("folder", nargs="?", type=Path, default=MADE)
    folder: Path = words.parse_args(arguments).folder
    folder.mkdir(parents=True, exist_ok=True)
    count = 0
    for name, text in pages():
        (folder / name).write_text(text, encoding="utf-8")
        count += 1
    print(f"{count} pages in {folder}")
    return 0
