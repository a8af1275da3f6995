"""How items, clauses and definitions are read."""

from pathlib import Path

import pytest

from fgate_checks.contracts import told_clauses
from fgate_checks.public_calls import arguments_of, split_at_commas
from fgate_checks.rattle_code import Item, read_items, split_impl, without_generics
from fgate_checks.rattle_crate import leaves
from fgate_checks.rattle_specs import Specs, definition

SOURCE = """
/// Adds one.
pub fn next(value: u64) -> Option<u64>
    // What it answers.
    ensures { result ≡ value + 1 }

    ensures* low { "}" ≡ "}" }
{
    let text = "{";
    Some(value + 1)
}

#[cfg(test)]
mod tests {
    fn hidden() {}
}

impl<T: Bound<u8>> Trait<T> for Kept<T> {
    ghost used : { T };
    fn one(&self) { '{' }
}
"""


def items(text: str) -> list[Item]:
    return read_items(text, 0, len(text), Path("lib.rt"))


def test_items_of_a_file_without_those_of_tests() -> None:
    found = items(SOURCE)
    assert [(item.kind, item.name) for item in found] == [("fn", "next"), ("impl", "")]
    assert found[0].is_public and found[0].doc == "Adds one."
    assert [item.kind for item in found[1].items] == ["ghost", "fn"]


def test_a_comment_holds_up_to_an_empty_line() -> None:
    first, second = items(SOURCE)[0].clauses
    assert (first.name, first.comment, first.body) == (
        "",
        "What it answers.",
        "result ≡ value + 1",
    )
    assert (second.name, second.comment) == ("low", None)


def test_clauses_are_told_below_their_comment() -> None:
    told = told_clauses(items(SOURCE)[0].clauses)
    assert told[:2] == ["What it answers.", ""]
    assert told.count("```text") == 2


def test_what_is_no_item_is_refused() -> None:
    with pytest.raises(ValueError):
        items("pub nothing")


def test_an_impl_of_a_trait() -> None:
    assert split_impl("<T: Bound<u8>> Trait<T> for Kept<T>") == ("Trait<T>", "Kept<T>")
    assert split_impl("Kept<T> where T: Copy") == (None, "Kept<T>")
    assert without_generics("Kept<Vec<T>>::new") == "Kept::new"


def test_paths_of_a_use() -> None:
    found = list(leaves("a::{b, c::{self, d as e}}"))
    assert found == [(("a", "b"), "b"), (("a", "c"), "c"), (("a", "c", "d"), "e")]


def test_commas_outside_brackets() -> None:
    assert split_at_commas("a: Vec<(u8, u8)>, b: [u8; 2]") == [
        "a: Vec<(u8, u8)>",
        "b: [u8; 2]",
    ]
    assert arguments_of("Result<Option<u8>, Fault>") == ["Option<u8>", "Fault"]


SPECS = """-- What a file is about.

-- The first.
pub data First : Type where
  one : First

abbrev pub second : ℕ → ℕ
second n = n + 1

-- A comment that stands alone.

pub use Rattle.fg_ts.specs.Packets.{Packet, sync}
"""


def test_definitions_of_a_file_of_specs() -> None:
    specs = Specs(SPECS)
    assert specs.head == "What a file is about." and not specs.is_internal
    assert [made.name for made in specs.found] == ["First", "second", ""]
    assert specs.found[1].shown() == "second n"
    assert specs.handed == [("fg_ts.specs.Packets", "Packet, sync")]


def test_a_definition_with_its_comment() -> None:
    text = "-- Above.\npub Held : Type\nHeld = ℕ\n\npub other : ℕ\n"
    assert definition(text, "Held") == "-- Above.\npub Held : Type\nHeld = ℕ"
    assert definition(text, "Lost") is None
