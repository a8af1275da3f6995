"""What the repository has to keep to, and what pages are made of it."""

from fgate_checks import lists, public_calls
from fgate_checks.rattle_crate import all_crates
from fgate_checks.repository import CRATES, crate_lines


def test_each_crate_is_listed() -> None:
    folders = {folder.name for folder in CRATES.iterdir() if (folder / "src").is_dir()}
    assert folders == {name for name, _ in crate_lines()}


def test_each_public_item_has_documentation() -> None:
    bare = [
        f"{crate.name}: {shown.name}"
        for crate in all_crates()
        for shown in crate.functions()
        if not (crate.program or shown.name.startswith("<") or shown.item.doc)
    ]
    assert not bare


def test_each_public_call_has_a_row() -> None:
    page = public_calls.page()
    for crate, calls in public_calls.every_call():
        assert not calls or f"## {crate.name}\n" in page
        assert all(f"| `{call.name}` |" in page for call in calls)


def test_tests_with_their_comments() -> None:
    text = "// Why.\n#[test]\nfn one_comes(rt: X) {}\n\n#[test]\n// In.\nfn two() {}\n"
    assert lists.tests_in(text) == ["one comes (Why)", "two"]


def test_names_that_differ_by_a_number_are_told_once() -> None:
    assert lists.listed(["a 1", "a 2", "a 3", "a 4", "b"]) == "a N, 4 times; b."


def test_figures_stand_in_blocks() -> None:
    told = lists.told_figures("on a machine\nspeed 1.5 seconds\n", "bench/x")
    assert told == ["On a machine:", "", "```text", "speed 1.5 seconds", "```", ""]
