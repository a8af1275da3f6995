"""How blocks, tables and links of documents are read, and how blocks are run."""

from pathlib import Path

import pytest

from fgate_checks import examples
from fgate_checks.blocks import blocks, commands, rows
from fgate_checks.documents import Finding
from fgate_checks.links import anchors, broken
from fgate_checks.names import crates_of, is_name, is_path

PAGE = """# A page

It prints:

```sh
echo one
```

```text
one
```

<!-- not run: it never ends -->
```sh
sleep 9
```

   ```json
   {}
   ```
"""


def test_each_block_with_what_it_has_to_print() -> None:
    found = commands(PAGE)
    assert [(block.language, wanted) for block, wanted in found] == [
        ("sh", "one\n"),
        ("sh", ""),
        ("json", None),
    ]
    assert [block.why_not_run for block, _ in found] == [None, "it never ends", None]
    assert found[0][0].line == 5 and found[0][0].said == "It prints:"


def test_an_indent_is_no_part_of_a_block() -> None:
    assert blocks(PAGE)[-1].text == "{}\n"


def test_rows_of_the_tables_with_these_heads() -> None:
    text = "| A | B |\n|---|---|\n| 1 | 2 |\n\n| C | B |\n|---|---|\n| 3 | 4 |\n"
    assert rows(text, "A", "B") == [["1", "2"]]


def test_links_that_lead_nowhere(tmp_path: Path) -> None:
    page = tmp_path / "page.md"
    page.write_text(
        "# One `two`, three\n[a](#one-two-three) [b](#four) [c](gone.md)\n"
        "[d](page.md) [e](https://example.org/)\n```\n[f](lost.md)\n```\n"
    )
    assert list(broken(page)) == ["#four", "gone.md"]
    assert anchors("# A\n# A\n") == {"a", "a-1"}


def test_names_and_paths() -> None:
    assert is_name("run_flow") and is_name("Reader") and not is_name("flow")
    assert not is_name("MOST_BYTES")
    assert is_path("src/lib.rt") and is_path("lib.rt") and not is_path("a < b/c")
    assert crates_of("## fg_ts and fg_io", []) == ["fg_ts", "fg_io"]
    assert crates_of("### Below", ["fg_ts"]) == ["fg_ts"]
    assert crates_of("## Else", ["fg_ts"]) == []


def test_blocks_share_one_shell(
    tmp_path: Path, monkeypatch: pytest.MonkeyPatch
) -> None:
    monkeypatch.setattr(examples, "make_folder", lambda _, folder: folder.mkdir())
    monkeypatch.setattr(examples, "make_commands", lambda _, folder: folder.mkdir())
    text = "```sh\nkept=3; mkdir at\n```\n```sh\necho $kept; ls; cat none\n```\n"
    first, second = examples.run(tmp_path, [block for block, _ in commands(text)])
    assert first == ""
    assert second.startswith("3\nat\n") and second.endswith("(status 1)\n")


def test_a_finding_is_told(capsys: pytest.CaptureFixture[str]) -> None:
    Finding("one", True).tell()
    Finding("two", False, "why\n").tell()
    Finding("three", None, "not run: late").tell()
    told = capsys.readouterr()
    lines = ["document one: ok", "document two: WRONG", "document three: not run: late"]
    assert told.out.splitlines() == lines and told.err == "why\n"
