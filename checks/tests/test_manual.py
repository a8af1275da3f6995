"""What is made of the program's help: manual pages and completions."""

import shutil
import subprocess
from pathlib import Path

import pytest

from fgate_checks import completions, manual
from fgate_checks.launchers import entry_points, launcher
from fgate_checks.program_help import Help, HelpFault
from fgate_checks.repository import TOP

HELP = """fgate: repairs MPEG transport streams in RTP by SMPTE ST 2022-1 parity

usage: fgate COMMAND NAME=VALUE ..
       fgate --help

Standard input is a trace; for encode a stream. Standard output is the report.

fgate encode: encodes a transport stream with parity
  max=8..1099511627776    most bytes of the input; default 1099511627776
  columns=1..20           columns of a matrix; needed
  fec=column|both         parity of columns, or of rows too; default both
  drop=1..9               a record left out, up to 1000 times; default none

fgate plan: chooses a matrix
  burst=1..100            media datagrams that are lost in succession; needed

standard error, with words counted from 0, which is the command:
  words: no command       there is no word
  words: flows 1

status:
  0  all was done
"""
GUIDE = """## Encoding

The stream becomes a trace:

```sh
fgate encode columns=4 rows=4 < a.ts > a.trace
fgate inspect < a.trace
```

```text
0 0 'one'
```
"""
FORMATS = """| Status | Line | When |
|---|---|---|
| 0 | none | all was done |
| 1 | `words: flows 1` | there is no flow |
| 2 | `read fault` | reading failed |
| 4 | `cut at byte N` | `encode`: the input ends early |
"""


@pytest.fixture(name="program")
def read_help() -> Help:
    return Help(HELP, "fgate 0.1.0\n")


def test_names_of_a_command(program: Help) -> None:
    encode, plan = program.commands
    assert [name.name for name in encode.names] == ["max", "columns", "fec", "drop"]
    assert [name.most for name in encode.names] == [1, 1, 1, 1000]
    assert encode.names[2].choices == ["column", "both"]
    assert encode.names[1].is_needed and plan.reads_nothing


def test_help_that_reads_otherwise_is_refused() -> None:
    with pytest.raises(HelpFault):
        Help(HELP.replace("; needed", ""), "fgate 0.1.0")


def pages(program: Help) -> dict[str, str]:
    return dict(manual.pages(program, GUIDE, FORMATS, "2026-12-02"))


def test_a_page_for_the_program_and_each_command(program: Help) -> None:
    found = pages(program)
    assert list(found) == ["fgate.1", "fgate-encode.1", "fgate-plan.1"]
    encode = found["fgate-encode.1"]
    assert '.TH FGATE\\-ENCODE "1" "2026-12-02" "fgate 0.1.0" "fgate"\n' in encode
    assert "\\fIcolumns\\fR=\\fIN\\fR [\\fINAME\\fR=\\fIVALUE\\fR ..]" in encode
    assert "< \\fIstream\\fR" in encode and "0 0 \\(aqone\\(aq\n" in encode
    assert ".B 4, cut at byte N\nthe input ends early\n" in encode
    assert "read fault" not in found["fgate-plan.1"]


def test_lint_of_mandoc_finds_nothing(program: Help, tmp_path: Path) -> None:
    if shutil.which("mandoc") is None:
        pytest.skip("mandoc isn't installed")
    for name, text in pages(program).items():
        (tmp_path / name).write_text(text)
    lint = ["mandoc", "-T", "lint", "-W", "warning", *map(str, tmp_path.glob("*.1"))]
    told = subprocess.run(lint, capture_output=True, text=True, check=False)
    assert (told.returncode, told.stdout) == (0, "")


def test_bash_completes_names_and_values(program: Help) -> None:
    script = completions.bash(program)
    ask = "\n_fgate_words %s\n"
    for begun, words, wanted in (
        ("enc", "fgate", "encode"),
        ("fec=", "fgate encode", "fec=both"),
        ("drop", "fgate encode drop=1", "drop="),
    ):
        told = subprocess.run(
            ["bash", "-c", script + ask % f"'{begun}' {words}"],
            capture_output=True,
            text=True,
            check=False,
        )
        assert wanted in told.stdout.splitlines()


def test_completions_for_each_shell(program: Help) -> None:
    assert set(completions.scripts(program)) == {"fgate", "_fgate", "fgate.fish"}
    assert "-a encode" in completions.fish(program)
    assert "encode) rows=(" in completions.zsh(program)


def test_a_launcher_calls_its_function(tmp_path: Path) -> None:
    folder = tmp_path / "python" / "made"
    folder.mkdir(parents=True)
    (folder / "__init__.py").write_text("")
    (folder / "one.py").write_text("def main() -> int:\n    return 7\n")
    script = tmp_path / "one"
    script.write_text(launcher("made.one:main", tmp_path / "python"))
    script.chmod(0o755)
    assert subprocess.run([str(script)], check=False).returncode == 7


def test_entry_points_of_the_package_are_functions_that_are_there() -> None:
    for target in entry_points(TOP).values():
        module, _, function = target.partition(":")
        file = TOP / "python" / (module.replace(".", "/") + ".py")
        assert f"def {function}(" in file.read_text(encoding="utf-8")
