"""How the parts of tools/test are counted, and how unit tests are gathered."""

from pathlib import Path

import pytest

from fgate_checks import parts, unit_tests
from fgate_checks.parts import Count
from fgate_checks.repository import CRATES


def test_findings_are_counted() -> None:
    text = "case one: ok\ndocument a.md, its links: WRONG\ndocument b: not run: late\n"
    assert parts.of_findings(text) == Count(1, 1)


def test_what_pytest_skips_has_failed() -> None:
    told = "..s\n4 passed, 1 skipped, 2 warnings in 0.10s\n"
    assert parts.of_pytest(told) == Count(4, 1)
    assert parts.of_pytest("") == Count(0, 0)


def test_a_part_that_passes_nothing_has_failed() -> None:
    assert parts.judged(Count(0, 0), 0) == Count(0, 1)
    assert parts.judged(Count(3, 0), 1) == Count(0, 1)
    assert parts.judged(Count(3, 1), 1) == Count(3, 1)
    assert parts.judged(Count(3, 0), 0) == Count(3, 0)


def test_unit_tests_are_counted() -> None:
    text = "unit tests: 5 of 7 passed, 2 left to rt ci\n"
    assert parts.of_unit_tests(text) == Count(5, 2)
    assert parts.of_unit_tests("error\n") == Count(0, 1)


def test_a_part_tells_what_it_printed_where_it_failed(
    capsys: pytest.CaptureFixture[str],
) -> None:
    part = parts.Part("one", ["sh", "-c", "echo why; exit 3"])
    assert part.run() == Count(0, 1)
    assert capsys.readouterr().out.startswith("why\none: 0 passed, 1 failed, ")


def test_a_command_that_is_gone_has_failed() -> None:
    assert parts.Part("gone", ["checks/none"]).run() == Count(0, 1)


def test_a_test_is_left_out() -> None:
    text = '#[test]\nfn one() {}\n\n#[test]\n// Why.\nfn two() { "}" }\nfn three() {}\n'
    left = unit_tests.without_test(text, "two")
    assert left == "#[test]\nfn one() {}\n\n\nfn three() {}\n"
    with pytest.raises(unit_tests.Unfit):
        unit_tests.without_test(text, "three")


def test_a_librarys_tests_name_it_from_outside() -> None:
    text = "use crate::{one};\nuse super::*;\n"
    assert unit_tests.of_library(text, "fg_ts") == "use fg_ts::{one};\nuse fg_ts::*;\n"


def test_all_unit_tests_are_gathered(tmp_path: Path) -> None:
    crate = unit_tests.gather(tmp_path, unit_tests.crates_with_tests())
    sources = CRATES.glob("*/src/**/*.rt")
    texts = [file.read_text(encoding="utf-8") for file in sources]
    every = sum(len(unit_tests.TEST.findall(text)) for text in texts)
    assert unit_tests.count(crate) == every - len(unit_tests.LEFT_OUT)
