"""What `duplicates` takes as a repetition."""

import pytest

from fgate_checks import duplicates
from fgate_checks.alike import alike

BODY = """    let one = 1;
    let two = 2;
    // why
    call(one)?;

    call(two)?;
    other(one, two)?;
    Ok(one)
"""
PUSH = """/// Pushes a number.
fn push(text: &mut Vec<u8>, number: u64) -> Result<(), AllocError>
    ensures { OnOk result (text.new.items = text.old.items ++ decimal number) }
{
    let mut digits = Buffer::new();
    text.extend_from_slice(digits.format(number).as_bytes())
}
"""


def code(**texts: str) -> dict[str, list[duplicates.Line]]:
    return {
        f"{name}.rt": duplicates.code_of(f"{name}.rt", text, shapes=False)
        for name, text in texts.items()
    }


def test_comments_blank_lines_and_white_space_are_passed_over() -> None:
    one = code(a=BODY, b=BODY.replace("    // why\n", "").replace("    ", "\t"))
    (pair,) = duplicates.pairs_of(one, 6)
    assert (pair.lines, str(pair.one), str(pair.other)) == (6, "a.rt:1-8", "b.rt:1-7")


def test_fewer_lines_are_no_pair() -> None:
    assert not list(duplicates.pairs_of(code(a=BODY, b=BODY[:-12]), 6))


def test_imports_are_passed_over() -> None:
    text = "".join(f"use crate::it{number};\n" for number in range(9))
    assert not list(duplicates.pairs_of(code(a=text, b=text), 6))


def test_places_of_one_file_do_not_overlap() -> None:
    (pair,) = duplicates.pairs_of(code(a=BODY + BODY), 6)
    assert (pair.lines, pair.one.last, pair.other.first) == (6, 8, 9)


def test_functions_are_alike_up_to_their_own_names() -> None:
    other = PUSH.replace("text", "line").replace("fn push", "pub fn push_it")
    (found,) = alike({"a.rt": PUSH, "b.rt": other, "c.rt": PUSH.replace("format", "g")})
    assert [place.name for place in found.places] == ["push", "push_it"]


def test_statements_are_alike_word_for_word() -> None:
    said = " ".join(["one two three"] * 6)
    texts = {"a.antt": f"pub a : {said}\na = it\n", "b.antt": f"b : {said}\n"}
    (found,) = alike(texts)
    assert [place.name for place in found.places] == ["a", "b"]


def test_the_repository_is_read(capsys: pytest.CaptureFixture[str]) -> None:
    assert duplicates.main(["--only", "src", "--most", "1"]) == 0
    assert capsys.readouterr().out.splitlines()[-1].endswith(" pairs")
