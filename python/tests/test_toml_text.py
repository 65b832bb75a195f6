"""Projects whose text no project could have: each is refused by one line, and before anything is computed with it."""

import re
import time

import pytest
from conftest import PROJECT

from pitplan import PlanError, load

RECOVERY = "recovery = 0.5"


@pytest.fixture
def refused(tmp_path):
    """The sentence by which a project's text is refused, without the file's name; within a second. `line` is what it names."""

    def said(text, line=None):
        path = tmp_path / "project.toml"
        path.write_text(text, encoding="utf-8")
        began = time.process_time()
        with pytest.raises(PlanError) as error:
            load(path)
        assert time.process_time() - began < 1
        place, _, sentence = str(error.value).partition(": ")
        named = re.fullmatch(re.escape(str(path)) + r"(?::(\d+))?", place)
        assert named and len(sentence.splitlines()) == 1 and len(sentence) < 300
        assert line in (None, int(named[1] or 0))
        return sentence

    return said


@pytest.mark.parametrize(
    "number",
    [
        "1e999999999",
        "1e-999999999",
        "-1e1001",
        "0e999999999",
        "0e-999999999",
        "1e-61",
        "1." + "1" * 5000,
        "0." + "0" * 70,
    ],
)
@pytest.mark.parametrize("key", ["recovery", "price", "discount_rate"])
def test_an_absurd_exponent(refused, key, number):
    old = {"recovery": RECOVERY, "price": "price = 8000", "discount_rate": "discount_rate = 0.1"}[key]
    shown = number if len(number) <= 40 else f"{number[:40]}.."
    assert refused(PROJECT.replace(old, f"{key} = {number}")).endswith(
        f"{key}: {shown} is not an amount: expected at most 10^18 and 60 decimals"
    )


@pytest.mark.parametrize(
    "number", ["[1e999999999]", "[1e-999999999]", "[-0.5]", "1e999999999", "[0x" + "f" * 5000 + "]"]
)
def test_an_absurd_factor(refused, number):
    assert refused(PROJECT.replace("revenue_factors = [0.5, 1.0, 1.5]", f"revenue_factors = {number}")).startswith(
        "[shells] revenue_factors: "
    )


def test_whole_numbers_of_thousands_of_digits(refused):
    for digits in ("1" * 4301, "1_" * 50_000 + "1"):
        sentence = refused(PROJECT.replace(RECOVERY, f"recovery = {digits}"), 18)
        assert sentence == "a whole number of more than 4,300 digits: amounts end at 10^18"
    for digits in ("1" * 4300, "0x" + "f" * 5000):
        sentence = refused(PROJECT.replace(RECOVERY, f"recovery = {digits}"))
        assert sentence == "[metals 1] recovery: a whole number of more than 54 digits is beyond 10^18"


@pytest.mark.parametrize("count", [900, 100_000])
@pytest.mark.parametrize("brackets", ["[]", ("{a=", "}")])
def test_lists_and_tables_within_each_other(refused, brackets, count):
    opening, closing = brackets
    sentence = refused(PROJECT.replace(RECOVERY, f"recovery = {opening * count}1{closing * count}"))
    assert sentence == "lists or tables lie within each other too deeply: a project's lie three deep at most"


@pytest.mark.parametrize("text", ["{} = 1", "[{}]", "[[{}]]", "x = {{ {} = 1 }}", "x = [1, {{ {} = 1 }}]"])
@pytest.mark.parametrize("part", ["a", '"a b"', "'.'"])
def test_a_key_of_many_parts(refused, text, part):
    for many, more in ((100_000, "."), (60, " . ")):
        sentence = refused("\n" + text.format(more.join([part] * many)) + "\n" + PROJECT, 2)
        assert sentence == "a key of more than 50 parts: a project's keys have three at most"


def test_texts_with_many_points_are_no_keys(tmp_path):
    title = ".".join("a" * 100)
    (tmp_path / "project.toml").write_text(
        PROJECT.replace('title = "Test hill"', f'title = "{title}" # {title}\n\n# {title} = 1\n')
    )
    assert load(tmp_path / "project.toml").title == title


@pytest.mark.parametrize("name", ["base64", "hex", "rot13", "bz2", "zlib", "uu", "quopri", "undefined", "é"])
def test_a_codec_that_is_no_encoding_of_texts(refused, name):
    sentence = refused(PROJECT.replace("[table]", f'[table]\nencoding = "{name}"'))
    assert sentence == f'[table] encoding: "{name}" is not an encoding: expected one such as utf-8, cp1252 or utf-16'


def test_a_long_value_is_cut(refused):
    for key, words in (
        ("encoding", "is not an encoding: expected one such as"),
        ("separator", "is not a separator"),
        ("empty", "expected one of refuse, zero"),
    ):
        assert words in refused(PROJECT.replace("[table]", f'[table]\n{key} = "{"x" * 5000}"'))


@pytest.mark.parametrize("sign", ["ab", ",,", "\\n", "é", '\\"', ".", "a", "1", "\\u0001", "-"])
def test_what_parts_no_fields(refused, sign):
    assert "is not a separator: expected one character, such as" in refused(
        PROJECT.replace("[table]", f'[table]\nseparator = "{sign}"')
    )


@pytest.mark.parametrize(
    ("change", "sentence"),
    [
        (('file = "blocks.csv"', 'file = "\\u0000"'), "[table] file: '\\x00' contains a NUL byte"),
        (
            ("[shells]", '[scenarios]\ncolumns = { copper = "" }\n[shells]'),
            "[scenarios.columns] copper: codes may not be empty or contain a NUL byte",
        ),
        (
            ("[shells]", '[scenarios]\ncolumns = { copper = ["a", ""] }\n[shells]'),
            "[scenarios.columns] copper: codes may not be empty or contain a NUL byte",
        ),
        (("[economics]", '"a\\nb" = 1\n[economics]'), "[grid] a\\nb: unknown key: remove it"),
    ],
)
def test_names_that_are_none(refused, change, sentence):
    assert refused(PROJECT.replace(*change)) == sentence


def test_a_name_of_a_file_that_is_none():
    with pytest.raises(PlanError, match=r"'\\x00': is not a file name: embedded null byte"):
        load("\0")


@pytest.mark.parametrize(
    "added, said",
    [
        ('[table]\nclass = "class"\n', "[table] is written twice, lines 3 and 27: put the keys below the first"),
        (
            "[metals.smelter]\npayable = 0.9\n[metals.smelter]\npayable = 0.8\n",
            "[metals.smelter] is written twice, lines 27 and 29: put the keys below the first",
        ),
        ("discount_rate = 0.2\n", "[shells] discount_rate is written twice, lines 25 and 27: remove one"),
    ],
)
def test_what_is_written_twice_is_named_with_both_lines(refused, added, said):
    assert refused(PROJECT + added, int(re.search(r"and (\d+)", said)[1])) == said


def test_another_mistake_keeps_the_words_of_the_parser(refused):
    assert refused(PROJECT + "rate = \n", 27) == "Invalid value (at line 27, column 8)"
