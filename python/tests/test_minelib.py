"""Published files in each layout, made by hand, and what the program is to read of them; all expected values by hand."""

import json
import subprocess
import sys
from array import array
from decimal import Decimal
from itertools import product
from pathlib import Path

import pytest
from conftest import ROOT
from hypothesis import given, strategies as st

import minelib
from minelib import numbers, precedence
from pitplan.cli import main
from pitplan.solver import program

UPIT = """% three blocks, the ore below
TYPE: UPIT
name: by hand
OBJECTIVE_FUNCTION:
2\t7.25E+1   % ids in any order
0 -1.
1 -.5e0
NBLOCKS: 3
EOF
"""
CPIT = """NAME: by hand
TYPE: CPIT
NBLOCKS: 2
NPERIODS: 6
NRESOURCE_SIDE_CONSTRAINTS: 1
DISCOUNT_RATE: 0.10
OBJECTIVE_FUNCTION:
0 -10
1 30
RESOURCE_CONSTRAINT_COEFFICIENTS:
0 0 100
1 0 100
RESOURCE_CONSTRAINT_LIMITS:
0 0 L 150
0 1 I 0 150
EOF
"""
PCPSP = """NAME: by hand
TYPE: PCPSP
NBLOCKS: 3
NDESTINATIONS: 2
OBJECTIVE_FUNCTION:
0 -10 -12.5
1 -4 8
2 3 -1e1
"""
PREC = "% block, count, needs\n2 2 1 0\n1 3 0 0 1\n0 0\n2 1 0\n"


def convert(folder, **files):
    """Writes each file with its ending and converts them all; gives the folder and the record."""
    paths = []
    for ending, text in files.items():
        paths.append(folder / f"published.{ending}")
        paths[-1].write_text(text, encoding="latin-1")
    return folder / "out", minelib.convert(paths, folder / "out")


def values_of(folder):
    lines = (folder / "mine.upit").read_text().split("\n")
    assert lines[1] == "TYPE: UPIT" and lines[3] == "OBJECTIVE_FUNCTION:" and lines[-1] == ""
    return lines[4:-1]


def test_convert_needs_the_standard_library_alone(tmp_path):
    """By an interpreter that sees no other package."""
    (tmp_path / "mine.upit").write_text(UPIT)
    words = [
        sys.executable,
        "-I",
        "-S",
        str(ROOT / "tools" / "pitplan"),
        "convert",
        "minelib",
        "--out",
        str(tmp_path / "out"),
    ]
    ran = subprocess.run([*words, str(tmp_path / "mine.upit")], capture_output=True, text=True)
    assert (ran.returncode, ran.stdout) == (0, f"{tmp_path / 'out'}\n"), ran.stderr
    assert (tmp_path / "out" / "mine.upit").exists()
    ran = subprocess.run([*words, "missing.upit"], capture_output=True, text=True)
    assert ran.returncode == 1 and ran.stderr.startswith("pitplan: missing.upit")


def test_a_upit_with_comments_exponents_and_ids_in_any_order_is_solved(tmp_path):
    folder, record = convert(tmp_path, upit=UPIT, prec=PREC)
    assert values_of(folder) == ["0 -1", "1 -0.5", "2 72.5"]
    assert (folder / "mine.prec").read_text() == "1 1 0\n2 2 0 1\n"
    assert record["prec"] == {
        "pairs_read": 3,
        "pairs_written": 3,
        "needs_named_twice": 2,
        "blocks_that_named_themselves": 1,
        "lines_joined": 1,
    }
    assert record["model"]["rounded"] == 0 and record["model"]["name"] == "by hand"
    pit = program.call("solve", "--model", folder / "mine.upit", "--prec", folder / "mine.prec").decode()
    assert pit == "PIT\nBLOCKS: 3\nIN: 3\nWORTH: 71.000000\n0\n1\n2\n"


def test_a_cpit_keeps_its_blocks_and_says_what_it_leaves(tmp_path):
    folder, record = convert(tmp_path, cpit=CPIT)
    assert values_of(folder) == ["0 -10", "1 30"]
    assert record["model"]["lines_passed_over"] == {
        "RESOURCE_CONSTRAINT_COEFFICIENTS": 2,
        "RESOURCE_CONSTRAINT_LIMITS": 2,
        "NPERIODS": 0,
        "NRESOURCE_SIDE_CONSTRAINTS": 0,
        "DISCOUNT_RATE": 0,
    }
    assert record["notes"] == [
        "published.cpit is a CPIT: its pit alone is asked for, without periods, capacities or discount"
    ]


def test_a_pcpsp_takes_the_best_destination_of_each_block(tmp_path):
    folder, record = convert(tmp_path, pcpsp=PCPSP)
    assert values_of(folder) == ["0 -10", "1 8", "2 3"]
    assert "of 2 destinations a block takes the one of greatest value" in record["notes"]


def test_more_than_six_decimals_are_kept_by_scaling(tmp_path):
    text = "NBLOCKS: 2\nTYPE: UPIT\nOBJECTIVE_FUNCTION:\n0 -0.123456789\n1 12345.5\n"
    folder, record = convert(tmp_path, upit=text)
    assert values_of(folder) == ["0 -123.456789", "1 12345500"]
    assert record["model"]["multiplied_by"] == "1e3" and record["model"]["rounded"] == 0
    assert record["notes"] == ["values are multiplied by 1e3, and so is all that is summed of them"]


def test_what_cannot_be_kept_is_rounded_and_counted(tmp_path):
    text = "NBLOCKS: 3\nTYPE: UPIT\nOBJECTIVE_FUNCTION:\n0 123456789012\n1 0.0000025\n2 0.0000119\n"
    folder, record = convert(tmp_path, upit=text)
    assert values_of(folder) == ["0 123456789012", "1 0.000002", "2 0.000012"]
    assert record["model"]["rounded"] == 2 and record["model"]["largest_rounding"] == "0.0000005"
    assert record["notes"] == ["2 of 3 values were rounded, by 5e-7 at most"]


def test_greater_values_than_a_model_holds_are_scaled_down(tmp_path):
    folder, record = convert(tmp_path, upit="NBLOCKS: 2\nTYPE: UPIT\nOBJECTIVE_FUNCTION:\n0 -5e13\n1 1\n")
    assert values_of(folder) == ["0 -500000000000", "1 0.01"] and record["model"]["rounded"] == 0


def test_blocks_with_texts_decimals_and_exponents(tmp_path):
    text = "% id x y z tonnes rock grade\n1 10.5 -2 3 1.5e3 OX 0.1234567\n0 0 0 0 900 SULF 0\n2 1 1 1 0 OX 2\n"
    folder, record = convert(tmp_path, blocks=text)
    assert (folder / "mine.blocks").read_text() == "0 0 0 0 900 1 0\n1 105 -2 3 1500 0 1.234567\n2 10 1 1 0 0 20\n"
    assert record["blocks"]["codes"] == {"1": ["OX", "SULF"]}
    assert record["blocks"]["x_y_z_multiplied_by"] == ["1e1", "1", "1"]
    assert [column["multiplied_by"] for column in record["blocks"]["columns"]] == ["1", "1", "1e1"]
    assert any(note.startswith("WARNING: columns are multiplied by different powers") for note in record["notes"])


@pytest.mark.parametrize(
    "ending, text, words",
    [
        ("upit", "NBLOCKS: 1\nOBJECTIVE_FUNCTION:\n0 1_0\n", 'line 3: "1_0" is not a number'),
        ("upit", "NBLOCKS: 1\nOBJECTIVE_FUNCTION:\n0 nan\n", 'line 3: "nan" is not a number'),
        ("upit", "NBLOCKS: 1\nOBJECTIVE_FUNCTION:\n0 1e99\n", "line 3: 1e99 is out of all measure"),
        ("upit", "NBLOCKS: 1\nOBJECTIVE_FUNCTION:\n0 1\n0 2\n", "line 4: block 0 stands in line 3 too"),
        (
            "upit",
            "NBLOCKS: 1\nOBJECTIVE_FUNCTION:\n1 1\n",
            "line 3: block 1, where NBLOCKS: is 1 and blocks count from 0",
        ),
        ("upit", "NBLOCKS: 1\nOBJECTIVE_FUNCTION:\n0 1\nEOF\n1 2\n", "line 5: stands behind the line EOF"),
        ("upit", "TYPE: UPIT\nOBJECTIVE_FUNCTION:\n0 1\n", "has no header NBLOCKS:"),
        ("upit", "0 1\n", "line 1: a header such as NAME: is due"),
        ("upit", "NBLOCKS: 1\nNBLOCKS: 2\n", "line 2: NBLOCKS: stands twice"),
        ("upit", "NBLOCKS: 1\nTYPE: KNAP\nOBJECTIVE_FUNCTION:\n0 1\n", "TYPE: KNAP is none of UPIT, CPIT, PCPSP"),
        ("cpit", "NBLOCKS: 1\nOBJECTIVE_FUNCTION:\n0 1 2\n", "blocks have 2 values, and a CPIT here has 1"),
        ("prec", "0 2 1\n", "line 1: names 1 blocks, where its count is 2"),
        ("prec", "0 1 -1\n", 'line 1: "-1" is not a whole number from 0 on'),
        ("prec", "5000000 0\n", "line 1: block 5000000, where there are 4,194,304 and blocks count from 0"),
        ("blocks", "0 0 0 0 1\n1 0 0 0\n", "line 2: 4 fields, where 5 are due"),
        ("blocks", "0 0 0 0\n2 0 0 0\n", "has no line of block 1, and one of block 2"),
        ("blocks", "0 1e12 0 0\n", "column x: coordinates with 0 decimals do not fit"),
    ],
)
def test_a_mistake_is_named_by_file_and_line_and_nothing_is_written(tmp_path, ending, text, words):
    with pytest.raises(minelib.MinelibError) as said:
        convert(tmp_path, **{ending: text})
    assert str(said.value).startswith(f"{tmp_path}/published.{ending}") and words in str(said.value)
    assert list((tmp_path / "out").iterdir()) == []


def test_files_of_two_mines_are_refused(tmp_path):
    with pytest.raises(minelib.MinelibError, match="not of one mine: .*upit has 3, .*blocks has 1 blocks"):
        convert(tmp_path, upit=UPIT, blocks="0 0 0 0\n")
    with pytest.raises(minelib.MinelibError, match="is a model already: convert one mine at a time"):
        convert(tmp_path, upit=UPIT, cpit=CPIT)


def test_pairs_over_the_limit_are_reduced_or_refused_with_both_counts(tmp_path):
    source = tmp_path / "chain.prec"
    source.write_text("3 3 0 1 2\n2 2 0 1\n1 1 0\n")
    record = minelib.convert([source], tmp_path / "out", minelib.Limits(pairs=3))
    assert (tmp_path / "out" / "mine.prec").read_text() == "1 1 0\n2 1 1\n3 1 2\n"
    assert record["notes"] == ["3 of 6 pairs were left out, since other pairs lead to the same need"]
    with pytest.raises(minelib.MinelibError, match="6 pairs, 3 without those that others lead to, .* at most 2"):
        minelib.convert([source], tmp_path / "out", minelib.Limits(pairs=2))
    source.write_text("1 1 0\n0 1 1\n2 1 1\n")
    with pytest.raises(minelib.MinelibError, match="3 blocks, 0 among them, need each other in a circle"):
        minelib.convert([source], tmp_path / "out", minelib.Limits(pairs=2))


def closure(pairs, count):
    """All that pairs lead to, by Warshall's algorithm."""
    reach = [[(a, b) in pairs for b in range(count)] for a in range(count)]
    for k, a, b in product(range(count), repeat=3):
        reach[a][b] = reach[a][b] or (reach[a][k] and reach[k][b])
    return {(a, b) for a in range(count) for b in range(count) if reach[a][b]}


@given(st.sets(st.tuples(st.integers(0, 7), st.integers(0, 7)).filter(lambda pair: pair[0] != pair[1]), max_size=24))
def test_the_reduction_leads_to_the_same_needs_and_has_no_pair_to_spare(drawn):
    # Numbers are mixed so that needs do not always rise.
    order = [3, 6, 0, 5, 1, 7, 2, 4]
    pairs = {(order[max(pair)], order[min(pair)]) for pair in drawn}
    precedences = {a: array("i", sorted(b for c, b in pairs if c == a)) for a in range(8)}
    kept = precedence.reduced({block: needed for block, needed in precedences.items() if needed})
    least = {(a, b) for a, needed in kept.items() for b in needed}
    whole = closure(pairs, 8)
    assert least <= pairs and closure(least, 8) == whole
    assert all(closure(least - {pair}, 8) != whole for pair in least)


@given(
    st.lists(
        st.decimals(-(10**15), 10**15, allow_nan=False, allow_infinity=False, places=9), min_size=1, max_size=8
    )
)
def test_fitted_numbers_differ_by_what_is_said_and_no_more(values):
    fitted = numbers.fit(values)
    texts = list(fitted.texts())
    shift = Decimal(10) ** fitted.power
    off = [abs(Decimal(text) / shift - value) for text, value in zip(texts, values)]
    assert max(off) == fitted.largest and sum(difference != 0 for difference in off) == fitted.changed
    for text in texts:
        whole, _, places = text.lstrip("-").partition(".")
        assert 1 <= len(whole) <= 12 and len(places) <= 6
    # Rounding comes only where no power of ten would keep all.
    room = 12 - max(value.adjusted() + 1 for value in values if value) if any(values) else 12
    assert fitted.changed == 0 or room < 3


def test_the_command_and_the_package_alone_write_the_same(tmp_path):
    (tmp_path / "by_hand.upit").write_text(UPIT)
    assert main(["convert", "minelib", str(tmp_path / "by_hand.upit"), "--out", str(tmp_path / "a")]) == 0
    # -S leaves out all packages that are not Python's own.
    bare = [sys.executable, "-S", "-m", "minelib", str(tmp_path / "by_hand.upit"), "--out", str(tmp_path / "b")]
    subprocess.run(bare, cwd=ROOT / "python", check=True, capture_output=True)
    assert (tmp_path / "a" / "mine.upit").read_bytes() == (tmp_path / "b" / "mine.upit").read_bytes()
    assert json.loads((tmp_path / "b" / "convert.json").read_text())["model"]["blocks"] == 3


def test_a_refusal_is_one_sentence(tmp_path, capsys):
    assert main(["convert", "minelib", str(Path("nowhere.upit")), "--out", str(tmp_path)]) == 1
    assert capsys.readouterr().err == "pitplan: nowhere.upit: cannot be read: No such file or directory\n"


def test_a_file_that_is_read_is_not_written_over(tmp_path):
    (tmp_path / "mine.upit").write_text(UPIT)
    with pytest.raises(minelib.MinelibError) as said:
        minelib.convert([tmp_path / "mine.upit"], tmp_path)
    assert str(said.value) == f"{tmp_path / 'mine.upit'}: would be written over: name another folder by --out"
    assert (tmp_path / "mine.upit").read_text() == UPIT


def test_the_mark_that_windows_puts_before_a_text_is_passed_over(tmp_path):
    for name, mark in (("plain", b""), ("marked", b"\xef\xbb\xbf")):
        (tmp_path / f"{name}.upit").write_bytes(mark + UPIT.encode())
        minelib.convert([tmp_path / f"{name}.upit"], tmp_path / name)
    assert (tmp_path / "marked" / "mine.upit").read_bytes() == (tmp_path / "plain" / "mine.upit").read_bytes()
