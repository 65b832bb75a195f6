"""Block models as mining packages export them go from `pitplan init` to shells, as the table does that a planner cleans by hand."""

import re

import numpy as np
import pandas as pd
import pytest
from helpers import vendor_models

from pitplan import Plan, load
from pitplan.cli import main

# The deposit; another seed; on a turned grid; and with the cells of air.
CASES = {"plain": {}, "another seed": {"seed": 5}, "turned": {"azimuth": 30.0}, "air": {"air": True}}
CLEAN = 'file = "clean.csv"\ndomain = "sector"\n'


def exported(folder, package, seed=11, azimuth=0.0, air=False):
    cells = vendor_models.deposit(seed)
    if azimuth:
        cells = vendor_models.turned(cells, azimuth)
    path = folder / f"{package}.csv"
    vendor_models.write(package, cells, path, air)
    return path


def with_clean_table(text):
    """The same project with the table that was cleaned by hand, whose columns have their usual names."""
    table = re.compile(r"\[table\].*?(?=\n\[economics\])", re.DOTALL)
    text = table.sub("[table]\n" + CLEAN + "[grid]\nsize = [20, 20, 15]\n", text)
    for metal, column in (("copper", "cu"), ("gold", "au")):
        text = re.sub(rf'(name = "{metal}"\ncolumn = )"[^"]*"', rf'\1"{column}"', text)
    return text


@pytest.mark.parametrize("package", vendor_models.PACKAGES)
@pytest.mark.parametrize("case", CASES)
def test_shells_equal_those_of_the_cleaned_table(tmp_path, package, case):
    path = exported(tmp_path, package, **CASES[case])
    assert main(["init", str(path)]) == 0
    clean = vendor_models.cleaned(package, path)
    clean.to_csv(tmp_path / "clean.csv", index=False)
    (tmp_path / "clean.toml").write_text(
        with_clean_table((tmp_path / "project.toml").read_text()) + '\n[output]\nfolder = "clean"\n'
    )
    found = {}
    for name, more in (("project", []), ("clean", ["--no-verify"])):
        few = ["--set", "shells.revenue_factors=[0.5, 1.0]"]
        assert main(["shells", str(tmp_path / f"{name}.toml"), "--quiet", "--no-figures", *few, *more]) == 0
        folder = load(tmp_path / f"{name}.toml").folder
        blocks = pd.read_csv(folder / "tables/blocks.csv")
        axes = load(tmp_path / f"{name}.toml").table
        places = blocks[[axes.x, axes.y, axes.z]].round(3).apply(tuple, axis=1)
        columns = ["revenue_factor", "process_revenue_factor", "mining_cost", "revenue"]
        found[name] = blocks[columns].set_index(places).sort_index()
        assert (found[name]["revenue_factor"] > 0).sum() > 20
    pd.testing.assert_frame_equal(found["project"], found["clean"])


@pytest.mark.parametrize(
    ("package", "said"),
    [
        ("vulcan", "Vulcan CSV, 4 header lines"),
        ("datamine", "Datamine CSV"),
        ("surpac", "Surpac CSV, 5 header lines"),
        ("leapfrog", "Leapfrog CSV, 4 header lines"),
    ],
)
def test_init_says_what_it_recognised(tmp_path, capsys, package, said):
    path = exported(tmp_path, package, air=True)
    clean = vendor_models.cleaned(package, path)
    assert main(["init", str(path)]) == 0
    lines = capsys.readouterr().err.splitlines()
    assert said in lines
    rows = len(pd.read_csv(path, skiprows=[1, 2, 3])) if package == "vulcan" else None
    if rows:
        gone = rows - len(clean)
        assert f"WARNING: {gone:,} rows are read as missing blocks, since density is null" in lines
    # The tonnes that the planner gets by hand, to a tonne.
    total = float(re.search(r"blocks, ([\d,]+) tonnes", lines[0])[1].replace(",", ""))
    assert abs(total - clean["tonnes"].sum()) < 1
    # Warnings come last, after an empty line.
    first = next(k for k, line in enumerate(lines) if line.startswith("WARNING"))
    assert lines[first - 1] == "" and all(line.startswith("WARNING") for line in lines[first:])


def test_the_table_of_columns_has_role_unit_nulls_and_extremes(tmp_path, capsys):
    path = exported(tmp_path, "vulcan", air=True)
    assert main(["init", str(path)]) == 0
    lines = capsys.readouterr().err.splitlines()
    frame = pd.read_csv(path, skiprows=[1, 2, 3])
    rock = frame[frame["density"] != -99]
    some = rock.loc[rock["cu_ok"] != -99, "cu_ok"]
    line = next(line for line in lines if line.startswith("cu_ok "))
    nulls = np.count_nonzero(frame["cu_ok"] == -99)
    figures = [f"{it:.6g}" for it in (some.min(), some.mean(), some.max())]
    assert line.split() == [
        "cu_ok",
        "grade",
        "of",
        "copper",
        "%",
        f"{nulls:,}",
        "(-99)",
        *figures,
        *"unit from the header".split(),
    ]
    assert any(line.split()[:4] == ["topo_pct", "share", "of", "rock"] for line in lines)
    assert any(line.startswith("litho") and "2 codes: and, por" in line for line in lines)


def test_the_volume_is_compared_with_the_box(tmp_path, capsys):
    """Sub-cells that overlap fill more of their blocks than these have."""
    path = exported(tmp_path, "datamine")
    frame = pd.read_csv(path)
    assert main(["init", str(path)]) == 0
    frame.loc[frame["ZINC"] < 10, "ZINC"] = 15.0
    frame.to_csv(path, index=False)
    plan = Plan.from_project(tmp_path / "project.toml")
    said = [note for note in plan.notes if "of their blocks" in note]
    assert said and said[0].startswith("WARNING: the cells fill") and "they overlap, by up to 100 %" in said[0]
