"""The main table of a command as JSON on standard output: the numbers of its CSV file, not rounded."""

import json

import pandas as pd
import pytest
from conftest import PROJECT, rows

from pitplan.cli import main

MORE = """[pushbacks]
count = 2
[schedule]
mining_capacity = 3000
[constraints]
must_mine = "must"
[sensitivity]
changes = [-0.1, 0.1]
parameters = ["price"]
"""


@pytest.fixture
def path(plan_folder):
    ore = {(2, 2, 1): 2, (5, 2, 1): 0.9}
    table = rows(8, 5, 3, cu=lambda i, j, k: ore.get((i, j, k), 0), must=lambda i, j, k: int((i, j, k) == (1, 1, 2)))
    return plan_folder(table, PROJECT + MORE)


@pytest.mark.parametrize(
    ("command", "file", "shows"),
    [
        ("shells", "tables/shells.csv", "report.html"),
        ("pit", "tables/pits.csv", "tables/pits.csv"),
        ("pushbacks", "tables/pushbacks.csv", "report.html"),
        ("schedule", "tables/methods.csv", "report.html"),
        ("sensitivity", "tables/sensitivity.csv", "tables/sensitivity.csv"),
    ],
)
def test_the_table_is_that_of_the_file(path, capsys, command, file, shows):
    out = path.parent / "out"
    options = ["--json", "--quiet", "--no-verify", "--out", str(out)]
    assert main([command, str(path), *options, *([] if command == "pit" else ["--no-figures"])]) == 0
    said = json.loads(capsys.readouterr().out)
    more = {"selected"} if command == "shells" else set()
    assert set(said) == {"path", "table"} | more and said["path"] == str(out / shows)
    written = pd.read_csv(out / file, keep_default_na=False, na_values=[""])
    found = pd.DataFrame(said["table"])
    shared = [name for name in written if name in found]
    assert len(found) == len(written) > 0 and len(shared) >= len(written.columns) - 2
    for name in shared:
        if pd.api.types.is_numeric_dtype(written[name]) and written[name].notna().any():
            assert found[name].astype(float).to_numpy() == pytest.approx(
                written[name].to_numpy(), abs=5e-3, nan_ok=True
            )
        else:
            assert found[name].fillna("").tolist() == written[name].fillna("").tolist()


def test_shells_name_the_selected_one_last(path, capsys, monkeypatch):
    """In one line before the path of the report, with the amounts of its row; of the project in this folder if none is named."""
    monkeypatch.chdir(path.parent)
    assert main(["shells", "--quiet", "--no-verify", "--no-figures", "--out", "out"]) == 0
    *_, line, shown = capsys.readouterr().out.splitlines()
    factor = json.loads((path.parent / "out" / "plan.json").read_text())["shells"]["selected"]
    shells = pd.read_csv("out/tables/shells.csv").set_index("revenue_factor")
    assert shown == "out/report.html" and line.startswith(f"selected shell: revenue factor {factor:.2f}, ")
    assert f", {shells['tonnes'][factor]:,.2f} t, {shells['feed_tonnes'][factor]:,.2f} t of mill feed, " in line


def test_without_a_project_in_the_folder_the_remedy_is_named(tmp_path, capsys, monkeypatch):
    monkeypatch.chdir(tmp_path)
    assert main(["check"]) == 1
    said = "pitplan: project.toml: is not in this folder: name the project, or write one for your block model: pitplan init TABLE"
    assert capsys.readouterr().err.strip() == said
