"""Block models of OMF and Datamine as the table of a project: the same shells as of the same blocks in a CSV file."""

import numpy as np
import pandas as pd
import pytest
from conftest import PROJECT, rows
from helpers.datamine_files import file_of
from helpers.omf_files import Written

from pitplan import Plan, PlanError, load
from pitplan.cli import main

TABLE = rows(7, 6, 4, cu=lambda i, j, k: {(3, 3, 1): 6.0, (2, 3, 2): 2.5}.get((i, j, k), 0.0))
TABLE["rock"] = np.where(TABLE["x"] < 30, "OX", "SULPHIDE")
FILE = 'file = "blocks.csv"\nid = "name"\n'


def omf(path):
    """A volume of the same blocks: the third axis runs fastest."""
    file, ordered = Written(), TABLE.sort_values(["x", "y", "z"])
    data = [file.numbers(name, ordered[name]) for name in ("tonnes", "cu")]
    data += [file.texts(name, list(ordered[name])) for name in ("rock", "region", "name")]
    file.volume([10] * 7, [10] * 6, [10] * 4, data)
    return file.save(path)


def dm(path):
    columns = {name: TABLE[name].tolist() for name in ("name", "tonnes", "cu", "rock", "region")}
    path.write_bytes(
        file_of({"XC": TABLE["x"].tolist(), "YC": TABLE["y"].tolist(), "ZC": TABLE["z"].tolist(), **columns}, size=8)
    )
    return path


def shells_of(path):
    assert main(["shells", str(path), "--quiet", "--no-figures"]) == 0
    blocks = pd.read_csv(load(path).folder / "tables/blocks.csv").set_index("name").sort_index()
    return blocks[["tonnes", "cu", "rock", "revenue", "mining_cost", "revenue_factor"]]


@pytest.mark.parametrize(("write", "name", "said"), [(omf, "m.omf", "OMF"), (dm, "m.dm", "Datamine")])
def test_shells_are_those_of_the_table(plan_folder, tmp_path, write, name, said):
    path = plan_folder(TABLE)
    expected = shells_of(path)
    write(tmp_path / name)
    other = tmp_path / "other.toml"
    other.write_text(path.read_text().replace("blocks.csv", name) + '\n[output]\nfolder = "other"\n')
    pd.testing.assert_frame_equal(shells_of(other), expected)
    assert main(["verify", str(tmp_path / "other")]) == 0
    notes = Plan.from_project(other).notes
    assert any(said in note for note in notes), notes


@pytest.mark.parametrize(("write", "name", "said"), [(omf, "m.omf", "OMF"), (dm, "m.dm", "Datamine")])
def test_init_takes_them(tmp_path, capsys, write, name, said):
    path = write(tmp_path / name)
    assert main(["init", str(path)]) == 0
    lines = capsys.readouterr().err.splitlines()
    assert f"{path}: 168 blocks, 16,800 tonnes" in lines and any(line.startswith(said) for line in lines)
    assert main(["shells", str(tmp_path / "project.toml"), "--quiet", "--no-figures"]) == 0


def test_errors_name_the_record(plan_folder, tmp_path):
    table = TABLE.copy()
    table.loc[4, "tonnes"] = -5
    (tmp_path / "m.dm").write_bytes(
        file_of(
            {
                "XC": table["x"].tolist(),
                "YC": table["y"].tolist(),
                "ZC": table["z"].tolist(),
                **{name: table[name].tolist() for name in ("name", "tonnes", "cu", "rock", "region")},
            }
        )
    )
    path = plan_folder(TABLE, PROJECT, ('file = "blocks.csv"', 'file = "m.dm"'))
    with pytest.raises(PlanError, match=r"m.dm row 5 column tonnes: -5 is negative"):
        Plan.from_project(path)
    path.write_text(path.read_text().replace('column = "cu"', 'column = "au"'))
    with pytest.raises(PlanError, match=r"m.dm: there is no column au; the columns are"):
        Plan.from_project(path)
    path.write_text(path.read_text().replace('column = "au"', 'column = "cu"').replace("m.dm", "blocks.csv"))
    assert main(["shells", str(path), "--quiet", "--no-figures"]) == 0


def test_what_needs_a_text_is_refused(plan_folder, tmp_path):
    dm(tmp_path / "m.dm")
    path = plan_folder(TABLE, PROJECT, ('file = "blocks.csv"', 'file = "m.dm"'))
    assert main(["shells", str(path), "--quiet", "--no-figures"]) == 0
    assert main(["export", str(tmp_path / "plan"), "--to", "table"]) == 1
