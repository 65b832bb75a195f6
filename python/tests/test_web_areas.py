"""Areas that the browser draws or uploads: their files, their keys, and what is refused."""

import html
from dataclasses import replace

import pytest
import tomllib
from conftest import PROJECT, rows
from helpers.browser_application import OWN, PORT, entered
from helpers.writings import UNVERIFIED

import pitplan
from pitplan.config.geometry import Area
from pitplan.config.project import load
from pitplan.config.table import SurveyFile
from pitplan.web.block_pages import corners_of, with_area
from pitplan.web.grids import changed, grids_of
from pitplan.web.run_form import WrongForm
from pitplan.web.security import Access

NAME = "hill/project.toml"
CORNERS = "0 0\n40, 0\n40;40.25\n0\t40\n"


@pytest.fixture
def path(tmp_path):
    folder = tmp_path.resolve() / "mines" / "hill"
    folder.mkdir(parents=True)
    rows(8, 8, 3, cu=lambda i, j, k: 2.0 if k < 2 else 0.0).to_csv(folder / "blocks.csv", index=False)
    (folder / "project.toml").write_text(PROJECT)
    return folder / "project.toml"


@pytest.fixture
def client(path):
    return entered(path.parent.parent, Access(PORT))


def send(client, **form):
    given = {"project": NAME, "name": "lease", "side": "outside", "corners": CORNERS, **form}
    return client.post("/project/area", data=given, headers=OWN)


def files(path):
    return sorted(it.name for it in path.parent.iterdir() if not it.name.startswith("."))


def test_an_area_that_is_drawn_is_a_file_and_a_key_and_holds_in_the_pits(path, client):
    answer = send(client)
    assert answer.status_code == 201 and answer.json() == {"next": f"/blocks?name={NAME}"}, answer.text
    assert (path.parent / "lease.csv").read_text() == "x,y\n0.000,0.000\n40.000,0.000\n40.000,40.250\n0.000,40.000\n"
    assert path.read_text() == PROJECT + '\n[[constraints.areas]]\npolygon = "lease.csv"\nexclude = "outside"\n'
    model = client.get("/blocks/model", params={"name": NAME}).json()
    (area,) = model["areas"]
    assert area["name"] == "lease" and area["exclude"] == "outside" and [40.0, 40.25] in area["rings"][0]
    pitplan.write_shells(path, writing=UNVERIFIED)
    blocks = pitplan.Plan.from_project(path).blocks
    assert len(blocks) == 8 * 8 * 3
    mined = client.get("/blocks/values", params={"name": "hill/plan", "column": "revenue_factor"}).content
    assert any(mined)
    # A further one follows.
    assert send(client, name="river bed", side="inside", corners="10 10\n20 10\n20 20").status_code == 201
    areas = tomllib.loads(path.read_text())["constraints"]["areas"]
    assert [(it["polygon"], it["exclude"]) for it in areas] == [("lease.csv", "outside"), ("river bed.csv", "inside")]
    # The grid of areas removes one and keeps its file.
    grid = grids_of(path.read_text(), load(path))["areas"]
    assert [row.cells for row in grid.rows] == [("lease.csv", "outside"), ("river bed.csv", "inside")]
    text = changed(path.read_text(), grid, replace(grid, rows=grid.rows[1:]), NAME)
    assert tomllib.loads(text)["constraints"]["areas"] == areas[1:]


def test_an_area_that_is_uploaded_is_kept_as_it_is(path, client):
    content = b"x,y,note\n0,0,a\n30,0,b\n30,30,c\n"
    query = {"project": NAME, "name": "plant", "side": "inside", "file": "Polygon of the plant.CSV"}
    answer = client.put("/project/area-file", params=query, content=content, headers=OWN)
    assert answer.status_code == 201, answer.text
    assert (path.parent / "plant.csv").read_bytes() == content


@pytest.mark.parametrize(
    ("form", "why"),
    [
        ({"name": ""}, "Name of the area: found '', expected letters"),
        ({"name": "../x"}, "Name of the area: found '../x'"),
        ({"name": "blocks"}, "Name of the area: blocks.csv: exists already: give another name"),
        ({"side": "above"}, "May not be mined: found 'above', expected one of inside, outside"),
        ({"corners": "0 0\n1 1"}, "Corners: found 2, expected 3 to 2,000: click corners on the plan"),
        ({"corners": "0 0\n1 x\n2 2"}, "Corners, line 2: found '1 x', expected x and y in metres"),
        ({"corners": "0 0\n1 nan\n2 2"}, "Corners, line 2: found '1 nan'"),
        ({"corners": "9000 0\n9010 0\n9010 10"}, "lease.csv: no block lies in its polygons"),
    ],
)
def test_an_area_that_cannot_be_is_refused_and_nothing_is_written(path, client, form, why):
    before = files(path)
    answer = send(client, **form)
    assert answer.status_code == 422 and why in html.unescape(answer.text), answer.text
    assert path.read_text() == PROJECT and files(path) == before


@pytest.mark.parametrize(
    ("file", "content", "why"),
    [
        ("a.exe", b"", "Polygon: a.exe: expected a file that ends in .csv, .dxf"),
        ("a.csv", b"a,b\n1,2\n", "plant.csv"),
        ("a.geojson", b"{", "plant.geojson"),
    ],
)
def test_a_file_without_polygons_leaves_nothing(path, client, file, content, why):
    before = files(path)
    query = {"project": NAME, "name": "plant", "side": "inside", "file": file}
    answer = client.put("/project/area-file", params=query, content=content, headers=OWN)
    assert answer.status_code == 422 and why in answer.text, answer.text
    assert path.read_text() == PROJECT and files(path) == before


def test_another_site_and_other_files_change_nothing(path, client):
    form = {"project": NAME, "name": "lease", "side": "inside", "corners": CORNERS}
    assert client.post("/project/area", data=form).status_code == 403
    for name in ("../x.toml", "hill/blocks.csv", "none.toml"):
        assert send(client, project=name).status_code == 400
    assert path.read_text() == PROJECT and files(path) == ["blocks.csv", "project.toml"]


def test_areas_that_are_written_otherwise_are_left_to_the_text(tmp_path):
    area = Area(SurveyFile(tmp_path / "a.csv"), "inside")
    with pytest.raises(WrongForm, match=r"are not written as \[\[constraints.areas\]\]: add this one in the text"):
        with_area('[constraints]\nareas = [{ polygon = "b.csv", exclude = "inside" }]\n', area)
    assert with_area("", area) == '[[constraints.areas]]\npolygon = "a.csv"\nexclude = "inside"\n'
    assert corners_of(CORNERS)[2] == (40.0, 40.25)
