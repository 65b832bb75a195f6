"""Fixed blocks from columns, from the surface as mined and from areas on the map; and the pit that keeps to them."""

import io
import os
import subprocess
from dataclasses import replace
from decimal import Decimal

import numpy as np
import pandas as pd
import pytest
from conftest import rows
from helpers.constraints import FIXED_SECTION, ores_and_fixed, with_section
from helpers.shells import BOX, CLOSED, SMALL, best_by_trying, grades, project_of
from helpers.writings import PLAIN, REPORTED
from hypothesis import given, strategies as st

import pitplan
from pitplan import Plan, constraints, load
from pitplan.cli import main
from pitplan.config.geometry import ConstraintRules
from pitplan.core.progress import Progress, silent
from pitplan.errors import PlanError
from pitplan.results.folder import read_record
from pitplan.solver import mine_files, problem, program


def lines_of(path, table, text, tmp_path):
    """The lines of mine.fixed."""
    plan = Plan.from_project(load(path(table, with_section(text))))
    mine_files.write(plan, tmp_path)
    return (tmp_path / "mine.fixed").read_text().splitlines()


def test_columns_of_the_table(plan_folder, tmp_path):
    """Two levels of four blocks; ids run from the top level down."""
    table = rows(4, 1, 2, must=lambda i, j, k: int(i == 0), never=lambda i, j, k: int((i, k) == (3, 1)))
    assert lines_of(plan_folder, table, '[constraints]\nmust_mine = "must"\nexclude = "never"\n', tmp_path) == [
        "in 0",
        "out 3",
        "in 4",
    ]


def test_cells_without_rock_are_never_fixed(plan_folder, tmp_path):
    table = rows(3, 1, 1, must=lambda i, j, k: 1, tonnes=lambda i, j, k: 100 * (i < 2))
    assert lines_of(plan_folder, table, '[constraints]\nmust_mine = "must"\n', tmp_path) == ["in 0", "in 1"]


def test_nothing_is_fixed(plan_folder, tmp_path):
    assert lines_of(plan_folder, rows(2, 1, 1), "[constraints]\n", tmp_path) == []
    plan = Plan.from_project(load(plan_folder(rows(2, 1, 1))))
    (tmp_path / "free").mkdir()
    mine_files.write(plan, tmp_path / "free")
    assert not (tmp_path / "free" / "mine.fixed").exists()


def test_rock_above_the_surface_must_be_dug(plan_folder, tmp_path):
    """Blocks of 10 m on levels with centres 5, 15 and 25: the ground lies at 20, at 5 on the mean, and is not known."""
    points = "x,y,z\n3,4,20\n12,2,0\n18,9,10\n-50,5,0\n"
    (tmp_path / "mined.csv").write_text(points)
    plan = Plan.from_project(
        load(plan_folder(rows(3, 1, 3), with_section('[constraints]\nas_mined = "mined.csv"\ntopography = "blocks"\n')))
    )
    assert plan.fixed.must_mine.tolist() == [0, 1, 4]
    assert any("1 columns of blocks lie beyond all points" in note for note in plan.notes)


def test_each_column_has_the_surface_of_its_own_points(plan_folder, tmp_path):
    """Twelve columns of four blocks, each with two points whose mean is told by east and north; points off the model say nothing."""
    heights = {(i, j): 3 + 4.5 * i + 7 * j for i in range(4) for j in range(3)}
    points = [(10 * i + 5 + a, 10 * j + 5 - a, height + a) for (i, j), height in heights.items() for a in (-4, 4)]
    points += [(-1, 5, -900), (41, 15, -900), (15, -1, -900), (25, 31, -900)]
    pd.DataFrame(points, columns=["x", "y", "z"]).to_csv(tmp_path / "mined.csv", index=False)
    plan = Plan.from_project(
        load(plan_folder(rows(4, 3, 4), with_section('[constraints]\nas_mined = "mined.csv"\ntopography = "blocks"\n')))
    )
    blocks = plan.blocks
    ground = [heights[int(x // 10), int(y // 10)] for x, y in zip(blocks["x"], blocks["y"])]
    assert plan.fixed.must_mine.tolist() == blocks.loc[blocks["z"] > ground, "id"].tolist()
    assert not any("surface was interpolated" in note or "beyond all points" in note for note in plan.notes)


def test_a_surface_between_points_is_their_plane(plan_folder, tmp_path):
    """A plane that falls to the east and rises to the north, at coordinates of seven digits, by four far corners that lie round no
    column's middle; no point of the 24 columns has one of its own."""
    east, north = 600_000, 6_512_000

    def plane(x, y):
        return 21 - 0.4 * (x - east) + 0.3 * (y - north)

    corners = [(east + x, north + y) for x in (-17, 91) for y in (-23, 64)]
    pd.DataFrame([(x, y, plane(x, y)) for x, y in corners], columns=["x", "y", "z"]).to_csv(
        tmp_path / "mined.csv", index=False
    )
    table = rows(6, 4, 3).assign(x=lambda it: it["x"] + east, y=lambda it: it["y"] + north)
    plan = Plan.from_project(
        load(plan_folder(table, with_section('[constraints]\nas_mined = "mined.csv"\ntopography = "blocks"\n')))
    )
    blocks = plan.blocks
    assert plan.fixed.must_mine.tolist() == blocks.loc[blocks["z"] > plane(blocks["x"], blocks["y"]), "id"].tolist()
    assert 0 < len(plan.fixed.must_mine) < 72


@pytest.mark.parametrize("points", ["3,4,0\n", "3,4,0\n3,4,2\n", "0,0,0\n10,5,0\n40,20,0\n"])
def test_points_that_make_no_triangle_say_nothing_beside_them(plan_folder, tmp_path, points):
    """Over the second and third column: one point, the same twice, and points on a line."""
    (tmp_path / "mined.csv").write_text("x,y,z\n" + points)
    plan = Plan.from_project(
        load(plan_folder(rows(3, 3, 1), with_section('[constraints]\nas_mined = "mined.csv"\ntopography = "blocks"\n')))
    )
    over = {
        (int(x) // 10, int(y) // 10)
        for x, y, _ in np.atleast_2d(np.loadtxt(points.splitlines(), delimiter=","))
        if x < 30
    }
    assert plan.fixed.must_mine.tolist() == sorted(3 * j + i for i, j in over)
    assert any(f"{9 - len(over)} columns of blocks lie beyond all points" in note for note in plan.notes)


def test_a_triangle_bars_what_lies_in_it(plan_folder, tmp_path):
    """Below the line from 40 m in the north to 60 m in the east."""
    (tmp_path / "corner.csv").write_text("x,y\n0,0\n60,0\n0,40\n")
    plan = Plan.from_project(
        load(
            plan_folder(
                rows(7, 5, 1), with_section('[[constraints.areas]]\npolygon = "corner.csv"\nexclude = "inside"\n')
            )
        )
    )
    blocks = plan.blocks
    assert plan.fixed.excluded.tolist() == blocks.loc[blocks["x"] / 60 + blocks["y"] / 40 < 1, "id"].tolist()


def test_blocks_of_less_than_a_tonne_are_rock(plan_folder, tmp_path):
    table = rows(3, 1, 1, must=lambda i, j, k: 1, tonnes=lambda i, j, k: [0.5, 0, 1][i])
    assert lines_of(plan_folder, table, '[constraints]\nmust_mine = "must"\n', tmp_path) == ["in 0", "in 2"]
    plan = Plan.from_project(load(plan_folder(table)))
    assert plan.values.mining.tolist() == [1_000_000, 0, 2_000_000]


def test_a_surface_of_few_points_is_laid_between_them(plan_folder, tmp_path):
    """A plane that falls from 31 m in the west to 1 m in the east, by its corners alone: over the columns at 5, 15 and 25 m it lies
    at 26, 16 and 6 m."""
    (tmp_path / "mined.csv").write_text("x,y,z\n0,-50,31\n0,50,31\n30,-50,1\n30,50,1\n")
    plan = Plan.from_project(
        load(plan_folder(rows(3, 1, 3), with_section('[constraints]\nas_mined = "mined.csv"\ntopography = "blocks"\n')))
    )
    assert plan.fixed.must_mine.tolist() == [1, 2, 5]
    assert any(
        "over 3 columns of blocks the surface was interpolated from the points around them" in note
        for note in plan.notes
    )


def test_areas_on_the_map(plan_folder, tmp_path):
    """A lease round the first three of four columns of blocks, and a river through the second."""
    (tmp_path / "lease.csv").write_text("x,y\n0,0\n30,0\n30,10\n0,10\n")
    (tmp_path / "river.csv").write_text("x,y\n10,-5\n20,-5\n20,15\n10,15\n")
    text = '[[constraints.areas]]\npolygon = "lease.csv"\nexclude = "outside"\n[[constraints.areas]]\npolygon = "river.csv"\nexclude = "inside"\n'
    plan = Plan.from_project(load(plan_folder(rows(4, 1, 2), with_section(text))))
    assert plan.fixed.excluded.tolist() == [1, 3, 5, 7]


def test_a_polygon_with_a_bay():
    corners = np.array([[0, 0], [40, 0], [40, 40], [20, 10], [0, 40]], dtype=float)
    inside = [(5.0, 20.0), (35.0, 20.0), (20.0, 5.0)]
    outside = [(20.0, 20.0), (-1.0, 5.0), (41.0, 5.0), (20.0, 41.0)]
    x, y = np.array(inside + outside).T
    for turned in (corners, corners[::-1]):
        assert constraints.within(x, y, turned).tolist() == [True] * len(inside) + [False] * len(outside)


@pytest.mark.parametrize(
    ("text", "file", "said"),
    [
        ('[constraints]\nmust_mine = "mined"\n', "", "there is no column mined"),
        (
            '[constraints]\nmust_mine = "must"\nexclude = "must"\n',
            "",
            "block b0-0-0 .row 2. is both must-mine and excluded",
        ),
        ('[constraints]\nas_mined = "area.csv"\ntopography = "blocks"\n', "x,y\n1,2\n", "there is no column z"),
        (
            '[constraints]\nas_mined = "area.csv"\ntopography = "blocks"\n',
            "x,y,z\n1,2,\n",
            "area.csv row 2 column z: is empty",
        ),
        ('[constraints]\nas_mined = "none.csv"\ntopography = "blocks"\n', "", "cannot be read"),
        (
            '[[constraints.areas]]\npolygon = "area.csv"\nexclude = "inside"\n',
            "x,y\n1,2\n3,4\n",
            "has three corners or more",
        ),
        ('[[constraints.areas]]\npolygon = "area.csv"\nexclude = "both"\n', "", "exclude"),
        ('[[constraints.areas]]\npolygon = "area.csv"\n', "", "exclude"),
        ('[constraints]\nforce = "must"\n', "", "force: unknown key"),
    ],
)
def test_what_is_refused(plan_folder, tmp_path, text, file, said):
    (tmp_path / "area.csv").write_text(file)
    path = plan_folder(rows(2, 1, 1, must=lambda i, j, k: 1), with_section(text))
    with pytest.raises(PlanError, match=said):
        Plan.from_project(load(path))


def test_the_needs_of_forced_blocks_are_kept(plan_folder):
    """No block pays, so that all needs but those of the forced block at the floor are left out."""
    table = rows(3, 1, 3, must=lambda i, j, k: int((i, k) == (1, 0)))
    assert not Plan.from_project(load(plan_folder(table))).used.any()
    plan = Plan.from_project(load(plan_folder(table, with_section('[constraints]\nmust_mine = "must"\n'))))
    assert np.flatnonzero(plan.used).tolist() == [0, 1, 2, 3, 4, 5, 7]


def ore_below_waste():
    """Ore at the floor of the third of five columns, which pays for the pit above it."""
    return rows(
        5,
        1,
        2,
        cu=lambda i, j, k: 6 if (i, k) == (2, 0) else 0,
        never=lambda i, j, k: int((i, k) == (1, 1)),
        must=lambda i, j, k: int((i, k) == (4, 0)),
    )


def test_a_pit_that_keeps_to_fixed_blocks(plan_folder, capsys):
    path = plan_folder(ore_below_waste(), with_section('[constraints]\nexclude = "never"\n'))
    assert main(["pit", str(path), "--quiet"]) == 0
    folder = path.parent / "plan" / "pit"
    table = pd.read_csv(folder / "tables/pits.csv")
    assert table["fixed_blocks"].tolist() == ["kept", "free"]
    assert table["blocks"].tolist() == [0, 4]
    assert table["revenue_factor"].tolist() == [1.0, 1.0]
    assert "kept" in capsys.readouterr().out


def test_a_pit_with_forced_blocks(plan_folder):
    project = load(plan_folder(ore_below_waste(), with_section('[constraints]\nmust_mine = "must"\n')))
    table = pitplan.write_pit(project, 1.0, writing=PLAIN)
    assert table["blocks"].tolist() == [6, 4]
    assert read_record(project.folder / "pit")["constraints"] == {"must_mine": 1, "excluded": 0}
    # the block at the floor and the one above it, at 2 a tonne and 100 t a block
    assert table["undiscounted_cash_flow"][0] == table["undiscounted_cash_flow"][1] - 400


def test_fixed_blocks_that_clash(plan_folder, capsys):
    text = '[constraints]\nmust_mine = "must"\nexclude = "never"\n'
    table = ore_below_waste().assign(never=[0] * 9 + [1])
    assert main(["pit", str(plan_folder(table, with_section(text))), "--quiet"]) == 1
    said = "blocks.csv: block b4-0-0 (row 6) is must-mine and depends on block b4-0-1 (row 11), which is excluded\n"
    assert capsys.readouterr().err.endswith(said)


@SMALL
@given(
    grades,
    st.lists(st.sampled_from(["", "", "", "in", "out"]), min_size=9, max_size=9),
    st.sampled_from(["per_revenue_factor", "base_price"]),
)
def test_shells_with_fixed_blocks_are_the_best_of_all_closed_sets_that_keep_to_them(tmp_path, by_id, words, cutoff):
    """100 t a block: mining 200, processing 1000, and 40,000 for each per cent of copper."""
    must_mine, excluded = ({block for block in range(9) if words[block] == word} for word in ("in", "out"))
    allowed = [
        chosen for chosen in CLOSED if all(chosen[b] for b in must_mine) and not any(chosen[b] for b in excluded)
    ]
    at = {word: (lambda i, j, k, word=word: int(words[(2 - k) * 3 + i] == word)) for word in ("in", "out")}
    table = rows(*BOX, cu=lambda i, j, k: by_id[(2 - k) * 3 + i], must=at["in"], never=at["out"])
    project = replace(project_of(tmp_path, cutoff=cutoff), constraints=ConstraintRules("must", "never", None, ()))
    if not allowed:
        with pytest.raises(PlanError, match="is must-mine and depends on block .* which is excluded"):
            Plan.from_project(project, table=table)
        return
    solution = Plan.from_project(project, table=table).shells().solution
    for factor in project.shells.revenue_factors:
        yields = [Decimal(str(grade)) * 4000 for grade in by_id]
        if cutoff == "per_revenue_factor":
            values = [max(Decimal(str(factor)) * y - 1000, Decimal(0)) - 200 for y in yields]
        else:
            values = [Decimal(str(factor)) * y - 1200 if y > 1000 else Decimal(-200) for y in yields]
        worth, pit = best_by_trying(allowed, values)
        assert solution.worth[factor] == worth
        inside = (solution.entry > 0) & (solution.entry <= factor)
        assert set(np.flatnonzero(inside[:9])) == pit and solution.nodes[factor] == inside.sum()


def test_shells_keep_to_fixed_blocks_and_are_compared_with_the_pit_of_the_program(plan_folder, capsys):
    path = plan_folder(ores_and_fixed(), with_section(FIXED_SECTION))
    assert main(["shells", str(path), "--no-figures"]) == 0
    blocks = pd.read_csv(path.parent / "plan" / "tables/blocks.csv", dtype={"planner_id": str})
    assert (blocks.loc[blocks["must"] == 1, "revenue_factor"] == 0.5).all()
    assert (blocks.loc[blocks["never"] == 1, "revenue_factor"] == 0).all()
    # For their sake: the forced block at the floor needs the one beside its upper neighbour, and the floor's second needs the barred.
    assert "with their slope cones, 3 blocks are in every shell and 3 in none" in capsys.readouterr().err


def test_a_pit_of_the_least_factor_of_all_is_compared_too(plan_folder):
    """At a thousandth of eight millions the ore of 6 % yields 24,000, and that of 0.5 % 2000: both pay for processing and four blocks."""
    text = with_section(FIXED_SECTION).replace("price = 8000", "price = 8_000_000")
    project = load(plan_folder(ores_and_fixed(), text))
    table = pitplan.write_pit(project, 1, writing=PLAIN)
    # Four blocks each; and the one block more that must be dug, at the floor of the last column.
    assert table["blocks"].tolist() == [9, 8]


def test_a_shell_that_is_not_the_pit_of_the_solver_is_refused(plan_folder, monkeypatch):
    """What is joined to the rest is lost: the pit with the fixed blocks tells."""
    path = plan_folder(ores_and_fixed(), with_section(FIXED_SECTION))
    monkeypatch.setattr(problem, "joined", lambda rest, settled, values: rest)
    with pytest.raises(PlanError, match="is not the solver's pit with the fixed blocks: 3 nodes differ"):
        pitplan.write_shells(load(path), path.parent / "plan", writing=REPORTED)
    assert not (path.parent / "plan" / "report.html").exists()


def test_the_best_case_of_a_pit_digs_its_inner_shells_first(plan_folder):
    project = load(plan_folder(ores_and_fixed(), with_section(FIXED_SECTION)))
    pits = pitplan.write_pit(project, 1.5, writing=PLAIN)
    shells = pitplan.write_shells(project, project.folder, writing=PLAIN)
    kept, last = pits.iloc[0], shells.set_index("revenue_factor").loc[1.5]
    assert kept["npv_best"] == last["npv_best"] > kept["npv_worst"] == last["npv_worst"]


def test_an_audit_of_a_shell_with_fixed_blocks_is_confirmed_from_any_folder(plan_folder, tmp_path):
    project = load(plan_folder(ores_and_fixed(), with_section(FIXED_SECTION)))
    pitplan.write_shells(project, project.folder, writing=PLAIN)
    target = pitplan.audit(project.folder, 1.0, silent)
    (tmp_path / "bin").mkdir()
    (tmp_path / "bin" / "program").symlink_to(program.program().resolve())
    words = ["sh", str(target.relative_to(tmp_path) / "check.sh")]
    ran = subprocess.run(
        words, cwd=tmp_path, env={**os.environ, "PITSHELL": "bin/program"}, capture_output=True, text=True
    )
    assert (ran.returncode, ran.stdout) == (
        0,
        "hashes: yes\npitshell check: yes\ncheck_certificate.py: yes\n",
    ), ran.stderr


def test_scenarios_keep_to_fixed_blocks(plan_folder, tmp_path):
    """Two models: at the floor the ore of the third column, or that of the sixth; each by itself is the plan of its grades."""
    table = ores_and_fixed().assign(first=lambda it: it["cu"], second=lambda it: it["cu"][::-1].to_numpy())
    text = with_section(FIXED_SECTION + '[scenarios]\ncolumns = { copper = ["first", "second"] }\n')
    project = load(plan_folder(table, text))
    folder = project.folder / "scenarios"
    told = io.StringIO()
    pitplan.write_scenarios(project, folder, pitplan.Request(workers=0), pitplan.Writing(Progress(told), figures=False))
    assert "solving 2 scenarios .. 1 2 " in told.getvalue()
    likely = pd.read_csv(folder / "tables/probability.csv")
    assert (likely.loc[likely["must"] == 1, "probability_0.50"] == 1).all()
    assert (likely.loc[likely["never"] == 1, "probability_1.50"] == 0).all()
    inside = np.zeros(len(likely))
    for model in ("first", "second"):
        alone = replace(project, metals=(replace(project.metals[0], column=model),))
        blocks = pitplan.Shells(plan := Plan.from_project(alone, table=table), plan.shells().solution).blocks
        inside += ((blocks["revenue_factor"] > 0.0) & (blocks["revenue_factor"] <= 1.0)).to_numpy() / 2
    assert likely["probability_1.00"].tolist() == inside.tolist()


def test_a_project_without_fixed_blocks_has_no_pit(plan_folder, capsys):
    assert main(["pit", str(plan_folder(rows(1, 1, 1)))]) == 1
    assert "[constraints] is missing" in capsys.readouterr().err


def solution_of(entry, worth):
    nodes = pd.Series([sum(at > 0 for at in entry)], index=[1])
    return program.Solution(pd.Series([Decimal(worth)], index=[1], dtype=object), nodes, np.array(entry), b"")


@pytest.mark.parametrize(
    ("entry", "worth", "count"),
    [([1, 1, 0], 5, None), ([1, 0, 0], 5, 1), ([0, 1, 1], 5, 2), ([1, 1, 0], 6, 0)],
)
def test_a_shell_is_compared_with_its_pit_by_blocks_and_worth(entry, worth, count):
    """The shells of revenue factors 1 and 2 against the pit of revenue factor 1, which is the first two nodes, worth 5."""
    shells = solution_of([1, 1, 2], 5)
    if count is None:
        assert problem.demand_same(shells, solution_of(entry, worth), 1.0) is None
        return
    with pytest.raises(
        PlanError, match=f"the shell of revenue factor 1.00 .*: {count} nodes differ, worth 5 for {worth}; please"
    ):
        problem.demand_same(shells, solution_of(entry, worth), 1.0)
