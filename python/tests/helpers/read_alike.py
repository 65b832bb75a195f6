"""Compares what the planner and the audit read: projects, tables and surveys."""

from collections.abc import Mapping
from dataclasses import fields
from decimal import Decimal
from pathlib import Path

import numpy as np
import tomllib

from pitplan.blockmodel import reader
from pitplan.survey import readers
from planaudit.inputs import block_table, drawings, project_file, surveys
from planaudit.inputs.project import Project
from planaudit.inputs.row_rules import RowRules

# Attributes of the planner's records whose names are not those of the keys.
OTHER_NAMES = {
    "class": "resource_class",
    "column": "name",
    "depreciation": "depreciation_years",
    "domain": "domains",
    "file": "path",
    "layer": "layers",
    "realisations": "folder",
}
# The planner's records in the audit's form, by the names of their types.
PLAIN = {
    "ByDomain": lambda it: {"domain": it.values},
    "ClassRules": lambda it: it.given,
    "Curve": lambda it: it.points,
    "Reblock": lambda it: {"counts": it.counts}
    | {key: getattr(it, key) if any(it.size) else None for key in ("size", "corner")},
    "RowRules": lambda it: as_audited(it),
}


def differences(audit, planner, where="project"):
    """Yields where the audit's reading of a project differs from the planner's."""
    planner = PLAIN.get(type(planner).__name__, lambda it: it)(planner)
    if isinstance(audit, Mapping) and isinstance(planner, tuple):
        planner = {it.name: it for it in planner}
    if isinstance(audit, Project):
        yield from of_project(audit, planner)
    elif isinstance(audit, Mapping) and planner is not None and not isinstance(planner, Mapping):
        # The planner adds the angle of benches; the audit computes with the benches themselves.
        for key in [it for it in audit if it != "angles" or not audit["bench"]]:
            yield from differences(audit[key], attribute(planner, key), f"{where}.{key}")
    elif isinstance(audit, (tuple, list)) and isinstance(planner, (tuple, list)) and len(audit) == len(planner):
        for number, (one, other) in enumerate(zip(audit, planner)):
            yield from differences(one, other, f"{where}[{number}]")
    elif isinstance(audit, Mapping) and isinstance(planner, Mapping) and audit.keys() == planner.keys():
        for name in audit:
            yield from differences(audit[name], planner[name], f"{where}.{name}")
    elif audit != planner or isinstance(audit, Path) != isinstance(planner, Path):
        yield f"{where}: {audit!r} for {planner!r}"


def of_project(audit, planner):
    """Yields the differences of each section. What the only process accepts is read with the process, and columns are kept for scenarios."""
    yield from differences(audit.calendar.periods, planner.shells.calendar.periods, "project.periods")
    for name in [it.name for it in fields(audit) if it.name not in ("accepts", "calendar", "kept", "elsewhere")]:
        yield from differences(getattr(audit, name), getattr(planner, name), f"project.{name}")


def attribute(record, key):
    """The value of a key in a record of the planner."""
    return getattr(record, key if hasattr(record, key) else OTHER_NAMES[key])


def as_audited(rules):
    """The planner's rules of rows in the fields of the audit's."""
    shares = {key: (it := getattr(rules, key)) and (it.column, it.whole) for key in ("rock_percent", "ore_percent")}
    return RowRules(
        null_values=rules.nulls.values,
        nulls={name: (rule.values, rule.meaning) for name, rule in rules.nulls.by_column.items()},
        mapped=rules.mapped,
        calculated={name: it.text for name, it in rules.calculated.items()},
        filter=rules.filter and rules.filter.text,
        clip=rules.clip,
        cell_size=rules.cell_size,
        **shares,
    )


def demand_read_alike(path, planner):
    """Fails if the audit reads another project from a file than the planner."""
    found = list(differences(project_file.load(path), planner))
    assert not found, found


def compare_tables(monkeypatch):
    """Lets the audit read each table that the planner reads from a file, and fails if a field differs."""
    read = reader.read

    def read_twice(project):
        table, sections = read(project), tomllib.loads(project.to_toml(project.path.parent), parse_float=Decimal)
        again = block_table.read(project_file.of_data(sections, project.path.parent.joinpath))
        for name in table.frame:
            assert np.array_equal(again[name].to_numpy(), table.frame[name].to_numpy()), name
        return table

    monkeypatch.setattr(reader, "read", read_twice)


def as_survey(file):
    """The planner's survey file in the audit's form."""
    return {"file": file.path, "layer": file.layers, "height": file.height}


def compare_surveys(monkeypatch):
    """Lets the audit read each survey file that the planner reads, and fails if points, triangles or polygons differ."""
    topography, areas = readers.topography, readers.areas

    def heights_twice(file, around):
        found, again = topography(file, around), as_survey(file)
        if file.path.suffix.lower() in drawings.RASTERS:
            (west, east, south, north), ending = around, again["file"]
            points, faces = drawings.of_raster(ending, np.array([west, south]), np.array([east, north]))
        else:
            points, faces = surveys.heights(again, {})
        if len(found.faces):
            assert triangles(found.points, found.faces) <= triangles(points, faces)
        else:
            assert set(map(tuple, found.points.tolist())) == set(map(tuple, points.tolist()))
        return found

    def areas_twice(file):
        found, again = areas(file), surveys.polygons(as_survey(file))
        assert [[ring.tolist() for ring in it] for it in found.polygons] == [
            [ring.tolist() for ring in it] for it in again
        ]
        return found

    monkeypatch.setattr(readers, "topography", heights_twice)
    monkeypatch.setattr(readers, "areas", areas_twice)


def triangles(points, faces):
    """Triangles as sets of corners."""
    return {frozenset(map(tuple, points[face].tolist())) for face in faces}
