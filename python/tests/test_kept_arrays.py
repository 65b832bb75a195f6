"""Answers that are kept in files: read whole, or refused by one line, also where a file stands for another."""

import os
import random

import numpy as np
import pytest
from conftest import PROJECT
from helpers.scenarios import COLUMNS, UPRIGHT, pillar, prepared, solved_in_turn

from pitplan import PlanError, load
from pitplan.core import keyed_arrays
from pitplan.studies import sensitivity
from pitplan.studies.scenarios import pit_probability, worker


def test_arrays_that_are_kept_are_read_whole_or_refused(tmp_path):
    file = tmp_path / "answer.npz"
    arrays = {"entry": np.arange(300, dtype=np.int32), "names": ["a", "b"]}
    keyed_arrays.write(file, "key", **arrays)
    whole = file.read_bytes()
    assert {name: array.tolist() for name, array in keyed_arrays.read(file, "key").items()} == {
        "entry": list(range(300)),
        "names": ["a", "b"],
    }
    for length in range(0, len(whole), 7):
        file.write_bytes(whole[:length])
        with pytest.raises(keyed_arrays.NoAnswer):
            keyed_arrays.read(file, "key")
    rng = random.Random(3)
    for place in range(0, len(whole), 3):
        file.write_bytes(whole[:place] + bytes([whole[place] ^ rng.randrange(1, 256)]) + whole[place + 1 :])
        try:
            found = keyed_arrays.read(file, "key")
        except keyed_arrays.NoAnswer:
            continue
        # What a change of no byte of the arrays leaves, such as a date.
        assert all(np.array_equal(found[name], array) for name, array in arrays.items() if name in found)


def test_an_answer_of_something_else_is_refused(tmp_path):
    file = tmp_path / "answer.npz"
    keyed_arrays.write(file, "one", entry=[1])
    with pytest.raises(
        keyed_arrays.NoAnswer, match="it is the result of another input: check whether a file was copied here"
    ):
        keyed_arrays.read(file, "other")
    np.savez_compressed(file, entry=[1])
    with pytest.raises(keyed_arrays.NoAnswer, match="it is the result of another input"):
        keyed_arrays.read(file, "one")
    with pytest.raises(FileNotFoundError):
        keyed_arrays.read(tmp_path / "nowhere.npz", "one")


def test_an_answer_of_another_scenario_is_refused(plan_folder):
    shared = prepared(plan_folder(pillar(), COLUMNS, UPRIGHT))
    solved_in_turn(shared)
    first, second, third = map(shared.answer, shared.scenarios)
    whole = second.read_bytes()
    second.write_bytes(first.read_bytes())
    again = "remove it, and run pitplan scenarios again"
    sentence = rf"{second.name}: is not a result of sim_2: it is the result of another input: .*: {again}"
    with pytest.raises(PlanError, match=sentence):
        pit_probability.gather(shared)
    second.write_bytes(whole[: len(whole) // 2])
    with pytest.raises(PlanError, match=rf"{second.name}: is not a result of sim_2: .*: {again}"):
        pit_probability.gather(shared)
    second.unlink()
    assert (
        worker.solve(str(shared.folder), 2).status == 0
        and second.is_file()
        and pit_probability.gather(shared).missing == {}
    )


def test_grades_that_have_changed_are_refused(plan_folder):
    shared = prepared(plan_folder(pillar(), COLUMNS, UPRIGHT))
    (grades,) = shared.folder.glob(f"realisations/{shared.scenarios[1].grades}.npy")
    for bent in (b"", grades.read_bytes()[:-1], grades.read_bytes()[:-1] + b"1"):
        grades.write_bytes(bent)
        outcome = worker.solve(str(shared.folder), 2)
        assert (
            outcome.status == 5
            and f"{grades}: " in outcome.why
            and ": remove it, and run pitplan scenarios again" in outcome.why
        )


def test_a_case_of_another_change_is_refused(plan_folder):
    text = PROJECT + '[sensitivity]\nparameters = ["price"]\nchanges = [0.1]\n'
    table = pillar().drop(columns=["sim_1", "sim_2", "sim_3"]).assign(cu=[1.5, 0, 0])
    path = plan_folder(table, text, UPRIGHT)
    sensitivity.solve(load(path), path.parent, None)
    one, other = (path.parent / "cases").iterdir()
    os.replace(one, other)
    with pytest.raises(
        PlanError,
        match="npz: is not a result of this case: it is the result of another input: .*: remove it, and run pitplan sens",
    ):
        sensitivity.solve(load(path), path.parent, None)
