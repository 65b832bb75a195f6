"""An output takes its name only when it is whole and on disk, and never that of an input."""

import os
import pathlib
import subprocess

import pytest

from conftest import CERTIFICATE, PROGRAM, TWO_BLOCKS, Mine, wait_for

PIT = "PIT\nBLOCKS: 2\nIN: 2\nWORTH: 2.000000\n0\n1\n"
SOLVE = ["solve", "--model", "mine.upit", "--prec", "mine.prec", "--certificate"]
REFUSED = (1, "", "error 18: write failed\n")
OLD = "what stood there\n"


def names(mine: Mine) -> set[str]:
    return {file.name for file in mine.folder.iterdir()}


def test_a_certificate_takes_the_place_of_what_stood_there(mine: Mine) -> None:
    mine.write("made.cert", OLD)
    before = names(mine)
    assert mine.run(*SOLVE, "made.cert") == (0, PIT, "")
    assert mine.read("made.cert").startswith("PITCERT 1\nBLOCKS: 2\n")
    assert names(mine) == before


@pytest.mark.parametrize("name", ["mine.upit", "./mine.upit", "mine.prec", "link.upit", "hard.upit"])
def test_an_output_may_be_none_of_the_inputs(mine: Mine, name: str) -> None:
    (mine.folder / "link.upit").symlink_to("mine.upit")
    os.link(mine.folder / "mine.upit", mine.folder / "hard.upit")
    before = names(mine)
    assert mine.run(*SOLVE, name) == REFUSED
    assert mine.read("mine.upit") == TWO_BLOCKS
    assert mine.read("mine.prec") == "1 1 0\n"
    assert names(mine) == before


def test_a_refused_run_leaves_what_stood_there(mine: Mine) -> None:
    mine.write("made.cert", OLD)
    mine.write("mine.prec", "1 1 1\n")
    before = names(mine)
    assert mine.run(*SOLVE, "made.cert") == (1, "", "error 9: block needs itself in precedence line 1\n")
    assert mine.read("made.cert") == OLD
    assert names(mine) == before


def test_a_used_up_budget_leaves_no_file(mine: Mine) -> None:
    before = names(mine)
    assert mine.run(*SOLVE, "made.cert", "--budget", "0") == (3, "", "error 20: exhausted after 0 mergers\n")
    assert names(mine) == before


def test_a_full_standard_output_leaves_what_stood_there(mine: Mine) -> None:
    if not pathlib.Path("/dev/full").exists():
        pytest.skip("this system has no /dev/full")
    mine.write("made.cert", OLD)
    before = names(mine)
    with open("/dev/full", "w") as full:
        ran = subprocess.run([PROGRAM, *SOLVE, "made.cert"], cwd=mine.folder, stdout=full, stderr=subprocess.PIPE, timeout=60)
    assert (ran.returncode, ran.stderr) == (1, b"error 18: write failed\n")
    assert mine.read("made.cert") == OLD
    assert names(mine) == before


def test_a_link_goes_on_leading_to_its_file(mine: Mine) -> None:
    mine.write("far.cert", OLD)
    (mine.folder / "made.cert").symlink_to("far.cert")
    assert mine.run(*SOLVE, "made.cert") == (0, PIT, "")
    assert (mine.folder / "made.cert").is_symlink()
    assert mine.read("far.cert").startswith("PITCERT 1\n")


def test_a_device_is_written_as_it_is(mine: Mine) -> None:
    status, out, err = mine.run(*SOLVE, "/dev/stdout")
    assert (status, err) == (0, "")
    assert out.startswith("PITCERT 1\nBLOCKS: 2\n")
    assert out.endswith(PIT)


def test_a_pipe_is_written_as_it_is(mine: Mine) -> None:
    os.mkfifo(mine.folder / "pipe")
    with subprocess.Popen([PROGRAM, *SOLVE, "pipe"], cwd=mine.folder, stdout=subprocess.PIPE) as ran:
        text = mine.read("pipe")
        out, _ = ran.communicate(timeout=60)
    assert text.startswith("PITCERT 1\nBLOCKS: 2\n")
    assert out.decode() == PIT


def test_a_folder_is_no_output(mine: Mine) -> None:
    (mine.folder / "folder").mkdir()
    assert mine.run(*SOLVE, "folder") == REFUSED


@pytest.mark.parametrize("option", ["--certificate", "--journal", "--stats"])
def test_a_file_that_may_not_be_written_is_no_output(mine: Mine, option: str) -> None:
    mine.write("made", OLD)
    (mine.folder / "made").chmod(0o444)
    before = names(mine)
    assert mine.run(*SOLVE[:-1], "--mode", "shared", option, "made") == REFUSED
    assert mine.read("made") == OLD
    assert names(mine) == before


@pytest.mark.parametrize("option", ["--certificate", "--journal"])
def test_an_empty_name_is_no_output(mine: Mine, option: str) -> None:
    before = names(mine)
    assert mine.run(*SOLVE[:-1], "--mode", "shared", option, "") == REFUSED
    assert names(mine) == before


def test_names_that_are_taken_are_passed_over(mine: Mine) -> None:
    """A run that was killed leaves its file under the first of these names."""
    mine.write("made.cert.0.part", OLD)
    assert mine.run(*SOLVE, "made.cert") == (0, PIT, "")
    assert mine.read("made.cert.0.part") == OLD
    assert mine.read("made.cert").startswith("PITCERT 1\n")
    assert "made.cert.1.part" not in names(mine)


def test_an_input_may_be_the_certificate_that_is_checked(mine: Mine) -> None:
    assert mine.read("good.cert") == CERTIFICATE
    assert mine.run("check", *SOLVE[1:5], "--certificate", "good.cert") == (0, "yes\n", "")


@pytest.mark.parametrize("name", ["both.txt", "/dev/stdout"])
def test_a_certificate_takes_nothing_from_standard_output(mine: Mine, name: str) -> None:
    """Standard output is a file, and the certificate's name leads there: refused, or both texts stand in it, one after the other."""
    with open(mine.folder / "both.txt", "w") as out:
        ran = subprocess.run([PROGRAM, *SOLVE, name], cwd=mine.folder, stdout=out, stderr=subprocess.PIPE, timeout=60)
    text = mine.read("both.txt")
    refused = (ran.returncode, text, ran.stderr) == (1, "", b"error 18: write failed\n")
    assert refused or (ran.returncode == 0 and text.startswith("PITCERT 1\n") and text.endswith(PIT))


JOURNALED = [*SOLVE[:-1], "--mode", "shared", "--certificate", "made.cert", "--journal", "made.journal", "--stats"]


def test_a_stats_file_that_cannot_be_written_leaves_the_other_outputs(mine: Mine) -> None:
    if not pathlib.Path("/dev/full").exists():
        pytest.skip("this system has no /dev/full")
    mine.write("made.cert", OLD)
    mine.write("made.journal", OLD)
    before = names(mine)
    assert mine.run(*JOURNALED, "/dev/full") == (1, PIT, "error 18: write failed\n")
    assert (mine.read("made.cert"), mine.read("made.journal")) == (OLD, OLD)
    assert names(mine) == before


@pytest.mark.parametrize("number", [1, 2, 3])
def test_an_output_that_is_not_on_disk_leaves_the_other_outputs(mine: Mine, shim: pathlib.Path, number: int) -> None:
    """The journal, the certificate and the stats file are put on disk in this order, before any of them takes its name."""
    for name in ("made.cert", "made.journal", "made.stats"):
        mine.write(name, OLD)
    before = names(mine)
    env = {"LD_PRELOAD": str(shim), "FAIL_SYNC": str(number)}
    ran = subprocess.run([PROGRAM, *JOURNALED, "made.stats"], cwd=mine.folder, env=env, capture_output=True, text=True, timeout=60)
    assert (ran.returncode, ran.stdout, ran.stderr) == (1, PIT, "error 18: write failed\n")
    assert {mine.read(name) for name in ("made.cert", "made.journal", "made.stats")} == {OLD}
    assert names(mine) == before


def test_each_output_is_on_disk_before_one_takes_its_name(mine: Mine, shim: pathlib.Path) -> None:
    told = mine.folder / "told"
    env = {"LD_PRELOAD": str(shim), "TELL_NAMES": str(told)}
    subprocess.run([PROGRAM, *JOURNALED, "made.stats"], cwd=mine.folder, env=env, check=True, capture_output=True, timeout=60)
    assert told.read_text().split() == ["fsync"] * 3 + ["rename"] * 3


@pytest.mark.parametrize("mode", [0o600, 0o640, 0o664, 0o755])
def test_an_output_keeps_the_permissions_of_what_it_replaces(mine: Mine, mode: int) -> None:
    made = [mine.folder / name for name in ("made.cert", "made.journal", "made.stats")]
    for file in made:
        file.write_text(OLD)
        file.chmod(mode)
    assert mine.run(*JOURNALED, "made.stats") == (0, PIT, "")
    assert {file.stat().st_mode & 0o7777 for file in made} == {mode}
    assert OLD not in {file.read_text() for file in made}


@pytest.mark.parametrize(("mask", "mode"), [(0o022, 0o644), (0o077, 0o600)])
def test_a_new_output_has_the_permissions_that_the_system_gives(mine: Mine, mask: int, mode: int) -> None:
    ran = subprocess.run([PROGRAM, *JOURNALED, "made.stats"], cwd=mine.folder, umask=mask, capture_output=True, timeout=60)
    assert ran.returncode == 0
    assert {(mine.folder / name).stat().st_mode & 0o7777 for name in ("made.cert", "made.journal", "made.stats")} == {mode}


def test_an_output_is_private_from_its_start_where_it_replaces_a_private_file(mine: Mine) -> None:
    mine.write("made.cert", OLD)
    (mine.folder / "made.cert").chmod(0o600)
    words = [PROGRAM, "solve", "--model", "/dev/stdin", *SOLVE[3:], "made.cert"]
    with subprocess.Popen(words, cwd=mine.folder, stdin=subprocess.PIPE, stdout=subprocess.PIPE) as ran:
        assert wait_for(mine.folder / "made.cert.0.part")
        mode = (mine.folder / "made.cert.0.part").stat().st_mode & 0o7777
        out, _ = ran.communicate(TWO_BLOCKS.encode(), timeout=60)
    assert (mode, out.decode()) == (0o600, PIT)
    assert (mine.folder / "made.cert").stat().st_mode & 0o7777 == 0o600


@pytest.mark.skipif(os.getuid() != 0, reason="root alone can give a file to another group")
def test_an_output_keeps_the_owner_and_the_group_of_what_it_replaces(mine: Mine) -> None:
    mine.write("made.cert", OLD)
    (mine.folder / "made.cert").chmod(0o640)
    os.chown(mine.folder / "made.cert", 1234, 4321)
    assert mine.run(*SOLVE, "made.cert") == (0, PIT, "")
    found = (mine.folder / "made.cert").stat()
    assert (found.st_mode & 0o7777, found.st_uid, found.st_gid) == (0o640, 1234, 4321)


@pytest.mark.skipif(os.getuid() != 0, reason="root alone can give a file to another group")
@pytest.mark.parametrize(("mode", "kept"), [(0o660, 0o600), (0o664, 0o644), (0o646, 0o646)])
def test_another_group_gets_no_more_than_others_had(mine: Mine, shim: pathlib.Path, mode: int, kept: int) -> None:
    """Neither owner nor group can be kept, as by a user who may write the file and is not of its group."""
    mine.write("made.cert", OLD)
    (mine.folder / "made.cert").chmod(mode)
    os.chown(mine.folder / "made.cert", 1234, 4321)
    env = {"LD_PRELOAD": str(shim), "FAIL_OWNER": "1"}
    subprocess.run([PROGRAM, *SOLVE, "made.cert"], cwd=mine.folder, env=env, check=True, capture_output=True, timeout=60)
    found = (mine.folder / "made.cert").stat()
    assert (found.st_mode & 0o7777, found.st_uid, found.st_gid) == (kept, os.getuid(), os.getgid())
