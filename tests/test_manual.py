"""The manual page, the completions and the table of options repeat the help; and `make install` puts them in place."""

import filecmp
import os
import pathlib
import re
import shutil
import subprocess

import pytest

from conftest import PROGRAM, TOP, Mine

MANUAL = TOP / "man" / "pitshell.1"
COMPLETIONS = TOP / "completions"


def commands_of(mine: Mine) -> list[str]:
    """The subcommands that the help lists, but for help itself."""
    found = re.findall(r"^  (\w+) +\S", mine.run("--help")[1].partition("Commands:")[2].partition("Options:")[0], re.MULTILINE)
    return [name for name in found if name != "help"]


def options_of(mine: Mine, command: str) -> dict[str, str]:
    """The options of a subcommand with their words in the help."""
    return dict(re.findall(r"^ +(?:-h, )?--(\w+)(?: <\w+>)? +(\S.*?)(?: \[default: \w+\])?$", mine.run(command, "--help")[1], re.MULTILINE))


def test_what_repeats_the_help_is_made_from_it() -> None:
    ran = subprocess.run([TOP / "tools" / "make_docs.py", "--check"], capture_output=True, text=True, timeout=120, env={**os.environ, "PITSHELL": str(PROGRAM)})
    assert (ran.returncode, ran.stdout, ran.stderr) == (0, "", "")


@pytest.mark.skipif(not shutil.which("man"), reason="this system has no man")
@pytest.mark.parametrize("name", ["pitshell", "pitschedule"])
def test_the_manual_is_shown_without_a_warning(name: str) -> None:
    ran = subprocess.run(["man", "--warnings", "-l", MANUAL.with_name(f"{name}.1")], capture_output=True, text=True, timeout=60)
    if "has been minimized" in ran.stdout:
        pytest.skip("this system's man shows nothing")
    assert (ran.returncode, ran.stderr) == (0, "")
    assert f"{name.upper()}(1)" in ran.stdout


def completed(*words: str) -> set[str]:
    """What bash offers for the last of these words."""
    script = f'source "$0"; COMP_WORDS=("$@"); COMP_CWORD=$(($# - 1)); _pitshell; printf "%s\\n" "${{COMPREPLY[@]}}"'
    ran = subprocess.run(["bash", "-c", script, COMPLETIONS / "pitshell.bash", "pitshell", *words], capture_output=True, text=True, check=True)
    return set(ran.stdout.split())


def test_bash_completes_each_subcommand(mine: Mine) -> None:
    commands = commands_of(mine)
    assert completed("") >= set(commands)
    for command in commands:
        assert completed(command, "--") == {f"--{option}" for option in options_of(mine, command)}
    assert completed("solve", "--mode", "s") == {"single", "shared"}
    assert completed("solve", "--workers", "") == set()


@pytest.mark.skipif(not shutil.which("fish"), reason="fish is not installed")
def test_fish_completes_each_subcommand(mine: Mine) -> None:
    for command in commands_of(mine):
        line = f"source {COMPLETIONS / 'pitshell.fish'}; complete -C 'pitshell {command} --'"
        ran = subprocess.run(["fish", "--no-config", "-c", line], capture_output=True, text=True, check=True)
        assert {word for word in ran.stdout.split() if word.startswith("--")} == {f"--{option}" for option in options_of(mine, command)}


@pytest.mark.skipif(not shutil.which("zsh"), reason="zsh is not installed")
@pytest.mark.parametrize("name", ["pitshell", "pitschedule"])
def test_zsh_reads_its_completion(name: str) -> None:
    subprocess.run(["zsh", "-n", COMPLETIONS / f"_{name}"], check=True, timeout=60)


def test_install_puts_all_in_place(tmp_path: pathlib.Path) -> None:
    subprocess.run(["make", "-s", "install", f"PROGRAM={PROGRAM}", f"DESTDIR={tmp_path}", "PREFIX=/usr"], cwd=TOP, check=True, timeout=60)
    below = tmp_path / "usr"
    places = {
        "bin/pitshell": PROGRAM,
        "bin/pitplan": TOP / "tools" / "pitplan",
        "share/doc/pitshell/LICENSE": TOP / "LICENSE",
        "share/man/man1/pitshell.1": MANUAL,
        "share/man/man1/pitschedule.1": TOP / "man" / "pitschedule.1",
        "share/man/man1/pitplan.1": TOP / "man" / "pitplan.1",
    }
    for name in ("pitshell", "pitschedule", "pitplan"):
        places[f"share/bash-completion/completions/{name}"] = COMPLETIONS / f"{name}.bash"
        places[f"share/zsh/site-functions/_{name}"] = COMPLETIONS / f"_{name}"
        places[f"share/fish/vendor_completions.d/{name}.fish"] = COMPLETIONS / f"{name}.fish"
    if (TOP / "build" / "pitschedule").exists():
        places["bin/pitschedule"] = TOP / "build" / "pitschedule"
    records = [PROGRAM.with_suffix(".version"), *(TOP / "build" / f"{name}.version" for name in ("pitschedule", "libpitshell.so"))]
    places |= {f"share/doc/pitshell/{file.name}": file for file in records if file.exists()}
    if (TOP / "build" / "libpitshell.so").exists():
        places |= {f"lib/{name}": TOP / "build" / name for name in ("libpitshell.so", "libpitshell.a")}
        places |= {"include/pitshell.h": TOP / "include" / "pitshell.h"}
    named = ["git", "ls-files", "README.md", "CHANGELOG.md", "docs", "examples"]
    documents = subprocess.run(named, cwd=TOP, capture_output=True, text=True, check=True).stdout.split()
    assert {"docs/planning/shells.md", "docs/reference/project-keys.md", "examples/plan/project.toml"} <= set(documents)
    places |= {f"share/doc/pitshell/{name}": TOP / name for name in documents}
    site = TOP / "build" / "site"
    places |= {f"share/doc/pitshell/site/{file.relative_to(site)}": file for file in site.rglob("*") if file.is_file()}
    layer = "lib/pitshell/python"
    packages = [TOP / "python" / name for name in ("pitplan", "planaudit", "minelib", "pitshell")]
    sources = [file for package in packages for file in package.rglob("*") if file.is_file() and file.suffix != ".pyc"]
    places |= {f"{layer}/{file.relative_to(TOP / 'python')}": file for file in sources}
    places |= {f"{layer}/pitplan/checkers/{name}": TOP / "tools" / name for name in ("check_certificate.py", "replay_journal.py")}
    assert {str(file.relative_to(below)) for file in below.rglob("*") if file.is_file()} == set(places)
    assert all(filecmp.cmp(below / place, file, shallow=False) for place, file in places.items())
    assert all((below / "bin" / name).stat().st_mode & 0o111 == 0o111 for name in ("pitshell", "pitplan"))
