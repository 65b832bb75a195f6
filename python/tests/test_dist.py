"""What others install: from a folder outside of the repository each package plans the example, and its audit is checked."""

import compileall
import os
import re
import shutil
import subprocess
import sys
from pathlib import Path
from typing import Optional

import pandas as pd
import pytest
from conftest import ROOT

import pitplan

BUILD, EXAMPLE = ROOT / "build", ROOT / "examples" / "plan"
VERSION = pitplan.__version__
SOLVE = "import pitshell; print(pitshell.solve([-3.0, 5.0], [[1, 0]]).worth)"


@pytest.fixture(scope="module")
def dist() -> Path:
    if not (BUILD / "pitshell").is_file() or not (BUILD / "libpitshell.so").is_file():
        pytest.skip("make and make library build what is packed")
    subprocess.run(["make", "-C", ROOT, "site"], check=True, capture_output=True)
    subprocess.run([ROOT / "tools" / "dist.py"], check=True, capture_output=True)
    return BUILD / "dist"


@pytest.mark.slow
def test_another_build_has_the_same_bytes(dist, tmp_path):
    """In another folder, with other rights for new files and another time zone."""
    said = subprocess.run(["git", "status", "--porcelain"], cwd=ROOT, capture_output=True, text=True)
    if said.returncode or said.stdout:
        pytest.skip("compares with a clone of the last commit")
    first = (dist / "SHA256SUMS").read_text()
    assert [line.split()[1] for line in first.splitlines()] == sorted(
        (it.name for it in dist.iterdir() if it.name != "SHA256SUMS"), key=lambda name: first.index(name)
    )
    clone = tmp_path / "clone"
    subprocess.run(["git", "clone", "-q", "--shared", ROOT, clone], check=True)
    shutil.copytree(BUILD, clone / "build", ignore=shutil.ignore_patterns("dist", "stage"))
    command = ["sh", "-c", f"umask 077 && exec {clone}/tools/dist.py"]
    subprocess.run(command, check=True, capture_output=True, env={**os.environ, "TZ": "Asia/Tokyo"})
    assert (clone / "build" / "dist" / "SHA256SUMS").read_text() == first


def test_the_wheel_of_the_layer_asks_for_the_python_that_it_needs():
    # tomllib, which reads projects, came with Python 3.11.
    assert 'requires-python = ">=3.11"' in (ROOT / "python" / "packages" / "pitplan.toml").read_text()


def run(*words: object, commands: Path) -> str:
    """Standard output of a command that sees these commands and Debian's, and nothing of the repository."""
    there = {"PATH": f"{commands}:/usr/bin:/bin", "HOME": str(commands)}
    said = subprocess.run([str(word) for word in words], env=there, cwd="/", check=True, capture_output=True, text=True)
    return said.stdout


def plan_and_check(folder: Path, commands: Path, *options: str) -> None:
    project = folder / "plan" / "project.toml"
    shutil.copytree(EXAMPLE, project.parent)
    run(commands / "pitplan", "shells", project, "--out", folder / "out", *options, commands=commands)
    shells = pd.read_csv(folder / "out" / "tables/shells.csv", index_col="revenue_factor")
    # As documents have them, from a run of another day.
    assert shells["blocks"][[0.4, 0.7, 1.0, 1.2]].tolist() == [274, 623, 828, 901]
    run(commands / "pitplan", "audit", folder / "out", "--revenue-factor", "0.80", commands=commands)
    said = run("sh", folder / "out" / "audit-0.80" / "check.sh", commands=commands)
    assert said == "hashes: yes\npitshell check: yes\ncheck_certificate.py: yes\n"


@pytest.mark.slow
def test_wheels_serve_in_an_environment_of_their_own(dist, tmp_path):
    subprocess.run(["/usr/bin/python3", "-m", "venv", "--system-site-packages", tmp_path / "venv"], check=True)
    commands = tmp_path / "venv" / "bin"
    options = ("--quiet", "--no-index", "--no-deps", "--no-compile", "--disable-pip-version-check")
    run(commands / "pip", "install", *options, *dist.glob("*.whl"), commands=commands)
    assert run(commands / "python", "-c", SOLVE, commands=commands) == "2.000000\n"
    for name in ("pitshell", "pitschedule"):
        assert run(commands / name, "--version", commands=commands) == f"{name} {VERSION}\n"
    plan_and_check(tmp_path, commands)
    assert (tmp_path / "out" / "figures" / "plans.png").is_file()
    found = "from pitplan.core import paths; print(paths.schedule_program(), (paths.PACKAGE / 'templates/web/base.html').is_file())"
    program, has_pages = run(commands / "python", "-P", "-c", found, commands=commands).split()
    assert (
        "venv" in program
        and run(program, "--version", commands=commands).startswith("pitschedule ")
        and has_pages == "True"
    )


@pytest.mark.slow
def test_the_debian_package_serves_where_it_is_unpacked(dist, tmp_path):
    package = next(dist.glob("*.deb"))
    subprocess.run(["dpkg", "-x", package, tmp_path / "root"], check=True)
    plan_and_check(tmp_path, tmp_path / "root" / "usr" / "bin", "--no-figures")
    said = run("dpkg", "--field", package, "Version", "Depends", "Recommends", commands=tmp_path)
    assert f"Version: {VERSION}\n" in said and "python3-pandas" in said
    # bin/pitplan begins with #!/usr/bin/python3, and serves at least to say what is missing.
    assert "python3" in re.search("^Depends: (.*)$", said, re.MULTILINE)[1].split(", ")
    held = {line.split()[-1] for line in run("dpkg", "--contents", package, commands=tmp_path).splitlines()}
    wanted = {
        "bin/pitshell",
        "bin/pitschedule",
        "bin/pitplan",
        "lib/pitshell/python/pitplan/templates/web/base.html",
        "lib/libpitshell.so",
        "include/pitshell.h",
        "share/man/man1/pitshell.1.gz",
        "share/man/man1/pitschedule.1.gz",
        "share/man/man1/pitplan.1.gz",
    }
    wanted |= {
        "share/doc/pitshell/copyright",
        "share/doc/pitshell/pitshell.version",
        "share/doc/pitshell/libpitshell.so.version",
        "share/bash-completion/completions/pitshell",
        "share/bash-completion/completions/pitplan",
        "share/zsh/site-functions/_pitplan",
        "share/fish/vendor_completions.d/pitplan.fish",
    }
    documents = (
        "README.md",
        "docs/FORMATS.md",
        "docs/planning/getting-started.md",
        "docs/reference/project-keys.md",
        "docs/pictures/plans.png",
        "examples/plan/project.toml",
    )
    wanted |= {f"share/doc/pitshell/{name}" for name in (*documents, "examples/scenarios/realisations/model_001.csv")}
    site = BUILD / "site"
    wanted |= {f"share/doc/pitshell/site/{file.relative_to(site)}" for file in site.rglob("*") if file.is_file()}
    assert {f"./usr/{name}" for name in wanted} <= held


def test_places_that_pages_and_manuals_name_are_in_the_package(dist):
    """Those below /usr, as somebody who has the package alone types them."""
    package = next(dist.glob("*.deb"))
    said = subprocess.run(["dpkg", "--contents", package], check=True, capture_output=True, text=True).stdout
    held = {line.split()[-1].removeprefix(".").rstrip("/") for line in said.splitlines()}
    pages = [ROOT / "README.md", *ROOT.glob("docs/*.md"), *ROOT.glob("docs/*/*.md"), *ROOT.glob("man/*.1")]
    named = {it for page in pages for it in re.findall(r"/usr/(?:lib|share|include)/[\w./-]*\w", page.read_text())}
    assert len(named) > 2 and named <= held
    started = (ROOT / "docs" / "planning" / "getting-started.md").read_text()
    assert {"/usr/share/doc/pitshell/site/index.html", "/usr/share/doc/pitshell/examples"} <= named and all(
        place in started for place in ("/usr/share/doc/pitshell/site/index.html", "pip install pitshell-*.whl")
    )


class Root:
    """A folder in which dpkg installs, upgrades and removes, with a list of packages of its own. The machine is not changed."""

    def __init__(self, folder: Path) -> None:
        self.path = folder
        (folder / "var/lib/dpkg/updates").mkdir(parents=True)
        (folder / "var/lib/dpkg/status").touch()

    def dpkg(self, *words: object) -> str:
        options = [f"--root={self.path}", "--log=/dev/null", "--force-script-chrootless", "--force-depends"]
        said = subprocess.run(["dpkg", *options, *words], check=True, capture_output=True, text=True)
        return said.stdout

    def found(self) -> set[str]:
        """The files and folders in it, except those of dpkg itself."""
        found = {f"/{it.relative_to(self.path)}" for it in self.path.rglob("*")}
        return {it for it in found if not it.startswith("/var")}

    def owned(self) -> set[str]:
        return set(self.dpkg("--listfiles", "pitshell").splitlines()) - {"/."}


def package_of_another_release(folder: Path, script: Optional[str]) -> Path:
    """A Debian package 0.1.0 with modules and pages that later releases do not have, and with the script before removal, if any."""
    layer, pages = folder / "tree/usr/lib/pitshell/python/pitplan", folder / "tree/usr/share/doc/pitshell"
    for file in (layer / "__init__.py", layer / "money/__init__.py", layer / "money/costs.py", pages / "docs/MONEY.md"):
        file.parent.mkdir(parents=True, exist_ok=True)
        file.write_text("")
    (folder / "tree/DEBIAN").mkdir()
    fields = {"Package": "pitshell", "Version": "0.1.0", "Architecture": "all", "Maintainer": "a", "Description": "a"}
    (folder / "tree/DEBIAN/control").write_text("".join(f"{key}: {value}\n" for key, value in fields.items()))
    if script is not None:
        (folder / "tree/DEBIAN/prerm").write_text(script)
        (folder / "tree/DEBIAN/prerm").chmod(0o755)
    subprocess.run(["dpkg-deb", "--build", folder / "tree", folder / "old.deb"], check=True, capture_output=True)
    return folder / "old.deb"


@pytest.mark.skipif(os.geteuid() != 0, reason="dpkg installs as root")
@pytest.mark.parametrize("old_has_script", [True, False])
def test_an_upgrade_and_a_removal_leave_nothing_behind(dist, tmp_path, monkeypatch, old_has_script):
    """The byte code of modules that the later release lacks would keep their folders."""
    # Elsewhere the tests keep byte code in one folder; here it lies next to the modules, as on a user's machine.
    monkeypatch.setattr(sys, "pycache_prefix", None)
    monkeypatch.delenv("PYTHONPYCACHEPREFIX", raising=False)
    package, root = next(dist.glob("*.deb")), Root(tmp_path / "root")
    subprocess.run(["dpkg", "-e", package, tmp_path / "control"], check=True)
    script = (tmp_path / "control" / "prerm").read_text() if old_has_script else None
    (tmp_path / "old").mkdir()
    root.dpkg("--install", package_of_another_release(tmp_path / "old", script))
    compileall.compile_dir(root.path / "usr/lib/pitshell", quiet=1)
    assert list(root.path.rglob("money/__pycache__/costs.*.pyc")) and root.found() > root.owned()
    root.dpkg("--install", package)
    assert root.found() == root.owned() and not (root.path / "usr/lib/pitshell/python/pitplan/money").exists()
    run(root.path / "usr" / "bin" / "pitplan", "--version", commands=tmp_path)
    assert list(root.path.rglob("*.pyc"))
    root.dpkg("--purge", "pitshell")
    assert root.found() == set()


@pytest.mark.slow
def test_the_archive_serves_where_it_is_unpacked(dist, tmp_path):
    (archive,) = dist.glob("*-linux-*.tar.gz")
    subprocess.run(["tar", "xf", archive, "-C", tmp_path], check=True)
    plan_and_check(tmp_path, tmp_path / archive.name.removesuffix(".tar.gz") / "bin", "--no-figures")
