#!/usr/bin/python3
"""Makes what others install, in build/dist, of what was proved and built in build/.

    tools/dist.py

    pitshell_VERSION_ARCHITECTURE.deb       program, library, header, manual pages, completions, documents, examples, licence, what was
                                            built, and the planner's layer
    pitshell-VERSION-linux-MACHINE.tar.gz   the same, to unpack anywhere
    pitshell-VERSION-py3-none-*.whl         the solver on numpy arrays, with the program
    pitplan-VERSION-py3-none-any.whl        the planner's layer, on that
    pitshell-VERSION-source.tar.gz          the sources of the last commit, in a clone with git
    SHA256SUMS                              the hashes of these files

The files depend on the sources and on build/ alone: all times in them are that of the last commit. It needs dpkg-dev, python3-setuptools
and python3-wheel of Debian.
"""
import contextlib
import functools
import gzip
import hashlib
import os
import pathlib
import platform
import re
import shutil
import subprocess
import sys
import tarfile
import time
from collections.abc import Iterator

from crates import TOP

BUILD = TOP / "build"
DIST = BUILD / "dist"
RECORDS = ("pitshell.version", "pitschedule.version", "libpitshell.so.version")
MADE = ("pitshell", "pitschedule", "libpitshell.so", "libpitshell.a", *RECORDS)
LEAST_C_LIBRARY = 17
CONTROL = """Package: pitshell
Version: {version}
Architecture: {architecture}
Maintainer: pitshell maintainers
Section: science
Priority: optional
Installed-Size: {kilobytes}
Depends: libc6 (>= {c_library}), python3
Recommends: {layer}
Suggests: python3-vtk9, python3-ezdxf, python3-gdal, libjs-three, python3-dask, python3-distributed, python3-starlette, python3-uvicorn, python3-tomlkit
Description: open-pit mine planning, with a proved solver for ultimate pits
 pitplan goes from a block model, prices, costs and slope angles to pit
 shells, pushbacks, schedules and reports. It needs the recommended packages.
 Its solver, pitshell, finds the ultimate pit, and a machine-checked proof
 covers it. A library serves Python and C.
 .
 Documentation: /usr/share/doc/pitshell/site/index.html.
"""

# Python writes byte code there when root runs pitplan. It is in no list of the package's files, and would keep it and the folders of
# removed modules: of this package when it goes or is upgraded (prerm), and of one without that script before it is upgraded (preinst).
WITHOUT_BYTE_CODE = """#!/bin/sh
set -e
layer="${DPKG_ROOT:-}/usr/lib/pitshell"
test ! -d "$layer" || find "$layer" -name __pycache__ -type d -prune -exec rm -rf {} +
"""


def version() -> str:
    return re.search(r'^__version__ = "(.+)"$', (TOP / "python" / "pitplan" / "__init__.py").read_text(), re.MULTILINE)[1]


def is_clone() -> bool:
    """Whether this is a clone of the repository."""
    return (TOP / ".git").exists()


@functools.cache
def time_of_files() -> int:
    """The time that all files in the packages have, in seconds: that of the last commit, or SOURCE_DATE_EPOCH or now in a folder without git."""
    if is_clone():
        return int(run("git", "log", "-1", "--format=%ct"))
    return int(os.environ.get("SOURCE_DATE_EPOCH", time.time()))


def run(*words: object, folder: pathlib.Path = TOP) -> str:
    """Standard output of a command; what it says beside that is told where it fails."""
    ran = subprocess.run([str(word) for word in words], cwd=folder, capture_output=True, text=True)
    if ran.returncode:
        sys.exit(f"{' '.join(map(str, words))}: status {ran.returncode}\n{ran.stdout}{ran.stderr}")
    return ran.stdout


def c_library() -> str:
    """The least version of the C library that has all that program and library ask of it, from 2.17 on."""
    said = "".join(run("objdump", "-T", BUILD / name) for name in ("pitshell", "pitschedule", "libpitshell.so"))
    needed = [int(minor) for minor in re.findall(r"GLIBC_2[.](\d+)", said)]
    return f"2.{max([LEAST_C_LIBRARY, *needed])}"


def installed(prefix: str) -> pathlib.Path:
    """A folder in which all that `make install` installs stands below the prefix."""
    root = BUILD / "stage"
    shutil.rmtree(root, ignore_errors=True)
    run("make", "-s", "install", f"DESTDIR={root}", f"PREFIX={prefix}")
    return root


def debian_package() -> pathlib.Path:
    root = installed("/usr")
    for page in (root / "usr/share/man/man1").glob("*.1"):
        run("gzip", "-9n", page)
    paths = root / "usr/lib/python3/dist-packages"
    paths.mkdir(parents=True)
    (paths / "pitshell.pth").write_text("/usr/lib/pitshell/python\n")
    (root / "usr/share/doc/pitshell/LICENSE").rename(root / "usr/share/doc/pitshell/copyright")
    words = {"version": version(), "architecture": run("dpkg", "--print-architecture").strip(), "c_library": c_library()}
    words["kilobytes"] = kilobytes(root)
    words["layer"] = ", ".join(run("tools/setup.sh", "names", "core").split())
    (root / "DEBIAN").mkdir()
    (root / "DEBIAN" / "control").write_text(CONTROL.format(**words))
    for name in ("preinst", "prerm"):
        (root / "DEBIAN" / name).write_text(WITHOUT_BYTE_CODE)
        (root / "DEBIAN" / name).chmod(0o755)
    made = DIST / f"pitshell_{words['version']}_{words['architecture']}.deb"
    run("dpkg-deb", "--root-owner-group", "--build", root, made)
    return made


def kilobytes(root: pathlib.Path) -> int:
    """The size of a folder, each file and folder rounded up, as Debian's policy asks for."""
    return sum(-(-it.stat().st_size // 1024) if it.is_file() else 1 for it in root.rglob("*"))


def archive() -> pathlib.Path:
    name = f"pitshell-{version()}-linux-{platform.machine()}"
    root = installed("")
    made = DIST / f"{name}.tar.gz"
    with compressed(made) as file, tarfile.open(fileobj=file, mode="w") as packed:
        packed.add(root, arcname=name, filter=owned_by_root)
    return made


@contextlib.contextmanager
def compressed(path: pathlib.Path) -> Iterator[gzip.GzipFile]:
    """Opens a file whose bytes are compressed, without a name and with the time of all files."""
    with path.open("wb") as file, gzip.GzipFile(filename="", fileobj=file, mode="wb", mtime=time_of_files()) as packed:
        yield packed


def owned_by_root(entry: tarfile.TarInfo) -> tarfile.TarInfo:
    entry.uid = entry.gid = 0
    entry.uname = entry.gname = "root"
    entry.mtime = time_of_files()
    return entry


def source_archive() -> pathlib.Path:
    """The files of the last commit."""
    name = f"pitshell-{version()}"
    made = DIST / f"{name}-source.tar.gz"
    ran = subprocess.run(["git", "archive", f"--prefix={name}/", "HEAD"], cwd=TOP, capture_output=True, check=True)
    with compressed(made) as file:
        file.write(ran.stdout)
    return made


def wheel(name: str, files: dict[str, pathlib.Path], tag: str) -> pathlib.Path:
    """The wheel of python/packages/NAME.toml, with these files more in its packages, under a tag of Python, interface and platform."""
    stage = BUILD / "stage"
    shutil.rmtree(stage, ignore_errors=True)
    stage.mkdir(parents=True)
    for package in ("pitshell", "pitplan", "planaudit", "minelib"):
        shutil.copytree(TOP / "python" / package, stage / package, ignore=shutil.ignore_patterns("__pycache__"))
    for place, file in files.items():
        (stage / place).parent.mkdir(exist_ok=True)
        shutil.copy(file, stage / place)
    shutil.copy(TOP / "python" / "packages" / f"{name}.toml", stage / "pyproject.toml")
    shutil.copy(TOP / "LICENSE", stage)
    (stage / "setup.py").write_text("from setuptools import setup\n\nsetup()\n")
    python, interface, machine = tag.split("-")
    words = ["--python-tag", python, "--dist-dir", DIST, *([] if machine == "any" else ["--plat-name", machine])]
    run("/usr/bin/python3", "setup.py", "-q", "bdist_wheel", *words, folder=stage)
    return next(DIST.glob(f"{name}-*.whl"))


def main() -> int:
    missing = [name for name in MADE if not (BUILD / name).is_file()]
    if missing:
        print(f"build/ has no {' and no '.join(missing)}: make, and make library, prove and build them")
        return 1
    os.umask(0o022)
    os.environ["SOURCE_DATE_EPOCH"] = str(time_of_files())
    shutil.rmtree(DIST, ignore_errors=True)
    DIST.mkdir(parents=True)
    machine = f"manylinux_{c_library().replace('.', '_')}_{platform.machine()}"
    program = {f"pitshell/{name}": BUILD / name for name in ("libpitshell.so", "pitshell", "pitschedule", *RECORDS)}
    checkers = {f"pitplan/checkers/{name}": TOP / "tools" / name for name in ("check_certificate.py", "replay_journal.py")}
    made = [debian_package(), archive(), wheel("pitshell", program, f"py3-none-{machine}"), wheel("pitplan", checkers, "py3-none-any")]
    made += [source_archive()] if is_clone() else []
    hashes = "".join(f"{hashlib.sha256(file.read_bytes()).hexdigest()}  {file.name}\n" for file in made)
    (DIST / "SHA256SUMS").write_text(hashes)
    for file in made:
        print(f"{file.relative_to(TOP)} {file.stat().st_size:,} bytes")
    shutil.rmtree(BUILD / "stage")
    return 0


if __name__ == "__main__":
    sys.exit(main())
