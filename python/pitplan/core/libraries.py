"""The libraries of Python that pitplan uses, with their Debian packages."""

from __future__ import annotations

import importlib
import sys
from dataclasses import dataclass
from importlib.util import find_spec
from pathlib import Path
from types import ModuleType
from typing import Mapping

from pitplan.errors import MissingPackage

# The package of the library of pits.
LIBRARY = "pitshell"
THREE = Path("/usr/share/javascript/three")


def load(module: str, package: str, purpose: str) -> ModuleType:
    """Imports a module. Raises MissingPackage if it cannot be imported, with the name of the Debian package, or with the error of a module that it
    imports itself."""
    try:
        return importlib.import_module(module)
    except ImportError as error:
        if is_of(error, module):
            raise MissingPackage(f"{purpose} needs the Debian package {package}: apt-get install {package}") from error
        why = f"{purpose} needs the Debian package {package}, which is there and cannot be imported: {error}"
        raise MissingPackage(f"{why}: apt-get install --reinstall {package}") from error


def demand_modules(packages: Mapping[str, str], purpose: str) -> None:
    """Raises MissingPackage if a module is not installed, with the Debian packages of all that are missing; `packages` has them by module."""
    missing = [package for module, package in packages.items() if find_spec(module) is None]
    if missing:
        which = f"the Debian package{'s' if len(missing) > 1 else ''} {' and '.join(missing)}"
        raise MissingPackage(f"{purpose} needs {which}: apt-get install {' '.join(missing)}")


def load_library(purpose: str) -> ModuleType:
    """Imports `pitshell`, the package of the library of pits. Raises MissingPackage if that import fails; `purpose` needs it."""
    try:
        return importlib.import_module(LIBRARY)
    except ImportError as error:
        raise MissingPackage(f"{purpose} needs the library of pits: {error}") from error


def is_of(error: ImportError, module: str) -> bool:
    """Returns whether an import failed for the module itself or its package, and not for another module that it imports."""
    name = error.name or ""
    return f"{module}.".startswith(f"{name}.") and name != ""


def three_scripts(folder: Path = THREE) -> list[str]:
    """Returns the texts of three.js and of its orbit controls. Raises MissingPackage if they are not installed."""
    paths = [folder / "three.min.js", folder / "examples" / "js" / "controls" / "OrbitControls.js"]
    for path in paths:
        if not path.is_file():
            raise MissingPackage("the 3D page needs the Debian package libjs-three: apt-get install libjs-three")
    return [path.read_text(encoding="utf-8") for path in paths]


@dataclass(frozen=True)
class Library:
    """A library of Python that pitplan uses.

    Attributes
    ----------
    module : str
        Its name in Python.
    package : str
        Its Debian package; empty if Debian 12 has none.
    purpose : str
        What needs it; empty: every command.
    least : str
        The least version that is tested; empty: any.
    """

    module: str
    package: str
    purpose: str = ""
    least: str = ""

    @property
    def remedy(self) -> str:
        has_debian = not in_environment() or any(place.endswith("dist-packages") for place in sys.path)
        if self.package and has_debian:
            return f"apt-get install {self.package}"
        # Debian's pip refuses to install outside of a virtual environment.
        return f"pip install {self.module.rpartition('.')[2]}{'' if in_environment() else ' in a virtual environment'}"


def in_environment() -> bool:
    """Returns whether Python runs in a virtual environment."""
    return sys.prefix != sys.base_prefix


LIBRARIES = (
    Library("numpy", "python3-numpy", least="1.21"),
    Library("pandas", "python3-pandas", least="1.5"),
    Library("scipy", "python3-scipy", least="1.10"),
    Library("matplotlib", "python3-matplotlib", least="3.6"),
    Library("jinja2", "python3-jinja2", least="3.0"),
    Library("openpyxl", "python3-openpyxl", least="3.0"),
    Library("vtk", "python3-vtk9", "export --to vti and vtu", "9"),
    Library("ezdxf", "python3-ezdxf", "DXF files"),
    Library("osgeo.gdal", "python3-gdal", "GeoPackage, Shapefile, GeoJSON and rasters"),
    Library("pyarrow", "", "Parquet files"),
    Library("dask", "python3-dask", "scenarios --on local and on a cluster"),
    Library("distributed", "python3-distributed", "scenarios --on local and on a cluster"),
    Library("starlette", "python3-starlette", "serve", "0.26"),
    Library("uvicorn", "python3-uvicorn", "serve", "0.17"),
    Library("tomlkit", "python3-tomlkit", "serve", "0.11"),
)


def release() -> str:
    """Returns the version of pitplan, which the first file of the package has."""
    found: str = sys.modules[__name__.partition(".")[0]].__version__
    return found


def libraries() -> dict[str, str]:
    """Returns the versions of pitplan, of Python, and of the libraries that compute."""
    own = {"pitplan": release(), "python": sys.version.split()[0]}
    return own | {name: str(importlib.import_module(name).__version__) for name in ("numpy", "pandas", "scipy")}
