"""The built program, and small mines on disk."""

import os
import pathlib
import subprocess
import time
import types

import pytest

from sweeps import build_shim

TOP = pathlib.Path(__file__).resolve().parent.parent
PROGRAM = pathlib.Path(os.environ.get("PITSHELL", TOP / "build" / "pitshell")).resolve()

TWO_BLOCKS = "NAME: two blocks\nTYPE: UPIT\nNBLOCKS: 2\nOBJECTIVE_FUNCTION:\n0 -3\n1 5\n"
CHAIN = "1 1 0\n"
ORE_BELOW_WASTE = "0 0 0 0 0 3\n1 0 0 1 10 1\n"
CERTIFICATE = "PITCERT 1\nBLOCKS: 2\nARCS: 1\nIN: 2\n0\n1\nFLOW: 1\n1 0 3000000\n"
WRONG_CERTIFICATE = "PITCERT 1\nBLOCKS: 2\nARCS: 1\nIN: 0\nFLOW: 0\n"


class Mine:
    """A folder with the files of the two-block mine, in which the program is run."""

    def __init__(self, folder: pathlib.Path) -> None:
        self.folder = folder
        self.write("mine.upit", TWO_BLOCKS)
        self.write("mine.prec", CHAIN)
        self.write("mine.blocks", ORE_BELOW_WASTE)
        self.write("good.cert", CERTIFICATE)
        self.write("wrong.cert", WRONG_CERTIFICATE)

    def write(self, name: str, text: str) -> None:
        (self.folder / name).write_text(text)

    def read(self, name: str) -> str:
        return (self.folder / name).read_text()

    def run(self, *words: str | bytes) -> tuple[int, str, str]:
        """Exit status, standard output and standard error."""
        ran = subprocess.run([PROGRAM, *words], cwd=self.folder, capture_output=True, timeout=60)
        return ran.returncode, ran.stdout.decode(), ran.stderr.decode()

    def told_by(self, tool: types.ModuleType, name: str) -> tuple[int, str, str]:
        """What a short tool answers to a certificate or a journal of the mine with its fixed blocks, as `run` gives it."""
        model, prec, fixed, text = ((self.folder / file).read_bytes() for file in ("mine.upit", "mine.prec", "mine.fixed", name))
        out, err, status = tool.answer(model, prec, text, fixed)
        return status, out, err


def wait_for(file: pathlib.Path) -> bool:
    """Whether the file is there within ten seconds."""
    for _ in range(1000):
        if file.exists():
            return True
        time.sleep(0.01)
    return False


@pytest.fixture
def mine(tmp_path: pathlib.Path) -> Mine:
    return Mine(tmp_path)


@pytest.fixture(scope="session")
def shim(tmp_path_factory: pytest.TempPathFactory) -> pathlib.Path:
    """The library that lets calls go wrong (fail_calls.c)."""
    return build_shim(tmp_path_factory.mktemp("shim"))
