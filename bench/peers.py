"""Other people's maximum flows beside the program: builds bench/peers.cpp with those whose headers are there, and times them.

Debian's packages: libmaxflow-dev (Boykov and Kolmogorov's own code), libigraph-dev, libboost-graph-dev and liblemon-dev; a peer
without its package is left out. `tools/setup.sh bench` installs all four.
"""

import pathlib
import shutil
import subprocess

from kit import ROOT, WORK
from timing import Run, timed

# Where Debian puts the headers of libmaxflow-dev.
KOLMOGOROV = "/usr/include/maxflow-3.0"
IGRAPH = pathlib.Path("/usr/include/igraph/igraph.h")

# The words of bench/peers.cpp for each peer, and the name under which a table shows it; the strongest come first.
NAMES = {
    "kolmogorov": "Boykov-Kolmogorov, the authors' own",
    "igraph": "push-relabel of igraph",
    "boykov_kolmogorov": "Boykov-Kolmogorov of Boost",
    "push_relabel": "push-relabel of Boost",
    "lemon_preflow": "Preflow of LEMON",
}


def build() -> tuple[pathlib.Path, list[str]]:
    """The program with the peers whose headers are there, and their words."""
    if shutil.which("c++") is None:
        raise SystemExit("there is no C++ compiler (Debian: g++); tools/setup.sh bench installs what the bench needs")
    WORK.mkdir(exist_ok=True)
    target = WORK / "peers"
    words = ["c++", "-O2", "-std=c++17", "-I", KOLMOGOROV, "-o", target, ROOT / "bench" / "peers.cpp"]
    subprocess.run(words + ["-ligraph"] * IGRAPH.exists(), check=True)
    found = subprocess.run([target], check=True, capture_output=True, text=True).stdout.split()
    return target, [name for name in NAMES if name in found]


def time_peer(program: pathlib.Path, name: str, mine: tuple[pathlib.Path, pathlib.Path], limit: int) -> tuple[Run, float] | None:
    """A peer's run on a model and a precedence file, and the seconds of its network and flow; None where it is past the limit."""
    run = timed([program, name, *mine], limit=limit)
    return None if run is None else (run, float(run.told.split()[1]))
