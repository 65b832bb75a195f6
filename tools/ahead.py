"""Proves crates ahead of the one run that the gate is, where the toolchain keeps what passed: each once those below it are proved, two
at a time, first those with the longest chain behind them.

A run over all crates gives a crate the processors that are free when it begins, which is one where many are ready, and the chain of
crates that stand on it waits for that one. A crate that is proved alone gets half of four processors, but each run first reads all
crates below it, for 5 to 40 seconds. So crates that were proved here as they stand are passed over, and the last ones, each on the one
before, are left to the one run, which gives them as many processors.
"""
import concurrent.futures
import functools
import json
import pathlib
import subprocess
from collections.abc import Callable

from crates import TOP, crates, sources

LANES = 2
# The state of each crate in which it was proved here. Where it is wrong or missing, nothing but time is lost.
PROVED = TOP / "build" / "proved.json"


@functools.cache
def keeps() -> bool:
    """Whether the toolchain proves crates by their names and keeps what passed, as not every one does."""
    said = subprocess.run(["rt", "--help"], stdout=subprocess.PIPE, stderr=subprocess.STDOUT, text=True, errors="replace").stdout
    return "rt ci NAME" in said


def states(names: list[str]) -> dict[str, str]:
    """What each crate is proved of and by: the SHA-256 over its files and those below it, and the toolchain."""
    said = subprocess.run(["rt", "version"], capture_output=True, text=True, check=True).stdout.strip()
    return {name: f"{sources(name)} {said}" for name in names}


def proved_before() -> dict[str, str]:
    """The state of each crate in which it was proved here last."""
    try:
        return dict(json.loads(PROVED.read_text()))
    except (OSError, ValueError):
        return {}


def note_proved(now: dict[str, str]) -> None:
    """Notes that these crates were proved in these states."""
    PROVED.parent.mkdir(exist_ok=True)
    PROVED.write_text(json.dumps(proved_before() | now, indent=1) + "\n")


def weights(copy: pathlib.Path, names: list[str]) -> dict[str, int]:
    """Bytes of each crate's sources and proofs with those of the longest chain of crates above it; what stands on a crate comes later in
    the names."""
    uses, chains = crates(), dict.fromkeys(names, 0)
    for name in reversed(names):
        chains[name] += sum(it.stat().st_size for part in ("src", "specs", "proofs") for it in (copy / "crates" / name / part).rglob("*.*"))
        for below in uses[name]:
            chains[below] = max(chains[below], chains[name])
    return chains


def are_a_chain(names: list[str]) -> bool:
    """Whether each of the crates, lowest first, stands on the one before it, so that no two can be proved at once."""
    uses = crates()
    return all(below in uses[name] for below, name in zip(names, names[1:]))


def prove_one(copy: pathlib.Path, name: str) -> tuple[bool, list[str]]:
    ran = subprocess.run(["rt", "ci", name], cwd=copy, stdout=subprocess.PIPE, stderr=subprocess.STDOUT, text=True, errors="replace")
    return ran.returncode == 0, ran.stdout.splitlines(keepends=True)


def prove_ahead(copy: pathlib.Path, now: dict[str, str], tell: Callable[[str], None]) -> bool:
    """Whether no proof failed; hands on what was printed of each as it ends. The crates, with their states, come lowest first. Does
    nothing where the toolchain keeps nothing."""
    if not keeps():
        return True
    before, uses, chains = proved_before(), crates(), weights(copy, list(now))
    left = [name for name in now if before.get(name) != now[name]]
    proved, failed = set(now) - set(left), False
    running: dict[concurrent.futures.Future, str] = {}
    with concurrent.futures.ThreadPoolExecutor(LANES) as pool:
        while running or not (failed or are_a_chain(left)):
            ready = sorted((it for it in left if proved.issuperset(uses[it])), key=lambda it: -chains[it])
            for name in ready[: 0 if failed else LANES - len(running)]:
                left.remove(name)
                running[pool.submit(prove_one, copy, name)] = name
            for ended in concurrent.futures.wait(running, return_when=concurrent.futures.FIRST_COMPLETED).done:
                name = running.pop(ended)
                is_proved, lines = ended.result()
                for line in lines:
                    tell(line)
                if is_proved:
                    proved.add(name)
                    note_proved({name: now[name]})
                failed = failed or not is_proved
    return not failed
