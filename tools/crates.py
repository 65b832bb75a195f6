"""What crates.txt says: the crates of the repository and which of them each stands on."""
import hashlib
import pathlib
import re

TOP = pathlib.Path(__file__).resolve().parent.parent


def crates() -> dict[str, list[str]]:
    """The crates that each crate of the repository names, without the libraries of the toolchain."""
    lines = (TOP / "crates.txt").read_text().splitlines()
    named = {}
    for line in lines:
        found = re.fullmatch(r"([a-z_0-9]+)[^:#]*:(.*)", line)
        if found:
            named[found[1]] = found[2].split()
    return {name: [it for it in uses if it in named] for name, uses in named.items()}


def in_order(name: str) -> list[str]:
    """A crate and all that it stands on, lowest first."""
    uses, order = crates(), []

    def visit(crate: str) -> None:
        for below in uses[crate]:
            if below not in order:
                visit(below)
        order.append(crate)

    visit(name)
    return order


def sources(crate: str) -> str:
    """The SHA-256 over all that a crate and those below it are made of."""
    digest = hashlib.sha256()
    files = [file for name in in_order(crate) for part in ("src", "specs", "proofs") for file in (TOP / "crates" / name / part).rglob("*")]
    for file in sorted(it for it in [*files, TOP / "crates.txt", TOP / "HANDLES"] if it.is_file()):
        digest.update(f"{file.relative_to(TOP)} {hashlib.sha256(file.read_bytes()).hexdigest()}\n".encode())
    return digest.hexdigest()
