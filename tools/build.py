#!/usr/bin/env python3
"""Proves a program or the library and each crate below it, side by side, with a line for each, and leaves what was built in build/.

    tools/build.py [pitshell]       the program
    tools/build.py pitschedule      the program that checks schedules
    tools/build.py refused_memory   a small program for the tests
    tools/build.py pitshell_c       what C and Python call: libpitshell.so and libpitshell.a, by a C compiler

Nothing is proved where what stands in build/ was built of these sources by this toolchain. The output of a crate that is not proved is
printed whole. Beside it, build/NAME.version says what was built: the program's own line, the commit, the SHA-256 of the first file
and of the sources, and the toolchain that proved it.
"""
import argparse
import hashlib
import pathlib
import re
import shutil
import subprocess
import sys
import tempfile
import time

import ahead
import clone
from crates import TOP, crates, in_order, sources

PROGRAM, LIBRARY = "pitshell", "pitshell_c"
# What is built of each crate: the first file's SHA-256 stands in its .version.
FILES = {PROGRAM: ["pitshell"], "pitschedule": ["pitschedule"], "refused_memory": ["refused_memory"], LIBRARY: ["libpitshell.so", "libpitshell.a"]}
BUILD = TOP / "build"
LINKER = "the library is linked by a C compiler: apt-get install gcc libc6-dev binutils"


def functions(said: str) -> str:
    """How many functions the last verdict in a crate's output counts."""
    counts = re.findall(r"^logic=proved functions=(\d+)", said, flags=re.MULTILINE)
    return f"{counts[-1]} functions proved" if counts else "unchanged"


def longest_chain(left: set[str]) -> list[str]:
    """The longest chain of crates, each on the one before, among those that are left."""
    uses = crates()
    chains: dict[str, list[str]] = {}
    for crate in (it for top in left for it in in_order(top) if it in left):
        chains[crate] = max((chains[it] for it in uses[crate] if it in chains), key=len, default=[]) + [crate]
    return max(chains.values(), key=len, default=[])


class Told:
    """Takes what the proofs print, and tells of each crate as it is proved; keeps what was printed of the others."""

    def __init__(self, names: list[str]) -> None:
        self.names, self.left, self.lines, self.began = names, set(names), [], time.monotonic()

    def __call__(self, line: str) -> None:
        self.lines.append(line)
        found = re.match(r"rt: (\w+) proved$", line)
        if not found or found[1] not in self.left:
            return
        self.left.remove(found[1])
        chain = longest_chain(self.left)
        then = f"; left are {len(self.left)}, of them one behind the other {', '.join(chain)}" if chain else ""
        done, minutes = len(self.names) - len(self.left), (time.monotonic() - self.began) / 60
        print(f"[{done}/{len(self.names)}, {minutes:.0f} min] {found[1]}: {functions(''.join(self.lines))}{then}", flush=True)
        self.lines.clear()


def fault_of_linker() -> str:
    """Returns why the library could not be linked, with the remedy; an empty text if a library without content can be."""
    if not shutil.which("ar"):
        return f"ar is missing: {LINKER}"
    with tempfile.TemporaryDirectory() as folder:
        command = ["cc", "-shared", "-o", pathlib.Path(folder, "empty.so"), "-x", "c", "-"]
        try:
            ran = subprocess.run(command, input="", capture_output=True, text=True)
        except FileNotFoundError:
            return f"cc is missing: {LINKER}"
    return f"cc cannot link: {LINKER}\n{ran.stderr}" if ran.returncode else ""


def prove(crate: str) -> bool:
    names = in_order(crate)
    told, now = Told(names), ahead.states(names)
    print(f"{len(names)} crates are proved and linked, {', '.join(longest_chain(told.left))} one behind the other", flush=True)
    with clone.clone(only=names) as copy:
        if not ahead.prove_ahead(copy, now, told) or clone.prove(copy, told):
            print("".join(told.lines))
            return False
        take(copy, crate)
    ahead.note_proved(now)
    return True


def version_file(crate: str) -> pathlib.Path:
    return BUILD / f"{FILES[crate][0]}.version"


def state(crate: str) -> str:
    """What the .version of a crate says of the file, its sources and the toolchain."""
    sha256 = hashlib.sha256((BUILD / FILES[crate][0]).read_bytes()).hexdigest()
    toolchain = subprocess.run(["rt", "version"], capture_output=True, text=True, check=True).stdout
    return f"sha256 {sha256}\nsources {sources(crate)}\nproved with {toolchain}"


def is_built(crate: str) -> bool:
    told = version_file(crate)
    return all((BUILD / it).is_file() for it in FILES[crate]) and told.is_file() and told.read_text().endswith(state(crate))


def commit() -> str:
    """The commit that was built, with a word where files differ from it; the source may also lie outside of git."""
    ran = subprocess.run(["git", "describe", "--always", "--dirty", "--abbrev=40"], cwd=TOP, capture_output=True, text=True)
    return ran.stdout.strip() if ran.returncode == 0 else "unknown"


def take(copy: pathlib.Path, crate: str) -> None:
    """Takes what was proved in a copy of the repository into build/."""
    BUILD.mkdir(exist_ok=True)
    if crate == LIBRARY:
        link_library(archive(copy))
    else:
        shutil.copy(copy / "crates" / crate / "out" / crate, BUILD / crate)
    said = subprocess.run([BUILD / crate, "--version"], capture_output=True, text=True, check=True).stdout if crate == PROGRAM else ""
    version_file(crate).write_text(f"{said}commit {commit()}\n{state(crate)}")


def kit() -> pathlib.Path:
    said = subprocess.run(["rt", "doc"], capture_output=True, text=True, check=True).stdout.strip()
    return pathlib.Path(said).parent


def has_libraries(copy: pathlib.Path) -> bool:
    """Whether the proofs in the copy have left the crates that the library stands on compiled, as not every toolchain does."""
    return all((copy / "crates" / name / "out" / "rlib" / f"{name}.rlib").exists() for name in crates()[LIBRARY])


def archive(copy: pathlib.Path) -> pathlib.Path:
    """The compiled library, over the crates that were proved in the copy; its own crate is proved once more, or all are, one by one."""
    folder, tools = copy / "crates" / LIBRARY, kit()
    made = folder / "out" / f"lib{LIBRARY}.a"
    if not has_libraries(copy):
        subprocess.run(["rt", "lib"], cwd=folder, check=True)
        return made
    made.parent.mkdir(exist_ok=True)
    folders = [copy / "crates" / name / "out" / "rlib" for name in in_order(LIBRARY) if name != LIBRARY]
    words = [tools / "bin" / "rattle", "build", "--crate-name", LIBRARY, "src/lib.rt", "--crate-type", "staticlib"]
    words += ["--extern", f"std={tools}/rlibs/std.rlib", "-L", f"dependency={tools}/rlibs"]
    words += [word for name in crates()[LIBRARY] for word in ("--extern", f"{name}={copy}/crates/{name}/out/rlib/{name}.rlib")]
    words += [word for it in folders for word in ("-L", f"dependency={it}")]
    words += ["--antt-project", tools / "rattle" / "logic" / "antt-project.json", "--logic-built", tools / "logic_built"]
    words += ["--toolchain", tools / "toolchain", "--backend", "llvm", "-o", made]
    subprocess.run(words, cwd=folder, check=True, stdout=subprocess.DEVNULL)
    return made


def link_library(proved: pathlib.Path) -> None:
    """One file that needs the C library alone, and that shows no other name than those of include/pitshell.h. The toolchain's calls
    of malloc, realloc and free are taken along."""
    heap, names = kit() / "c" / "liblibc_c.a", BUILD / "libpitshell.names"
    names.write_text("{ global: pitshell_*; local: *; };\n")
    flags = ["-Wl,-soname,libpitshell.so", "-Wl,-z,now", "-Wl,-z,noexecstack", f"-Wl,--version-script={names}"]
    archives = ["-Wl,--whole-archive", proved, "-Wl,--no-whole-archive", heap]
    subprocess.run(["cc", "-shared", "-o", BUILD / "libpitshell.so", *flags, *archives], check=True)
    names.unlink()
    both = f"CREATE {BUILD}/libpitshell.a\nADDLIB {proved}\nADDLIB {heap}\nSAVE\nEND\n"
    subprocess.run(["ar", "-M"], input=both, text=True, check=True)


def main() -> int:
    parser = argparse.ArgumentParser(description=__doc__, formatter_class=argparse.RawDescriptionHelpFormatter)
    parser.add_argument("crate", nargs="?", choices=FILES, default=PROGRAM)
    crate = parser.parse_args().crate
    if is_built(crate):
        print(f"build/{FILES[crate][0]} is that of these sources")
        return 0
    # Before half an hour of proofs, which it would follow.
    if crate == LIBRARY and (fault := fault_of_linker()):
        sys.exit(f"build.py: {fault}")
    return 0 if prove(crate) else 1


if __name__ == "__main__":
    sys.exit(main())
