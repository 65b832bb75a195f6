"""One run of a program: its processor seconds, its elapsed seconds, its largest memory and what it wrote."""

import dataclasses
import hashlib
import os
import resource
import subprocess
import time
from collections.abc import Sequence

from kit import WORK


@dataclasses.dataclass(frozen=True)
class Run:
    """Seconds of processor time and on the clock, the peak in megabytes, the digest of standard output, and standard error."""

    processor: float
    elapsed: float
    peak: float
    written: str
    told: str


def timed(command: Sequence[object], status: int = 0, limit: int | None = None) -> Run | None:
    """Runs the command; None where it needs more processor seconds than the limit. Another status ends the bench."""
    words = [str(word) for word in command]
    out, err = WORK / "out.txt", WORK / "err.txt"
    WORK.mkdir(exist_ok=True)

    def limited() -> None:
        if limit is not None:
            resource.setrlimit(resource.RLIMIT_CPU, (limit, limit))

    start = time.perf_counter()
    with open(out, "wb") as writes, open(err, "wb") as tells:
        process = subprocess.Popen(words, stdout=writes, stderr=tells, preexec_fn=limited)
        _, code, usage = os.wait4(process.pid, 0)
    elapsed = time.perf_counter() - start
    process.returncode = os.waitstatus_to_exitcode(code)
    processor = usage.ru_utime + usage.ru_stime
    if process.returncode < 0 and limit is not None and processor > limit - 0.5:
        return None
    told = err.read_text(errors="replace")
    if process.returncode != status:
        raise SystemExit(f"{' '.join(words)} ended with status {process.returncode}, not {status}: {told.strip()}")
    with open(out, "rb") as file:
        digest = hashlib.file_digest(file, "sha256").hexdigest()
    return Run(processor, elapsed, usage.ru_maxrss / 1024, digest, told)


def best(command: Sequence[object], runs: int, status: int = 0) -> Run:
    """The run with the least processor seconds."""
    return min((timed(command, status) for _ in range(runs)), key=lambda row: row.processor)
