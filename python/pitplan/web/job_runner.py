"""`python3 -m pitplan.web.job_runner JOB ROOT`: runs the command of a job and writes its state, whether or not the server lives."""

from __future__ import annotations

import json
import os
import signal
import subprocess
import sys
from pathlib import Path
from types import FrameType
from typing import Any, Optional

from pitplan.core.atomic_files import write_json

from .jobs import ANSWER, CANCEL, CANCELLED, CLAIM, DONE, FAILED, JOB, LOG, RUNNING, STATE, begun_at, now, remove_file

# A command that is interrupted gets these seconds to end by itself.
PATIENCE = 20.0


class Runner:
    """Runs the command of a job, which has a folder, in the root folder."""

    def __init__(self, folder: Path, root: Path) -> None:
        self.folder, self.root = folder, root
        self.child: Optional[subprocess.Popen[bytes]] = None
        self.state: dict[str, Any] = {"runner": os.getpid(), "began": begun_at(os.getpid())}

    def write(self, **more: Any) -> None:
        self.state |= more
        write_json(self.folder / STATE, self.state)

    def cancel(self, number: int, frame: Optional[FrameType]) -> None:
        """Interrupts the command, as Ctrl-C does."""
        if self.child is not None:
            os.killpg(self.child.pid, signal.SIGINT)
            signal.signal(signal.SIGALRM, self.kill)
            signal.setitimer(signal.ITIMER_REAL, PATIENCE)

    def kill(self, number: int, frame: Optional[FrameType]) -> None:
        """Ends a command that has not ended by itself."""
        if self.child is not None:
            os.killpg(self.child.pid, signal.SIGKILL)

    def claim(self) -> bool:
        """Returns whether no other runner has taken the job, as that of another server may."""
        try:
            (self.folder / CLAIM).touch(exist_ok=False)
        except FileExistsError:
            return False
        return True

    def run(self) -> None:
        """Runs the command to its end, unless another runner does."""
        if not self.claim():
            return
        job = json.loads((self.folder / JOB).read_text(encoding="utf-8"))
        signal.signal(signal.SIGTERM, self.cancel)
        self.write(status=RUNNING, started=now())
        with open(self.folder / LOG, "wb") as log, open(self.folder / ANSWER, "wb") as answer:
            self.child = subprocess.Popen(
                [sys.executable, "-P", "-m", "pitplan", *job["words"]],
                cwd=self.root,
                stdin=subprocess.DEVNULL,
                stdout=answer,
                stderr=log,
                start_new_session=True,
            )
            if (self.folder / CANCEL).exists():
                self.cancel(signal.SIGTERM, None)
            code = self.child.wait()
        if code != 0 and job.get("removes"):
            remove_file(self.root / job["removes"])
        is_cancelled = (self.folder / CANCEL).exists() and code != 0
        self.write(status=CANCELLED if is_cancelled else DONE if code == 0 else FAILED, ended=now(), code=code)


if __name__ == "__main__":
    Runner(Path(sys.argv[1]), Path(sys.argv[2])).run()
