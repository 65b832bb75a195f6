"""A folder that a run writes: locked while the run lives, and without what killed runs left there.

Locks are those of flock(2). The system releases them when a process ends, however it ends, so a lock file that a killed run left blocks no
other. On a file system without such locks runs are not kept apart, and nothing is removed.
"""

from __future__ import annotations

import fcntl
import os
import shutil
import tempfile
from contextlib import contextmanager, suppress
from pathlib import Path
from typing import Iterator

from pitplan.errors import PlanError

LOCK, PREFIX = ".pitplan.lock", ".pitplan-"


@contextmanager
def alone(folder: Path, *within: str) -> Iterator[None]:
    """Keeps other runs out of a folder, which is made if it is missing, and removes what killed runs left there and in the folders within.

    Raises PlanError if another run writes into the folder, or it cannot be made or written.
    """
    missing = [it for it in (folder, *folder.parents) if not os.path.lexists(it)]
    try:
        folder.mkdir(parents=True, exist_ok=True)
        descriptor = locked(folder)
    except OSError as error:
        raise PlanError(f"{error.filename or folder}: cannot be written: {error.strerror or error}") from error
    try:
        for it in (folder, *(folder / name for name in within)):
            clean(it)
        yield
    finally:
        # Before the lock is released: another run takes the file for its own only if it is still in the folder then.
        with suppress(OSError):
            os.unlink(folder / LOCK)
        os.close(descriptor)
        for it in missing:
            with suppress(OSError):
                it.rmdir()


def locked(folder: Path) -> int:
    """Opens and locks the lock file of a folder; returns its descriptor. Raises PlanError if another process holds the lock."""
    path = folder / LOCK
    while True:
        descriptor = opened(path)
        try:
            if is_locked(descriptor):
                said = os.read(descriptor, 20).decode("ascii", "replace").strip() or "unknown"
                why = f"another run of pitplan is writing into this folder (process {said})"
                raise PlanError(f"{folder}: {why}: wait until it ends, or give another folder with --out")
            if is_at(descriptor, path):
                with suppress(OSError):
                    os.ftruncate(descriptor, 0)
                    os.write(descriptor, f"{os.getpid()}\n".encode())
                return descriptor
        except BaseException:
            os.close(descriptor)
            raise
        os.close(descriptor)


def opened(path: Path) -> int:
    """Opens a lock file, which is made if it is missing. Readers of another user's file may lock it too."""
    always = os.O_CLOEXEC | os.O_NOFOLLOW
    try:
        return os.open(path, os.O_RDWR | os.O_CREAT | always, 0o644)
    except PermissionError:
        return os.open(path, os.O_RDONLY | always)


def is_locked(descriptor: int) -> bool:
    """Locks a file or folder unless another process holds the lock; returns whether another process does."""
    try:
        fcntl.flock(descriptor, fcntl.LOCK_EX | fcntl.LOCK_NB)
    except BlockingIOError:
        return True
    except OSError:
        # This file system has no locks.
        return False
    return False


def is_at(descriptor: int, path: Path) -> bool:
    """Returns whether an open file is still the one at a path."""
    try:
        return os.path.samestat(os.fstat(descriptor), os.stat(path, follow_symlinks=False))
    except FileNotFoundError:
        return False


@contextmanager
def made(folder: Path) -> Iterator[None]:
    """Makes a folder with its parents; if an error is raised, those that were missing and are empty are removed. Raises OSError."""
    missing = [it for it in (folder, *folder.parents) if not os.path.lexists(it)]
    folder.mkdir(parents=True, exist_ok=True)
    try:
        yield
    except BaseException:
        for it in missing:
            with suppress(OSError):
                it.rmdir()
        raise


@contextmanager
def stage_in(folder: Path) -> Iterator[Path]:
    """Yields a new folder within a folder, which is removed at the end. It is locked, so that no other run takes it for one of a killed run.

    Raises OSError if it cannot be made.
    """
    stage, descriptor = new_stage(folder)
    try:
        yield stage
    finally:
        shutil.rmtree(stage, ignore_errors=True)
        os.close(descriptor)


def new_stage(folder: Path) -> tuple[Path, int]:
    while True:
        stage = Path(tempfile.mkdtemp(prefix=PREFIX, dir=folder))
        # A run that cleans the folder may be quicker than the lock; then another stage is made.
        with suppress(FileNotFoundError):
            descriptor = os.open(stage, os.O_RDONLY | os.O_DIRECTORY | os.O_CLOEXEC)
            if not is_locked(descriptor) and is_at(descriptor, stage):
                return stage, descriptor
            os.close(descriptor)


def clean(folder: Path) -> None:
    """Removes the stages of a folder that no living process has locked."""
    for stage in folder.glob(f"{PREFIX}*"):
        with suppress(OSError):
            descriptor = os.open(stage, os.O_RDONLY | os.O_DIRECTORY | os.O_NOFOLLOW | os.O_CLOEXEC)
            try:
                fcntl.flock(descriptor, fcntl.LOCK_EX | fcntl.LOCK_NB)
                shutil.rmtree(stage, ignore_errors=True)
            finally:
                os.close(descriptor)
