"""Tasks that run at the same time, each in a fork of this process."""

from __future__ import annotations

import multiprocessing
import os
import pickle
from collections.abc import Callable, Iterator, Sequence
from multiprocessing.connection import Connection, wait
from multiprocessing.process import BaseProcess
from typing import Optional

from pitplan.errors import ProgramError

Task = Callable[[], object]


def cores() -> int:
    """Returns the number of processors that this process may use."""
    return len(os.sched_getaffinity(0)) if hasattr(os, "sched_getaffinity") else os.cpu_count() or 1


def run_all(tasks: Sequence[Task], most: Optional[int] = None) -> None:
    """Runs tasks that write files, each in a process of its own; see `each_done`."""
    for _ in each_done(tasks, most):
        pass


def each_done(tasks: Sequence[Task], most: Optional[int] = None) -> Iterator[int]:
    """Runs tasks that write files, and yields the number of each when it is done. At most `most` processes run at a time, by default one per
    processor; 1 runs all tasks in this process. A task sees the memory of this process. What it changes there is lost. Raises the error of a task,
    and ProgramError if a process was killed; no process is left then."""
    count = min(len(tasks), most or cores())
    # A daemon, such as a process of a pool, may have no processes of its own.
    if count <= 1 or not hasattr(os, "fork") or multiprocessing.current_process().daemon:
        for number, task in enumerate(tasks):
            task()
            yield number
        return
    running: dict[Connection, tuple[int, BaseProcess]] = {}
    waiting = list(enumerate(tasks))[::-1]
    try:
        while waiting or running:
            while waiting and len(running) < count:
                number, task = waiting.pop()
                pipe, process = started(task)
                running[pipe] = number, process
            ended = wait(list(running))
            for pipe in [it for it in running if it in ended]:
                demand_done(pipe, running[pipe][1])
                yield running.pop(pipe)[0]
    finally:
        for _, process in running.values():
            process.kill()
            process.join()


def started(task: Task) -> tuple[Connection, BaseProcess]:
    """Starts a process that runs a task; returns it with the pipe through which it sends an error."""
    forks = multiprocessing.get_context("fork")
    receives, sends = forks.Pipe(duplex=False)
    process = forks.Process(target=run, args=(task, sends))
    process.start()
    sends.close()
    return receives, process


def run(task: Task, pipe: Connection) -> None:
    try:
        task()
    except BaseException as error:
        pipe.send_bytes(pickled(error))


def demand_done(pipe: Connection, process: BaseProcess) -> None:
    """Waits for the end of a process. Raises the error of its task, and ProgramError if it was killed."""
    try:
        sent = pipe.recv_bytes()
    except EOFError:
        sent = b""
    process.join()
    if sent:
        raise pickle.loads(sent)
    if process.exitcode:
        why = f"a process ended with status {process.exitcode}"
        raise ProgramError(f"{why}: free some memory, or use fewer processors")


def pickled(error: BaseException) -> bytes:
    """Returns an error as bytes; one that cannot be sent by its words."""
    try:
        sent = pickle.dumps(error)
        pickle.loads(sent)
        return sent
    except Exception:
        return pickle.dumps(RuntimeError(f"{type(error).__name__}: {error}"))
