"""How a command ends: each failure is one sentence on standard error, even if its streams are closed."""

from __future__ import annotations

import io
import os
import signal
import sys
import threading
from contextlib import redirect_stdout, suppress
from typing import Callable

# As a shell has it: 128 and the signal's number.
INTERRUPTED = 130


def ended(name: str, work: Callable[[], int], refusals: tuple[type[Exception], ...]) -> int:
    """The status of a command's work: its own; 1 with a sentence where it is refused, where there is no memory, and where a file or standard
    output cannot be written; 130 where it was interrupted."""
    end_where_asked()
    said = io.StringIO()
    try:
        try:
            with redirect_stdout(said):
                return work()
        finally:
            put(said.getvalue())
    except refusals as error:
        tell(f"{name}: {error}")
    except MemoryError:
        tell(f"{name}: there is not enough memory")
    except OSError as error:
        tell(": ".join(word for word in (name, error.filename, error.strerror or str(error)) if word))
    except KeyboardInterrupt:
        tell(f"{name}: interrupted")
        return INTERRUPTED
    return 1


def end_where_asked() -> None:
    """Lets a request to end (SIGTERM) unwind as an interruption does, so that nothing half written stays behind."""
    if threading.current_thread() is threading.main_thread():
        signal.signal(signal.SIGTERM, lambda number, frame: sys.exit(128 + number))


def tell(words: str) -> None:
    """A line on standard error; where that is closed, or takes nothing, the run goes on without."""
    if sys.stderr is not None:
        with suppress(OSError):
            print(words, file=sys.stderr, flush=True)


def put(words: str) -> None:
    """Words on standard output, if it is open. Raises OSError, which names it, where it does not take them."""
    if sys.stdout is None:
        return
    if isinstance(sys.stdout, io.TextIOWrapper):
        # A path may have letters that the stream's code has not.
        sys.stdout.reconfigure(errors="backslashreplace")
    try:
        print(words, end="", flush=True)
    except OSError as error:
        # Python would write what is left once more at its end.
        os.dup2(os.open(os.devnull, os.O_WRONLY), sys.stdout.fileno())
        raise OSError(error.errno, error.strerror, "standard output") from error
