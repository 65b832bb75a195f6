"""The shared library: where it lies, and what its functions take."""

import ctypes
import os
from pathlib import Path
from typing import Any

import numpy as np
from numpy.ctypeslib import ndpointer


class Found(ctypes.Structure):
    """`PitshellFound` of include/pitshell.h."""

    _fields_ = [("worth_high", ctypes.c_int64), ("worth_low", ctypes.c_uint64), ("place", ctypes.c_uint32)]

    @property
    def worth(self) -> int:
        return (self.worth_high << 64) + self.worth_low


def _find() -> Path:
    """Returns the library that PITSHELL_LIBRARY names, otherwise the first of these: that of the wheel, next to this package; that of
    `make library`; that of `make install`, which a folder near the root of the file system does not have."""
    named = os.environ.get("PITSHELL_LIBRARY")
    here = Path(__file__).resolve().parent
    folders = [here, *(top / "build" for top in here.parents[1:2]), *here.parents[2:3]]
    places = [Path(named)] if named else [folder / "libpitshell.so" for folder in folders]
    for place in places:
        if place.exists():
            return place
    raise ImportError(f"no libpitshell.so at {' or '.join(map(str, places))}: make library builds it", name=__package__)


def _slice(dtype: type, flags: Any = "C_CONTIGUOUS,ALIGNED") -> list:
    return [ndpointer(dtype=dtype, ndim=1, flags=flags), ctypes.c_size_t]


WRITTEN = "C_CONTIGUOUS,ALIGNED,WRITEABLE"
# ctypes lets go of Python's lock while a function runs, so other threads go on; they must not write to the arrays meanwhile.
FILE = _find()
_library = ctypes.CDLL(str(FILE))

solve = _library.pitshell_solve
solve.restype = ctypes.c_uint32
solve.argtypes = [
    *_slice(np.int64),
    *_slice(np.uint32),
    *_slice(np.uint32),
    *_slice(np.uint8),
    ctypes.c_bool,
    *_slice(np.uint8, WRITTEN),
    ctypes.POINTER(Found),
]

shells = _library.pitshell_shells
shells.restype = ctypes.c_uint32
shells.argtypes = [
    *_slice(np.int64),
    *_slice(np.int64),
    *_slice(np.uint32),
    *_slice(np.uint32),
    *_slice(np.uint32),
    *_slice(np.uint32, WRITTEN),
    *_slice(np.int64, WRITTEN),
    *_slice(np.uint64, WRITTEN),
    ctypes.POINTER(ctypes.c_uint32),
]

certificate = _library.pitshell_certificate
certificate.restype = ctypes.c_uint32
certificate.argtypes = [
    *_slice(np.int64),
    *_slice(np.uint32),
    *_slice(np.uint32),
    *_slice(np.uint8, WRITTEN),
    *_slice(np.int64, WRITTEN),
    *_slice(np.uint64, WRITTEN),
    ctypes.POINTER(Found),
]

check = _library.pitshell_check
check.restype = ctypes.c_uint32
check.argtypes = [
    *_slice(np.int64),
    *_slice(np.uint32),
    *_slice(np.uint32),
    *_slice(np.uint8),
    *_slice(np.int64),
    *_slice(np.uint64),
    ctypes.POINTER(ctypes.c_bool),
    ctypes.POINTER(ctypes.c_uint32),
]

_cycle = _library.pitshell_cycle
_cycle.restype = ctypes.c_uint32
_cycle.argtypes = [
    ctypes.c_size_t,
    *_slice(np.uint32),
    *_slice(np.uint32),
    *_slice(np.uint32, WRITTEN),
    ctypes.POINTER(ctypes.c_size_t),
    ctypes.POINTER(ctypes.c_uint32),
]


def cycle_of(starts: np.ndarray, needs: np.ndarray, blocks: int) -> list[int]:
    """The blocks of the cycle that rows have; none where they have none, or where memory for looking is refused."""
    room = np.zeros(blocks, dtype=np.uint32)
    count, place = ctypes.c_size_t(), ctypes.c_uint32()
    words = (starts, len(starts), needs, len(needs), room, len(room))
    done = _cycle(blocks, *words, ctypes.byref(count), ctypes.byref(place)) == 0
    return [int(block) for block in room[: count.value]] if done else []
