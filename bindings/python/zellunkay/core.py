"""The shared library's calls and numbers, as bindings/include/zellunkay.h declares them, by ctypes.

The library is libzellunkay.so. It is looked for in the folder that the environment variable ZELLUNKAY_LIBRARY names, and beside this
file, where a wheel has it.
"""

import ctypes
import os
from ctypes import POINTER, c_char_p, c_int64, c_size_t, c_uint32, c_uint64, c_void_p
from typing import Any, Callable, NamedTuple

MOST_32, MOST_64 = 2**32 - 1, 2**64 - 1
NO_TASK, NO_SLOT, THE_END = MOST_32, MOST_64, MOST_64
TOO_SMALL = 33
# The form of the library's calls that this package is for.
VERSION = 1


class RawAnswer(ctypes.Structure):
    """A step's answer, and what is asked next: `zk_told` of bindings/c/paths.c."""

    _fields_ = [("what", c_uint32), ("left", c_uint32), ("task", c_uint32), ("number", c_uint32), ("slot", c_uint64), ("next", c_uint32)]


class RawEntered(ctypes.Structure):
    _fields_ = [(name, RawAnswer) for name in ("submitted", "offered", "seconded")]


class RawTurned(ctypes.Structure):
    _fields_ = [(name, RawAnswer) for name in ("ended", "took", "begun")]


class PoolView(NamedTuple):
    """What is seen of a pool, all of one moment."""

    #: 0 running, 1 shutdown, 2 stop, 3 tidying, 4 terminated
    state: int
    submitted: int
    run: int
    caller: int
    rejected: int
    discarded: int
    handedback: int
    removed: int
    cancelled: int
    completed: int
    queued: int
    #: workers that are live now
    live: int
    #: the most workers that were live at once
    largest: int
    core: int
    #: reserved and live
    slots: int
    #: in ticks
    now: int
    #: entries so far
    steps: int


WIDE = ("slots", "now", "steps")


class RawPoolView(ctypes.Structure):
    _fields_ = [(name, c_uint64 if name in WIDE else c_uint32) for name in PoolView._fields]


class RawTaskView(ctypes.Structure):
    _fields_ = [("place", c_uint32), ("fate", c_uint32), ("slot", c_uint64)]


def _path() -> str:
    here = os.path.dirname(os.path.abspath(__file__))
    folders = [os.environ[name] for name in ("ZELLUNKAY_LIBRARY",) if name in os.environ] + [here]
    for folder in folders:
        path = os.path.join(folder, "libzellunkay.so")
        if os.path.exists(path):
            return path
    raise ImportError(f"no libzellunkay.so in {' or '.join(folders)}: a wheel of zellunkay has it, and `tools/bindings.py package` makes one")


# Calls from bytes to bytes keep nothing and may take long: other threads go on meanwhile. A call on a machine is short, and keeps the
# interpreter's lock: so no two threads are in one at once, and no time is lost with handing that lock over.
_texts, _machines = ctypes.CDLL(_path()), ctypes.PyDLL(_path())
Call = Callable[..., int]


def _declared(library: ctypes.CDLL, name: str, result: Any, *arguments: Any) -> Call:
    function = getattr(library, f"zk_{name}")
    function.restype, function.argtypes = result, arguments
    call: Call = function
    return call


version = _declared(_machines, "version", c_uint32)
if version() != VERSION:
    raise ImportError(f"{_path()} has calls of version {version()}, and this package is for version {VERSION}")

_size = POINTER(c_size_t)
status_text: Callable[[int], bytes] = _declared(_machines, "status_text", c_char_p, c_uint32)  # type: ignore[assignment]
audit = _declared(_texts, "audit", c_uint32, c_char_p, c_size_t, c_char_p, c_size_t, _size)
steps = _declared(_texts, "steps", c_uint32, c_char_p, c_size_t, c_char_p, c_size_t, _size)
explore = _declared(_texts, "explore", c_uint32, c_char_p, c_size_t, c_size_t, c_char_p, c_size_t, _size)
now = _declared(_texts, "now", c_uint32, c_char_p, c_size_t, c_uint64, c_char_p, c_size_t, _size)
open_machine = _declared(_machines, "open", c_uint32, c_char_p, c_size_t, c_uint32, POINTER(c_void_p))
step = _declared(_machines, "path_step", c_uint32, c_void_p, c_uint32, c_uint32, c_uint64, c_uint64, c_int64, c_void_p)
enter = _declared(_machines, "path_enter", c_uint32, c_void_p, c_uint32, c_uint32, c_uint32, c_uint32, c_void_p)
turn = _declared(_machines, "path_turn", c_uint32, c_void_p, c_uint32, c_uint32, c_uint64, c_uint64, c_int64, c_void_p)
view = _declared(_machines, "view", c_uint32, c_void_p, POINTER(RawPoolView))
task = _declared(_machines, "task", c_uint32, c_void_p, c_uint32, POINTER(RawTaskView))
handed = _declared(_machines, "handed", c_uint32, c_void_p, c_size_t, POINTER(c_uint32))
record = _declared(_machines, "record", c_uint32, c_void_p, c_char_p, c_size_t, _size)
release = _declared(_machines, "release", c_uint32, c_void_p, c_uint32)
close = _declared(_machines, "close", c_uint32, c_void_p)

# How refusals are named, by their statuses.
NAMES = {
    1: "BadSizes", 2: "BadCapacity", 3: "BadLimit", 4: "NoMemory", 5: "BookFull", 6: "UnknownTask", 7: "UnknownSlot", 8: "NotThere",
    9: "NotFuture", 10: "ClockBack", 11: "KeepZero", 22: "TornRecord", 23: "BadLine", 24: "BadEntry", 25: "ReadFailed", 32: "Flaw",
    33: "TooSmall", 34: "WrongKind", 35: "WrongAsk", 36: "Null", 37: "TooMany",
}
