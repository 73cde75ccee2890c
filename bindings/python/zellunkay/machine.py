"""The machine: a pool's rules as one value."""

import os
import threading
from ctypes import byref, c_uint32, c_void_p
from enum import IntEnum
from types import TracebackType
from typing import NamedTuple, Optional, Type

from . import core
from .core import MOST_32, MOST_64, NO_SLOT, NO_TASK, PoolView, RawAnswer
from .texts import Refused, fits, with_room


class Recorder(IntEnum):
    """What a machine keeps of its steps: the whole record, or its length alone."""

    FULL = 0
    TALLY = 1


class Ask(IntEnum):
    """What a step asks. The header says the arguments of each."""

    SUBMIT = 1
    LOOK = 2
    OFFER = 3
    SECOND = 4
    GROW = 5
    VERDICT = 6
    CALLER_END = 7
    OPEN = 8
    FAIL = 9
    TAKE = 10
    BEGIN = 11
    END = 12
    LEAVE = 13
    SHUTDOWN = 14
    STOP = 15
    TIDY = 16
    ENDED = 17
    REMOVE = 18
    PURGE = 19
    CANCEL = 20
    TAKE_DONE = 21
    CORE = 22
    MAXIMUM = 23
    KEEP = 24
    CORE_TIMEOUT = 25
    TICK = 26
    PRESTART = 27


class Kind(IntEnum):
    """The kind of a task."""

    PLAIN = 0
    FUTURE = 1
    GROUP = 2


class Verdict(IntEnum):
    """What a handler says of a refused task."""

    ABORT = 0
    CALLER_RUNS = 1
    DISCARD = 2
    DISCARD_OLDEST = 3


class What(IntEnum):
    """What a step answers."""

    DONE = 0
    RESERVE = 1
    QUEUE = 2
    REFUSE = 3
    QUEUED = 4
    HAND = 5
    FULL = 6
    STAY = 7
    STAY_RESERVE = 8
    BACK = 9
    REJECTED = 10
    CALLER = 11
    SKIP = 12
    DISCARDED = 13
    RETRY = 14
    RETRY_DROP = 15
    LIVE = 16
    GIVEN_UP = 17
    NOTHING = 18
    OFFER = 19
    HELD = 20
    HEAD = 21
    LEAVE = 22
    IDLE = 23
    RUN = 24
    ENDED = 25
    YES = 26
    NO = 27
    COUNT = 28


class Place(IntEnum):
    """Where a task is."""

    LOOKING = 0
    TO_OFFER = 1
    TO_GROW = 2
    REFUSED = 3
    QUEUED = 4
    HELD = 5
    TAKEN = 6
    RUNNING = 7
    AT_CALLER = 8
    GONE = 9


class Fate(IntEnum):
    """What became of a task."""

    RUN = 1
    RUN_BY_CALLER = 2
    REJECTED = 3
    DISCARDED = 4
    HANDED_BACK = 5
    REMOVED = 6
    CANCELLED = 7


class Answer(NamedTuple):
    """What a step answers: what, and the task, the slot and the number that it speaks of. `left` where the task's payload leaves.

    `next` is what the task's submitter asks next, None where its submission has ended. It is OPEN where a worker is to be made for the
    slot; FAIL is asked where none could be made.
    """

    what: What
    task: Optional[int]
    slot: Optional[int]
    number: int
    left: bool
    next: Optional[Ask]


def _answer(raw: RawAnswer) -> Answer:
    task, slot = None if raw.task == NO_TASK else raw.task, None if raw.slot == NO_SLOT else raw.slot
    return Answer(_WHATS[raw.what], task, slot, raw.number, raw.left == 1, Ask(raw.next) if raw.next else None)


_WHATS = list(What)


class TaskView(NamedTuple):
    """Where a task is, in which slot, and what became of it, None while it is open."""

    place: Place
    slot: Optional[int]
    fate: Optional[Fate]


class Machine:
    """A pool's rules as one value. Each call is one step, or is Refused and changes nothing.

    Threads may share it: its calls are made one at a time, under a lock. A call on a closed machine raises a ValueError, and one in a
    forked child a RuntimeError: the library may not be called there.
    """

    _at: Optional[c_void_p] = None

    def __init__(self, line: str, recorder: Recorder = Recorder.FULL) -> None:
        text, kept = line.encode(), fits("recorder", recorder, MOST_32)
        at = c_void_p()
        self._lock, self._process = threading.RLock(), os.getpid()
        _done(core.open_machine(text, len(text), kept, byref(at)))
        self._at = at

    def _held(self) -> "threading.RLock":
        """The lock. In a forked child nobody may ever let go of it."""
        if self._at is None:
            raise ValueError("the machine is closed")
        if self._process != os.getpid():
            raise RuntimeError("the machine is of the process that this one was forked from")
        return self._lock

    def pointer(self) -> c_void_p:
        """Where the machine lies. Its lock is held, or is not needed, since another one guards it."""
        if self._at is None:
            raise ValueError("the machine is closed")
        return self._at

    def step(self, by: int, ask: Ask, first: int = 0, second: int = 0, value: int = 0) -> Answer:
        """Makes one step, with the number of the pass that asks. The arguments are as the header says them at each ask."""
        numbers = (fits("by", by, MOST_32), fits("ask", ask, MOST_32), fits("first", first, MOST_64), fits("second", second, MOST_64),
                   fits("value", value, 2**63 - 1, -(2**63)))
        raw = RawAnswer()
        with self._held():
            _done(core.step(self.pointer(), *numbers, byref(raw)))
        return _answer(raw)

    def view(self) -> PoolView:
        """What is seen of the pool now."""
        raw = core.RawPoolView()
        with self._held():
            _done(core.view(self.pointer(), byref(raw)))
        return PoolView(*(getattr(raw, name) for name in PoolView._fields))

    def task(self, task: int) -> TaskView:
        """What is seen of a task now."""
        number, raw = fits("task", task, MOST_32), core.RawTaskView()
        with self._held():
            _done(core.task(self.pointer(), number, byref(raw)))
        return TaskView(Place(raw.place), None if raw.slot == NO_SLOT else raw.slot, Fate(raw.fate) if raw.fate else None)

    def handed(self) -> list[int]:
        """The tasks that the last stop handed back, in the queue's order."""
        tasks: list[int] = []
        task = c_uint32()
        with self._held():
            while core.handed(self.pointer(), len(tasks), byref(task)) == 0:
                tasks.append(task.value)
        return tasks

    def record(self) -> bytes:
        """The text of the record."""
        with self._held():
            at = self.pointer()
            told = with_room(lambda room, size, needed: core.record(at, room, size, needed))
        _done(told.status)
        return told.output

    def release(self, task: int) -> None:
        """Forgets a task that is gone and owes nothing, where no record is kept."""
        number = fits("task", task, MOST_32)
        with self._held():
            _done(core.release(self.pointer(), number))

    def close(self) -> None:
        """Frees what the machine keeps. A second close does nothing; a forked child leaves the machine to its parent."""
        if self._at is None or self._process != os.getpid():
            self._at = None
            return
        with self._lock:
            at, self._at = self._at, None
            if at is not None:
                core.close(at)

    def __enter__(self) -> "Machine":
        return self

    def __exit__(self, kind: Optional[Type[BaseException]], error: Optional[BaseException], trace: Optional[TracebackType]) -> None:
        self.close()

    def __del__(self) -> None:
        try:
            self.close()
        except Exception:
            # While the interpreter ends, what `close` needs may be gone. The memory goes with the process.
            pass


def _done(status: int) -> None:
    if status:
        raise Refused(status)
