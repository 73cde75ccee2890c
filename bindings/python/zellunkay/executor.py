"""An executor in the form of concurrent.futures: each decision is one step of a proved machine, made under one lock.

It is a pool as `ThreadPoolExecutor` of concurrent.futures is one: at most `max_workers` threads, a queue that always has room, and
threads that are made as tasks come. The queue's order, what becomes of a task, and when a thread may end are the machine's answers.

An exception may come between any two instructions of the main thread, such as a KeyboardInterrupt. So a job is noted before its task is
submitted; a call of the library makes a step and writes its answer, or does neither; and `_Pool.follow` can go on from the last answer
of a submission at any time. A finalizer may come there too, in any thread: it takes no lock.
"""

import os
import sys
import threading
import weakref
from _thread import LockType, allocate_lock
from concurrent.futures import Executor as _BaseExecutor
from concurrent.futures import Future, _base
from concurrent.futures.thread import BrokenThreadPool
from ctypes import addressof, byref, c_int64, c_uint32, c_uint64, c_void_p, sizeof
from itertools import count
from typing import TYPE_CHECKING, Any, Callable, Dict, List, Optional, Tuple, TypeVar

from . import core
from .core import PoolView, RawAnswer, RawEntered, RawTurned
from .machine import Ask, Kind, Machine, Recorder, What
from .texts import Refused, Told, audit

if sys.version_info >= (3, 10):
    from typing import ParamSpec

    P = ParamSpec("P")
elif TYPE_CHECKING:
    from typing_extensions import ParamSpec

    P = ParamSpec("P")
T = TypeVar("T")

_SHUT = "cannot schedule new futures after shutdown"
_EXITED = "cannot schedule new futures after interpreter shutdown"
_FORKED = "this executor is of the process that this one was forked from: make one here"
_NESTED = "a signal's handler or a finalizer came in the midst of a call of this executor: it can neither submit nor wait for the end"
_UNUSABLE = "A thread initializer failed, the thread pool is not usable anymore"

# The library's arguments and answers, made once.
_OUTSIDE, _FUTURE, _NO, _YES, _NO_VALUE = c_uint32(0), c_uint32(Kind.FUTURE), c_uint32(0), c_uint32(1), c_int64(0)
_VALUE, _FAULT = c_uint64(0), c_uint64(1)
_STAY, _REJECTED = int(What.STAY), int(What.REJECTED)
_SKIP, _LEAVE, _IDLE, _RUN = int(What.SKIP), int(What.LEAVE), int(What.IDLE), int(What.RUN)
_NOT_THERE = 8
_enter, _turn = core.enter, core.turn


_executors: "weakref.WeakSet[Executor]" = weakref.WeakSet()
_is_exiting = False


class _Path:
    """Where the library writes what it answers to a submission: the three answers of `zk_core_enter`, and each further one as the third."""

    def __init__(self) -> None:
        self.raw = RawEntered()
        self.at = c_void_p(addressof(self.raw))
        self.submitted, self.offered, self.last = (RawAnswer.from_buffer(self.raw, n * sizeof(RawAnswer)) for n in range(3))
        self.last_at = c_void_p(addressof(self.last))

    def answer(self) -> RawAnswer:
        """The last answer. One with 0 is of a step that was not made: no step of a submission answers 0."""
        return next((answer for answer in (self.last, self.offered) if answer.what), self.submitted)


class _Future(Future[Any]):
    """A future whose cancelling the machine hears of. It has its pool until its task begins."""

    _pool: "Optional[_Pool]" = None
    _task = core.NO_TASK

    def cancel(self) -> bool:
        pool = self._pool
        return (pool is None or pool.cancel(self._task)) and super().cancel()


_Job = Tuple[_Future, Callable[..., Any], Tuple[Any, ...], Dict[str, Any]]


def _is_waiting(future: _Future) -> bool:
    """Whether the future's task never began, and nobody heard yet that it never will. One that was cancelled is told so here."""
    with future._condition:  # type: ignore[attr-defined]
        is_open = future._state in (_base.PENDING, _base.CANCELLED)  # type: ignore[attr-defined]
        return is_open and future.set_running_or_notify_cancel()


def _give_up(future: _Future) -> None:
    """Cancels a future whose task never begins, and tells those that wait for it. A second time it does nothing."""
    Future.cancel(future)
    _is_waiting(future)


def _call(future: _Future, function: Callable[..., Any], args: Tuple[Any, ...], kwargs: Dict[str, Any]) -> c_uint64:
    """Runs a job, and tells its future: 1 where it failed, else 0. An error's traceback keeps this frame, and not the worker's."""
    try:
        result = function(*args, **kwargs)
    except BaseException as error:
        future.set_exception(error)
        # Else the error, its traceback, this frame and the future would keep each other.
        del future
        return _FAULT
    future.set_result(result)
    return _VALUE


def _fail(future: _Future, *_: Any) -> c_uint64:
    """What runs a job in a pool that is not usable."""
    future.set_exception(BrokenThreadPool(_UNUSABLE))
    return _FAULT


def _release(wake: LockType) -> None:
    try:
        wake.release()
    except RuntimeError:
        # It is released already: its worker is to look again anyway.
        pass


class _Pool:
    """What an executor and its threads share. It does not keep the executor alive.

    `lock` guards all of it. A thread of the pool sleeps on its own lock in `wakes`, which is held but for a wake that it has not heard.
    """

    def __init__(self, workers: int, prefix: str, initializer: Optional[Callable[..., Any]], initargs: Tuple[Any, ...], limit: Optional[int]):
        # A core of all workers, so that each submission below the maximum has a thread made.
        line = f"pool {workers} {workers} unbounded keep 0 abort"
        self.keeps_record = limit is not None
        self.machine = Machine(f"{line} limit {limit}", Recorder.FULL) if self.keeps_record else Machine(line, Recorder.TALLY)
        self.home = self.machine.pointer()
        self.lock = threading.RLock()
        # What was answered to the last submission, and to the last other step.
        self.path, self.aside = _Path(), RawAnswer()
        # How many tasks were submitted, which is the next one's number.
        self.submitted = 0
        # The jobs of the tasks that have not begun, and for a moment that of the next one.
        self.jobs: Dict[int, _Job] = {}
        self.wakes: Dict[int, LockType] = {}
        # Those that sleep, the last one last.
        self.sleeping: Dict[int, LockType] = {}
        # A worker is on its way. It wakes the next one, where tasks are left.
        self.is_waking = False
        # A submission was interrupted, and has to be brought to its end.
        self.is_torn = False
        # The executor is gone.
        self.is_orphan = False
        # Why no task is taken any more, and whether that or `is_torn` has to be looked at.
        self.refusal: Optional[Callable[[], Exception]] = None
        self.is_stirred = False
        self.is_forked = False
        self.threads: List[threading.Thread] = []
        self.prefix, self.initializer, self.initargs = prefix, initializer, initargs

    def step(self, ask: Ask, first: int = 0) -> int:
        """A step that is of no submission."""
        return core.step(self.home, _OUTSIDE, ask, first, 0, _NO_VALUE, byref(self.aside))

    def advance(self, ask: int, first: int) -> int:
        """A step of the last submission. A verdict is `abort`."""
        return core.step(self.home, _OUTSIDE, ask, first, 0, _NO_VALUE, self.path.last_at)

    def refuse(self, refusal: Callable[[], Exception]) -> None:
        self.refusal, self.is_stirred = refusal, True

    def forget(self, task: int) -> None:
        """The job of a task that is gone."""
        self.jobs.pop(task, None)
        if not self.keeps_record:
            core.release(self.home, task)

    def wake(self) -> None:
        """Wakes the worker that fell asleep last, where none is on its way."""
        if self.sleeping and not self.is_waking:
            self.is_waking = True
            _release(self.sleeping.popitem()[1])

    def rouse(self) -> None:
        """All workers look again. It needs no lock."""
        self.is_waking = False
        for wake in list(self.wakes.values()):
            _release(wake)

    def settle(self) -> None:
        """Ends the pool, where it can end now."""
        if self.step(Ask.TIDY) == 0:
            self.step(Ask.ENDED)

    # ---- submissions

    def look(self) -> None:
        """Whether tasks are taken still. An interrupted submission comes to its end first."""
        if self.is_torn:
            self.mend()
        if self.refusal is not None:
            raise self.refusal()
        self.is_stirred = False

    def mend(self) -> None:
        """Brings the last submission to its end, if an exception came in the midst of it, and has all workers look again."""
        self.submitted = self.machine.view().submitted
        self.jobs.pop(self.submitted, None)
        if self.submitted:
            self.follow(self.submitted - 1)
        self.rouse()
        self.is_torn = False

    def follow(self, task: int) -> Optional[Exception]:
        """Does what the submission of this task owes behind its last answer, to its end. The answer is why it was refused, if it was."""
        failure: Optional[RuntimeError] = None
        answer = self.path.answer()
        while answer.next:
            if answer.next == Ask.OPEN:
                failure = self.staff(answer.slot)
            else:
                status = self.advance(answer.next, task)
                if status:
                    return Refused(status)
            answer = self.path.last
        if answer.what == _REJECTED:
            self.forget(task)
            self.settle()
            return RuntimeError(_SHUT)
        view = self.machine.view()
        if view.queued and not view.slots:
            # There is no thread, and none can be made: the task does not stay where nobody serves it.
            self.step(Ask.REMOVE, task)
            self.forget(task)
            return failure or RuntimeError("can't start new thread")
        self.wake()
        return None

    def staff(self, slot: int) -> Optional[RuntimeError]:
        """Has a thread made for the reserved slot, and tells the machine. The answer is why there is none, if none could be made.

        Behind an exception it may be called a second time: then the thread of the first one finds that its lock is not that of the slot.
        """
        wake = allocate_lock()
        wake.acquire()
        self.wakes[slot] = wake
        made = len(self.threads)
        thread = threading.Thread(name=f"{self.prefix}_{made}", target=self.work, args=(slot, made + 1, wake))
        try:
            thread.start()
        except RuntimeError as error:
            self.advance(Ask.FAIL, slot)
            return error
        self.threads.append(thread)
        self.advance(Ask.OPEN, slot)
        return None

    def cancel(self, task: int) -> bool:
        """Whether the task's future may be cancelled: no, where its task begins nevertheless, since a full record takes no cancel."""
        if self.is_forked:
            return True
        with self.lock:
            # A task that has begun is its future's matter alone.
            return task not in self.jobs or self.step(Ask.CANCEL, task) == 0

    # ---- workers

    def work(self, slot: int, number: int, wake: LockType) -> None:
        """What a thread of the pool does to its end. It begins once the lock is free, and then its slot is open."""
        with self.lock:
            if self.wakes[slot] is not wake:
                return
        call: Callable[..., c_uint64] = _call
        if self.initializer is not None:
            try:
                self.initializer(*self.initargs)
            except BaseException:
                _base.LOGGER.critical("Exception in initializer:", exc_info=True)
                self.breaks()
                call = _fail
        self.serve(slot, number, wake, call)

    def breaks(self) -> None:
        """A thread's initializer failed: no task is taken any more, and those in the queue fail."""
        self.refuse(lambda: BrokenThreadPool(_UNUSABLE))
        for task, future in self.shut(True):
            self.drop(task)
            if _is_waiting(future):
                _fail(future)

    def serve(self, slot: int, number: int, wake: LockType, call: Callable[..., c_uint64]) -> None:
        """Ends the task that was run, takes the next one and runs it, until the machine says that the thread leaves."""
        lock, jobs, sleeping, home, turned = self.lock, self.jobs, self.sleeping, self.home, RawTurned()
        _, took, begun = (RawAnswer.from_buffer(turned, n * sizeof(RawAnswer)) for n in range(3))
        told, by, at = c_void_p(addressof(turned)), c_uint32(number), c_uint64(slot)
        ends, fault, has_slept = _NO, _VALUE, False
        while True:
            with lock:
                if has_slept:
                    has_slept = self.hear(slot)
                status = _turn(home, by, ends, at, fault, _NO_VALUE, told)
                ends, fault = _NO, _VALUE
                what = begun.what
                if what == _RUN:
                    job = jobs.pop(begun.task)
                    job[0]._pool = None
                    if jobs and sleeping:
                        self.wake()
                    if not job[0].set_running_or_notify_cancel():
                        # It was cancelled by the call of another class.
                        ends = _YES
                        continue
                elif what == _SKIP:
                    job = jobs.pop(begun.task)
                elif took.what == _LEAVE:
                    return self.settle()
                elif took.what == _IDLE or status == _NOT_THERE:
                    # It is idle; or it was, and is.
                    sleeping[slot] = wake
                else:
                    raise Refused(status)
            if what == _RUN:
                ends = _YES
                try:
                    fault = call(*job)
                except BaseException:
                    _base.LOGGER.critical("Exception in a callback of a future:", exc_info=True)
                del job
            elif what == _SKIP:
                _give_up(job[0])
                del job
            else:
                has_slept = wake.acquire()

    def hear(self, slot: int) -> bool:
        """A worker was woken: it sleeps no more. The answer is that it has not slept since."""
        self.is_waking = False
        self.sleeping.pop(slot, None)
        if self.is_orphan:
            self.shut(False)
        return False

    # ---- the end

    def shut(self, now: bool) -> "List[Tuple[int, _Future]]":
        """Shuts the pool down. With `now` the tasks come that it handed back, with their futures, until they are dropped."""
        with self.lock:
            if self.is_torn:
                self.mend()
            if self.machine.view().state < (2 if now else 1):
                self.step(Ask.STOP if now else Ask.SHUTDOWN)
            handed = [(task, self.jobs[task][0]) for task in self.machine.handed() if task in self.jobs] if now else []
            self.rouse()
            self.settle()
            return handed

    def drop(self, task: int) -> None:
        with self.lock:
            self.forget(task)

    def orphan(self) -> None:
        """The executor is gone. This may come at any moment, so a worker shuts the pool down."""
        self.is_orphan = True
        self.rouse()

    def leave_to_parent(self) -> None:
        """This process is a child that was forked: it has none of the threads, and may not call the library."""
        self.lock, self.is_forked = threading.RLock(), True
        self.refuse(lambda: RuntimeError(_FORKED))


class Executor(_BaseExecutor):
    """As concurrent.futures.ThreadPoolExecutor. With `limit` the pool keeps its record, of so many entries at most."""

    _numbers = count()

    def __init__(
        self,
        max_workers: Optional[int] = None,
        thread_name_prefix: str = "",
        initializer: Optional[Callable[..., Any]] = None,
        initargs: Tuple[Any, ...] = (),
        *,
        limit: Optional[int] = None,
    ) -> None:
        if max_workers is None:
            max_workers = min(32, (getattr(os, "process_cpu_count", os.cpu_count)() or 1) + 4)
        if max_workers <= 0:
            raise ValueError("max_workers must be greater than 0")
        if max_workers > 1024:
            raise ValueError("max_workers must be at most 1024")
        if initializer is not None and not callable(initializer):
            raise TypeError("initializer must be a callable")
        self._max_workers = max_workers
        prefix = thread_name_prefix or f"ThreadPoolExecutor-{next(self._numbers)}"
        self._pool = _Pool(max_workers, prefix, initializer, initargs, limit)
        if _is_exiting:
            self._pool.refuse(lambda: RuntimeError(_EXITED))
        weakref.finalize(self, self._pool.orphan).atexit = False
        _executors.add(self)

    # As the original has them: its tests look at them.
    @property
    def _threads(self) -> "set[threading.Thread]":
        return set(self._pool.threads)

    @property
    def _broken(self) -> bool:
        return self._pool.refusal is not None

    def submit(self, fn: "Callable[P, T]", /, *args: "P.args", **kwargs: "P.kwargs") -> "Future[T]":
        pool, future, refusal = self._pool, _Future(), None
        lock, jobs = pool.lock, pool.jobs
        if lock._is_owned():  # type: ignore[attr-defined]
            raise RuntimeError(_NESTED)
        with lock:
            if pool.is_stirred:
                pool.look()
            task = pool.submitted
            future._task, future._pool = task, pool
            try:
                jobs[task] = future, fn, args, kwargs
                status = _enter(pool.home, _OUTSIDE, _FUTURE, _NO, _NO, pool.path.at)
                if status == 0:
                    pool.submitted = task + 1
                    if pool.path.last.what != _STAY:
                        refusal = pool.follow(task)
                    elif pool.sleeping:
                        pool.wake()
                else:
                    del jobs[task]
                    refusal = Refused(status)
            except BaseException:
                pool.is_torn = pool.is_stirred = True
                pool.mend()
                raise
        if refusal is not None:
            raise refusal
        return future

    submit.__doc__ = _BaseExecutor.submit.__doc__

    def shutdown(self, wait: bool = True, *, cancel_futures: bool = False) -> None:
        pool = self._pool
        if pool.is_forked:
            return
        is_nested = pool.lock._is_owned()  # type: ignore[attr-defined]
        for task, future in pool.shut(cancel_futures):
            _give_up(future)
            pool.drop(task)
        if wait and is_nested:
            raise RuntimeError(_NESTED)
        if wait:
            for thread in list(pool.threads):
                thread.join()

    shutdown.__doc__ = _BaseExecutor.shutdown.__doc__

    def record(self) -> bytes:
        """The text of the record, where the executor was made with a limit. Refused with 34 where it was not."""
        with self._pool.lock:
            return self._pool.machine.record()

    def audit(self) -> Told:
        """The judgment of the record so far."""
        return audit(self.record())

    def view(self) -> PoolView:
        """What is seen of the pool now."""
        with self._pool.lock:
            return self._pool.machine.view()


def _at_exit() -> None:
    """Before the interpreter ends, all pools are shut down, and their threads are waited for."""
    global _is_exiting
    _is_exiting = True
    executors = list(_executors)
    for executor in executors:
        executor._pool.refuse(lambda: RuntimeError(_EXITED))
    for executor in executors:
        executor.shutdown(wait=True)


def _in_child() -> None:
    for executor in list(_executors):
        executor._pool.leave_to_parent()
    _executors.clear()


threading._register_atexit(_at_exit)  # type: ignore[attr-defined]
if hasattr(os, "register_at_fork"):
    os.register_at_fork(after_in_child=_in_child)
