"""Executors: records, cancelled futures, many threads; and what interrupts, breaks or forks one."""

import gc
import os
import subprocess
import sys
import threading
import time
import unittest
from concurrent import futures

from zellunkay import Executor, Refused, audit


class Executors(unittest.TestCase):
    def test_record_is_legal(self):
        with Executor(4, limit=100_000) as executor:
            self.assertEqual(sum(executor.map(lambda n: n * n, range(300))), sum(n * n for n in range(300)))
            failed = executor.submit(lambda: 1 / 0)
            self.assertIsInstance(failed.exception(), ZeroDivisionError)
        told = executor.audit()
        self.assertEqual(told.status, 0, told.output)
        self.assertIn(b"state terminated\ncounts submitted=301 run=301", told.output)

    def test_cancelled_futures(self):
        go = threading.Event()
        executor = Executor(1, limit=1000)
        first = executor.submit(go.wait)
        others = [executor.submit(int) for _ in range(3)]
        self.assertTrue(others[0].cancel())
        executor.shutdown(wait=False, cancel_futures=True)
        self.assertTrue(all(future.cancelled() for future in others))
        go.set()
        executor.shutdown()
        self.assertTrue(first.result())
        told = executor.audit()
        self.assertEqual(told.status, 0)
        self.assertIn(b"submitted=4 run=1 caller=0 rejected=0 discarded=0 handedback=2 removed=0 cancelled=1", told.output)
        with self.assertRaises(RuntimeError):
            executor.submit(int)

    def test_many_threads_submit(self):
        with Executor(3) as executor:
            done = []

            def submit():
                done.extend(executor.submit(lambda: 1) for _ in range(200))

            threads = [threading.Thread(target=submit) for _ in range(4)]
            for thread in threads:
                thread.start()
            for thread in threads:
                thread.join()
            self.assertEqual(sum(future.result() for future in futures.as_completed(done)), 800)

    def test_tasks_submit_tasks(self):
        with Executor(4, limit=100_000) as executor:

            def spread(depth):
                return [executor.submit(spread, depth - 1) for _ in range(3)] if depth else []

            ends = [executor.submit(spread, 5)]
            for future in ends:
                ends.extend(future.result())
        self.assertEqual(len(ends), sum(3**n for n in range(6)))
        self.assertIn(b"submitted=364 run=364", executor.audit().output)

    def test_a_callback_waits_for_the_next_task(self):
        # A worker tells a future before it takes its next task: else that one would wait for the callback, and the callback for it.
        with Executor(2) as executor:
            go, waited = threading.Event(), []
            first, second = executor.submit(go.wait), executor.submit(go.wait)
            third = executor.submit(int)
            first.add_done_callback(lambda _: waited.append(third.result(10)))
            go.set()
        self.assertEqual(waited, [0])

    def test_a_full_record_is_told(self):
        executor, done = Executor(1, limit=64), []
        with self.assertRaises(Refused) as refused:
            while True:
                done.append(executor.submit(int))
        self.assertEqual(refused.exception.number, 5)
        executor.shutdown()
        self.assertTrue(done and all(future.result() == 0 for future in done))
        self.assertEqual(executor.audit().status, 0)

    def test_settings_that_are_refused(self):
        for workers in (0, -1, 1025):
            self.assertRaises(ValueError, Executor, workers)
        self.assertRaises(TypeError, Executor, 1, initializer=1)
        for limit in (0, 1, 2**20 + 1):
            with self.assertRaises(Refused) as refused:
                Executor(1, limit=limit)
            self.assertEqual(refused.exception.number, 3)
        self.assertRaises(RuntimeError, Executor(1).record)

    def test_a_callback_may_raise_what_it_wants(self):
        with Executor(1) as executor:
            go = threading.Event()
            first = executor.submit(go.wait)
            first.add_done_callback(lambda _: sys.exit(3))
            with self.assertLogs("concurrent.futures", "CRITICAL"):
                go.set()
                self.assertEqual(executor.submit(int).result(), 0)

    def test_an_initializer_fails(self):
        go, started = threading.Event(), []

        def initialize():
            started.append(1)
            if len(started) == 2:
                raise ValueError

        executor = Executor(2, initializer=initialize, limit=1000)
        running = executor.submit(go.wait)
        while not running.running():
            time.sleep(0.001)
        with self.assertLogs("concurrent.futures", "CRITICAL"):
            failed = []
            with self.assertRaises(futures.BrokenExecutor):
                while True:
                    failed.append(executor.submit(int))
                    time.sleep(0.001)
            for future in failed:
                self.assertRaises(futures.BrokenExecutor, future.result, 10)
        go.set()
        executor.shutdown()
        self.assertTrue(running.result())
        self.assertIn(b"state terminated", executor.audit().output)

    def test_no_thread_can_be_made(self):
        class Thread(threading.Thread):
            def start(self):
                raise RuntimeError("can't start new thread")

        executor, thread = Executor(2, limit=1000), threading.Thread
        try:
            threading.Thread = Thread
            with self.assertRaisesRegex(RuntimeError, "can't start new thread"):
                executor.submit(int)
        finally:
            threading.Thread = thread
        self.assertEqual(executor.submit(int).result(), 0)
        executor.shutdown()
        self.assertIn(b"state terminated\ncounts submitted=2 run=1 caller=0 rejected=0 discarded=0 handedback=0 removed=1", executor.audit().output)

    def test_an_executor_that_is_let_go_ends(self):
        executor = Executor(2)
        done = [executor.submit(time.sleep, 0.01) for _ in range(5)]
        threads = executor._threads
        del executor
        gc.collect()
        for thread in threads:
            thread.join(10)
            self.assertFalse(thread.is_alive())
        self.assertTrue(all(future.done() for future in done))

    @unittest.skipUnless(hasattr(os, "fork"), "there is no fork")
    def test_fork(self):
        with Executor(2) as executor:
            go = threading.Event()
            running, waiting = executor.submit(go.wait), executor.submit(go.wait)
            queued = executor.submit(int)
            child = os.fork()
            if child == 0:
                refused = 0
                for call in (lambda: executor.submit(int), executor.view, executor.record):
                    try:
                        call()
                    except RuntimeError:
                        refused += 1
                executor.shutdown()
                with Executor(1) as own:
                    os._exit(refused + own.submit(int).result() + queued.cancel())
            self.assertEqual(os.waitstatus_to_exitcode(os.waitpid(child, 0)[1]), 4)
            go.set()
            self.assertEqual((running.result(), waiting.result(), queued.result()), (True, True, 0))


class Interrupted(Exception):
    """What stands for a KeyboardInterrupt."""


class Interrupts(unittest.TestCase):
    """An exception comes at each line, and behind each call of a builtin, of a submission: as a signal's handler raises it."""

    where = ""

    def interrupted(self, executor, at):
        """Submits, with the exception at this moment. Whether it came."""
        left = at

        def strike(frame, event, argument):
            nonlocal left
            # No signal is handled as a `try` begins, nor between the last line of a `with` and the end of it, where the line is that of
            # the `with` again.
            is_whole = lines.get(frame.f_lineno, "").lstrip().startswith(("with ", "try:"))
            if frame.f_code.co_filename == source and (event == "c_return" or event in ("call", "line") and not is_whole):
                left -= 1
                if left < 0:
                    sys.settrace(None)
                    sys.setprofile(None)
                    self.where = f"{frame.f_lineno} {event}"
                    raise Interrupted
            return strike

        def profiled(frame, event, argument):
            if event == "c_return":
                strike(frame, event, argument)

        source = sys.modules["zellunkay.executor"].__file__
        with open(source) as file:
            lines = dict(enumerate(file, 1))
        sys.settrace(strike)
        sys.setprofile(profiled)
        try:
            executor.submit(int)
        except Interrupted:
            return True
        finally:
            sys.settrace(None)
            sys.setprofile(None)
        return False

    def struck(self, workers, is_quiet, at):
        """Whether the exception came at this moment of a pool's submission, which is to leave no trace: its threads sleep or run."""
        executor, go = Executor(workers, limit=1000), threading.Event()
        before = [executor.submit(go.wait) for _ in range(workers - 1)] if workers > 1 else [executor.submit(int)]
        if is_quiet:
            go.set()
            futures.wait(before)
            while executor.view().completed < len(before):
                time.sleep(0)
            time.sleep(0.001)
        came = self.interrupted(executor, at)
        self.assertFalse(executor._pool.lock._is_owned(), self.where)
        later = executor.submit(lambda: 5)
        go.set()
        self.assertEqual(later.result(10), 5)
        executor.shutdown()
        told = executor.audit()
        self.assertIn(b"state terminated\n", told.output)
        counts = dict(word.split(b"=") for word in told.output.split() if b"=" in word)
        self.assertEqual((told.status, counts[b"submitted"]), (0, counts[b"run"]))
        return came

    def test_each_moment(self):
        # Below the core size a thread is made; at it, a task is queued, and a worker that sleeps is woken.
        for workers, is_quiet in ((2, False), (2, True), (1, True), (1, False)):
            with self.subTest(workers=workers, is_quiet=is_quiet):
                at = 0
                while self.struck(workers, is_quiet, at):
                    at += 1
                self.assertGreater(at, 10)

    def test_a_program_that_is_interrupted(self):
        program = """
import signal, sys, threading
from zellunkay import Executor
sys.setswitchinterval(1e-5)
executor, done, interrupts, is_armed = Executor(3, limit=1_000_000), [], 0, False
def handle(number, frame):
    global is_armed
    if is_armed:
        is_armed = False
        raise KeyboardInterrupt
def submit():
    global is_armed
    is_armed = True
    while len(done) < 4000:
        done.append(executor.submit(int))
    is_armed = False
signal.signal(signal.SIGALRM, handle)
signal.setitimer(signal.ITIMER_REAL, 0.002, 0.0007)
while len(done) < 4000:
    try:
        submit()
    except KeyboardInterrupt:
        interrupts += 1
signal.setitimer(signal.ITIMER_REAL, 0)
executor.shutdown()
assert all(future.result() == 0 for future in done)
told = executor.audit()
assert told.status == 0 and b"state terminated" in told.output, told
view = executor.view()
assert view.submitted == view.run >= 4000, view
print(interrupts)
"""
        told = subprocess.run([sys.executable, "-c", program], capture_output=True, text=True, timeout=120)
        self.assertEqual((told.returncode, told.stderr), (0, ""))
        self.assertGreater(int(told.stdout), 0)

    def test_a_handler_in_the_midst(self):
        """A signal's handler may cancel, look and shut down; a submission is refused there, and not hung."""
        program = """
import signal, sys
from zellunkay import Executor
executor, told = Executor(2, limit=1_000_000), set()
def handle(number, frame):
    executor.view()
    future = None
    try:
        future = executor.submit(int)
        told.add("submitted")
        future.cancel()
    except RuntimeError as error:
        told.add(str(error)[:8])
signal.signal(signal.SIGALRM, handle)
signal.setitimer(signal.ITIMER_REAL, 0.001, 0.0005)
done = [executor.submit(int) for _ in range(3000)]
signal.setitimer(signal.ITIMER_REAL, 0)
executor.shutdown()
assert all(future.result() == 0 for future in done)
assert executor.audit().status == 0
assert told <= {"submitted", "a signal"}, told
print(len(told))
"""
        told = subprocess.run([sys.executable, "-c", program], capture_output=True, text=True, timeout=120)
        self.assertEqual((told.returncode, told.stderr), (0, ""))


class Ends(unittest.TestCase):
    """What becomes of queued work when a program ends."""

    def ended(self, program):
        told = subprocess.run([sys.executable, "-c", program], capture_output=True, text=True, timeout=60)
        return told.returncode, told.stdout, told.stderr

    def test_queued_work_is_done(self):
        program = """
import sys
from zellunkay import Executor
executor = Executor(1)
for n in range(1000):
    executor.submit(lambda n=n: sys.stdout.write("." if n < 999 else "end"))
"""
        self.assertEqual(self.ended(program), (0, "." * 999 + "end", ""))

    def test_an_error_ends_it_too(self):
        code, out, err = self.ended("from zellunkay import Executor\nExecutor(1).submit(print, 1)\n1 / 0")
        self.assertEqual((code, out), (1, "1\n"))
        self.assertIn("ZeroDivisionError", err)

    def test_a_machine_in_a_module_ends(self):
        self.assertEqual(self.ended("import zellunkay\nm = zellunkay.Machine('pool 1 1 unbounded keep 0 abort')\nm.m = m"), (0, "", ""))

    def test_submissions_behind_the_end_are_refused(self):
        program = """
import time
from zellunkay import Executor
executor = Executor(1)
def late():
    time.sleep(0.3)
    try:
        executor.submit(int)
    except RuntimeError as error:
        print(error)
executor.submit(late)
"""
        self.assertEqual(self.ended(program), (0, "cannot schedule new futures after interpreter shutdown\n", ""))


if __name__ == "__main__":
    unittest.main()
