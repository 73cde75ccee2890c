"""Machines: a life, refusals, and what a program may do wrong with one."""

import copy
import ctypes
import os
import pickle
import re
import sys
import threading
import unittest

import zellunkay
from zellunkay import Ask, Fate, Kind, Machine, Place, Recorder, Refused, Verdict, What, audit, explore, now
from zellunkay import core

LINE = "pool 1 1 unbounded keep 0 abort"
# The folder of bindings, from which a package's tests may be elsewhere.
HEADER = os.path.join(os.path.dirname(os.path.abspath(__file__)), "..", "..", "include", "zellunkay.h")


class Lives(unittest.TestCase):
    def test_life(self):
        with Machine(LINE) as machine:
            answer = machine.step(1, Ask.SUBMIT, Kind.FUTURE)
            self.assertEqual((answer.what, answer.task, answer.slot, answer.left), (What.RESERVE, 0, 0, False))
            self.assertEqual(machine.step(1, Ask.OPEN, 0).what, What.LIVE)
            self.assertEqual(machine.step(2, Ask.TAKE, 0).what, What.HELD)
            self.assertEqual(machine.task(0), (Place.TAKEN, 0, None))
            answer = machine.step(2, Ask.BEGIN, 0)
            self.assertEqual((answer.what, answer.task, answer.left), (What.RUN, 0, True))
            self.assertEqual(machine.step(2, Ask.END, 0, 0, -7).what, What.ENDED)
            self.assertEqual(machine.task(0), (Place.GONE, None, Fate.RUN))
            self.assertEqual((machine.view().submitted, machine.view().run, machine.view().steps), (1, 1, 5))
            self.assertEqual(audit(machine.record()).status, 0)
            with self.assertRaises(Refused) as refused:
                machine.step(2, Ask.BEGIN, 0)
            self.assertEqual(refused.exception.number, 8)

    def test_refusals(self):
        for line, number in (("pool", 23), ("pool 2 1 unbounded keep 0 abort", 1)):
            with self.assertRaises(Refused) as refused:
                Machine(line)
            self.assertEqual(refused.exception.number, number)
        machine = Machine(LINE, Recorder.TALLY)
        with self.assertRaises(Refused) as refused:
            machine.record()
        self.assertEqual(refused.exception.number, 34)

    def test_a_refusal_travels(self):
        for copied in (copy.copy, lambda error: pickle.loads(pickle.dumps(error))):
            refused = copied(Refused(5))
            self.assertEqual((type(refused), refused.number), (Refused, 5))
            self.assertIn("refused 5 BookFull: ", str(refused))


class Misuse(unittest.TestCase):
    def test_closed(self):
        machine = Machine(LINE)
        machine.close()
        machine.close()
        calls = [machine.view, machine.record, machine.handed, lambda: machine.step(0, Ask.PRESTART), lambda: machine.task(0), lambda: machine.release(0)]
        for call in calls:
            self.assertRaises(ValueError, call)

    def test_numbers_that_do_not_fit(self):
        machine = Machine(LINE)
        steps = [(2**32, Ask.PRESTART), (-1, Ask.PRESTART), (0, 2**32 + 1), (0, Ask.CORE, 2**64), (0, Ask.CORE, -1),
                 (0, Ask.SUBMIT, 2, 2**64), (0, Ask.SUBMIT, 1, 0, 2**63), (0, Ask.SUBMIT, 1, 0, -(2**63) - 1)]
        for numbers in steps:
            with self.subTest(numbers):
                self.assertRaises(OverflowError, machine.step, *numbers)
        for call in (machine.task, machine.release):
            for task in (2**32, -1):
                self.assertRaises(OverflowError, call, task)
        self.assertRaises(OverflowError, now, b"", -1)
        self.assertRaises(OverflowError, now, b"", 2**64)
        self.assertRaises(OverflowError, explore, b"", -1)
        self.assertRaises(TypeError, machine.step, 0, Ask.CORE, 1.0)
        self.assertRaises(TypeError, audit, "a text")
        self.assertRaises(OverflowError, Machine, LINE, 2**32)
        self.assertEqual(machine.view().steps, 0)

    def test_threads_share_a_machine(self):
        machine, faults = Machine("pool 4 4 unbounded keep 0 abort limit 1048576"), []

        def submit():
            try:
                for _ in range(5000):
                    task = machine.step(1, Ask.SUBMIT, Kind.PLAIN).task
                    machine.view()
                    machine.task(task)
            except BaseException as error:
                faults.append(error)

        threads = [threading.Thread(target=submit) for _ in range(4)]
        interval = sys.getswitchinterval()
        sys.setswitchinterval(1e-6)
        try:
            for thread in threads:
                thread.start()
            for thread in threads:
                thread.join()
        finally:
            sys.setswitchinterval(interval)
        self.assertEqual(faults, [])
        self.assertEqual(machine.view().submitted, 20_000)

    def test_a_machine_is_closed_while_threads_use_it(self):
        for _ in range(50):
            machine, others = Machine(LINE, Recorder.TALLY), []

            def use():
                try:
                    while True:
                        machine.view()
                except ValueError:
                    others.append(1)

            threads = [threading.Thread(target=use) for _ in range(3)]
            for thread in threads:
                thread.start()
            machine.close()
            for thread in threads:
                thread.join()
            self.assertEqual(len(others), 3)

    def test_a_finalizer_raises_nothing(self):
        raised, hook = [], sys.unraisablehook
        sys.unraisablehook = raised.append
        try:
            for arguments in ((5,), ("pool",), (LINE, 7), (LINE, "full"), ()):
                with self.assertRaises((AttributeError, Refused, TypeError)):
                    Machine(*arguments)
            Machine.__new__(Machine)
        finally:
            sys.unraisablehook = hook
        self.assertEqual(raised, [])

    @unittest.skipUnless(hasattr(os, "fork"), "there is no fork")
    def test_a_forked_child_is_refused(self):
        machine = Machine(LINE)
        child = os.fork()
        if child == 0:
            try:
                machine.view()
            except RuntimeError:
                machine.close()
                os._exit(7)
            os._exit(1)
        self.assertEqual(os.waitstatus_to_exitcode(os.waitpid(child, 0)[1]), 7)
        self.assertEqual(machine.view().steps, 0)


class Numbers(unittest.TestCase):
    """The header has the numbers, and this package has them again."""

    @unittest.skipUnless(os.path.exists(HEADER), "the header is not here")
    def test_numbers_are_those_of_the_header(self):
        with open(HEADER) as file:
            header = file.read()
        block = lambda name: re.search(rf"enum zk_{name} {{(.*?)}};", header, re.S)[1]
        of = lambda name, prefix: {word: int(number) for word, number in re.findall(rf"\bZK_{prefix}(\w+) = (\d+)", block(name))}
        for name, prefix, enum in (("ask", "", Ask), ("kind", "", Kind), ("verdict", "", Verdict), ("what", "A_", What), ("place", "", Place)):
            with self.subTest(name):
                self.assertEqual(of(name, prefix), {member.name: member.value for member in enum})
        self.assertEqual(of("fate", ""), {"NO_FATE": 0, **{member.name: member.value for member in Fate}})
        self.assertEqual(of("recorder", ""), {"FULL_RECORD": 0, "TALLY": 1})
        rows = {int(number): name.replace("_", "").lower() for name, number in re.findall(r"row\((\w+), (\d+), \"", header)}
        self.assertEqual({0: "done", **{number: name.lower() for number, name in core.NAMES.items()}}, rows)
        self.assertIn(f"#define ZK_VERSION {core.VERSION} ", header)

    @unittest.skipUnless(os.path.exists(HEADER), "the header is not here")
    def test_structs_are_those_of_the_header(self):
        with open(HEADER) as file:
            text = re.sub(r"/\*.*?\*/", "", file.read(), flags=re.S)
        kinds = {"uint32_t": ctypes.c_uint32, "uint64_t": ctypes.c_uint64}
        # Behind an answer there is what is asked next (bindings/c/paths.c).
        structs = (("answer", core.RawAnswer._fields_[:-1]), ("pool_view", core.RawPoolView._fields_), ("task_view", core.RawTaskView._fields_))
        for name, ours in structs:
            with self.subTest(name):
                body = re.search(rf"typedef struct zk_{name} {{(.*?)}} zk_{name};", text, re.S)[1]
                fields = [(word, kinds[kind]) for kind, words in re.findall(r"(\w+) ([^;]*);", body) for word in words.split(", ")]
                self.assertEqual(ours, fields)
        self.assertEqual([ctypes.sizeof(struct) for struct in (core.RawAnswer, core.RawEntered, core.RawTurned)], [32, 96, 96])

    def test_names(self):
        self.assertEqual([name for name in zellunkay.__all__ if not hasattr(zellunkay, name)], [])


if __name__ == "__main__":
    unittest.main()
