#!/usr/bin/env python3
"""cpython_tests.py FOLDER: runs CPython's own tests of ThreadPoolExecutor against the executor of the package that is imported. FOLDER has
test_concurrent_futures.py, or the folder test_concurrent_futures, of the python3 that runs. Tests that the executor is known to fail are
named below, each with the reason: they are run too, and it is told where one of them passes. The exit status is 0 where the others pass.
"""

import importlib
import os
import pkgutil
import sys
import unittest

# Each with why it fails.
KNOWN = {
    "ThreadPoolExecutorTest.test_idle_thread_reuse":
        "below the core size the model makes a worker for each task, also where another is idle, as Java's pool does",
}

# What a program of its own, which some tests start, does first: there too, the executor is that of this package.
PRELUDE = """
import os, sys
sys.path[:0] = {path!r}
os.environ["ZELLUNKAY_LIBRARY"] = {library!r}
import test
test.__path__.insert(0, {folder!r})
import concurrent.futures, zellunkay
concurrent.futures.ThreadPoolExecutor = zellunkay.Executor
"""


def load(folder):
    """The modules of the tests, and the one that has what all of them need."""
    import test

    test.__path__.insert(0, folder)
    tests = importlib.import_module("test.test_concurrent_futures")
    if not hasattr(tests, "__path__"):
        return [tests], tests
    names = [found.name for found in pkgutil.iter_modules(tests.__path__) if found.name.startswith("test_")]
    modules = [importlib.import_module(f"{tests.__name__}.{name}") for name in names]
    return modules, importlib.import_module(f"{tests.__name__}.util")


def programs_of(module, prelude):
    """Has a module's tests start their programs with the prelude."""
    if hasattr(module, "assert_python_ok"):
        start = module.assert_python_ok
        module.assert_python_ok = lambda flag, code, *rest: start(flag, prelude + code, *rest)


def main():
    import zellunkay

    folder = os.path.abspath(sys.argv[1])
    modules, common = load(folder)

    class ThreadPoolExecutor(zellunkay.Executor):
        """Under the name by which tests import it in programs of their own."""

    common.ThreadPoolMixin.executor_type = ThreadPoolExecutor
    common.futures.ThreadPoolExecutor = ThreadPoolExecutor
    here = os.path.dirname(os.path.dirname(os.path.abspath(zellunkay.__file__)))
    prelude = PRELUDE.format(path=[here], library=os.environ.get("ZELLUNKAY_LIBRARY", ""), folder=folder)
    suite, loader = unittest.TestSuite(), unittest.TestLoader()
    for module in modules:
        programs_of(module, prelude)
        for name, found in sorted(vars(module).items()):
            if isinstance(found, type) and issubclass(found, unittest.TestCase) and name.startswith("ThreadPool"):
                suite.addTests(loader.loadTestsFromTestCase(found))
    result = unittest.TextTestRunner(verbosity=1).run(suite)
    failed = {".".join(test.id().split(".")[-2:]) for test, _ in result.failures + result.errors}
    for name in sorted(failed):
        print(f"{name}: {KNOWN.get(name, 'NOT KNOWN')}")
    for name in sorted(set(KNOWN) - failed):
        print(f"{name}: is named as one that fails, and passed")
    print(f"{sys.version.split()[0]}: {result.testsRun} tests of CPython, {len(failed)} failed, {len(result.skipped)} skipped")
    sys.exit(bool(failed - set(KNOWN)))


if __name__ == "__main__":
    main()
