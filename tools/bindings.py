#!/usr/bin/env python3
"""bindings.py [--libraries FOLDERS] [--runs N] [--rate] [STEP ..]: builds and tests the bindings for C, Rust, Python and Java over the static
library libtp_c.a, with the machine's own cc, cargo and python3, and says what it left out. `bindings.py package [LANGUAGE ..]` makes
packages of the library instead, in the folder `out`, each by its file of tools/packages, and `out/SHA256SUMS`.

The library is made by `rt lib` in crates/tp_c. FOLDERS, with a colon between, are where it and the kit's liblibc_c.a lie, if they are
elsewhere. A STEP is one of these; with none, all are made:

    statuses   the names and numbers of statuses are the same in the header, in the crates, and in each language
    c          the C test program: the rows, two lives of a machine, refusals, pointers that are NULL, texts at the limit
    sanitized  the same with the address and the undefined behaviour sanitizer, where the compiler has them
    threads    four threads on one machine under a mutex, with the thread sanitizer, where the compiler has it
    abuse      what a C program does wrong and the library can tell: a second close, a call after it, memory that holds no machine;
               with the sanitizers what they tell
    leaks      the first under valgrind, where it is there; the address sanitizer looks for leaks too
    rust       cargo test --release: the rows, endings, N random runs (10,000), the pool under stress with each record judged
    python     the rows, endings, machines and executors
    futures    CPython's own tests of ThreadPoolExecutor, where they are there: the folder that PYTHON_TESTS names, which holds
               test_concurrent_futures of the python3 that runs (Debian: libpython3.11-testsuite)
    java       the cases of the pages of ThreadPoolExecutor, against the JDK's pool and ours, where there is a JDK

The rows are those of bindings/rows, and those of test_model and test_program, taken from their texts where bindings/rows has no such
text. With --rate the Rust pool's rate is printed beside that of a textbook's pool. The exit status is 0 where nothing failed.
"""

import argparse
import glob
import hashlib
import importlib
import os
import re
import shutil
import subprocess
import sys
import tempfile

sys.dont_write_bytecode = True
from packages import BINDINGS, ROOT, LeftOut, Parts, java, libraries, needs, python, run, statuses, version

STEPS = ["statuses", "c", "sanitized", "threads", "abuse", "leaks", "rust", "python", "futures", "java"]
LANGUAGES = sorted(os.path.basename(path)[:-3] for path in glob.glob(os.path.join(ROOT, "tools", "packages", "*.py")) if "package(" in open(path).read() and "__init__" not in path)
ARCHIVES = ("libtp_c.a", "liblibc_c.a")
FLAGS = ["-std=gnu11", "-O1", "-g", "-Wall", "-Wextra", "-I", os.path.join(BINDINGS, "include")]


# A constant text of a source, and the escapes in it.
CONSTANT = re.compile(r'(?:const|static) (\w+): &(?:\[u8\]|str) =\s*b?"((?:[^"\\]|\\.)*)";', re.S)
ESCAPE = re.compile(r"\\(\n\s*|.)", re.S)


def texts(files):
    """The texts of some files of the crates."""
    return [open(path).read() for path in sorted(glob.glob(os.path.join(ROOT, "crates", files), recursive=True))]


def rows(files):
    """The rows of some files of rows, each from its title on."""
    return [row for text in texts(files) for row in text.split("\n== ")[1:]]


def constants(sources):
    """The constant texts of a crate's sources, by name."""
    plain = lambda text: ESCAPE.sub(lambda found: {"n": "\n", '"': '"', "\\": "\\"}.get(found[1], ""), text)
    return {name: plain(text) for source in texts(sources) for name, text in CONSTANT.findall(source)}


def titled_rows():
    """The scenarios and records of test_model, each with its title or its constant's name. A play of the machine has no empty line."""
    for row in rows("test_model/data/*.txt"):
        yield row.split("\n", 1)
    yield from constants("test_model/src/known.rt").items()


def transcripts(name):
    """The calls of a file of transcripts of test_program: the row's text, the command line, and the output."""
    marked = lambda lines, mark: "".join(line[len(mark) + 1:] + "\n" for line in lines.split("\n") if line.startswith(f"{mark} "))
    for row in rows(f"test_program/data/{name}"):
        head, *calls = re.split(r"\n\$ ", row)
        for call in calls:
            yield marked(head, "<"), call.split("\n", 1)[0], marked(call, ">")


def worked_rows():
    """The worked rows of the crates of tests: a file's name for each, its text, and what is answered."""
    for title, row in titled_rows():
        text, _, answer = row.partition("\n\n")
        if answer:
            name = re.sub(r"\W+|_", "-", title.lower())[:48].strip("-")
            yield f"{'steps' if text.startswith('pool') else 'audit'}-{name}", f"{text}\n", answer
    for number, (text, line, given) in enumerate(transcripts("interleavings.txt")):
        yield f"explore-{number}", text, given.removeprefix("..., ")
    for number, (text, line, given) in enumerate(transcripts("told.txt")):
        if (at := re.match(r"now --at (\d+) ", line)) and given and "..." not in given:
            yield f"now-{at[1]}-{number}", text, given


class Steps:
    def __init__(self, folders, folder, said):
        self.archives = archives_of(folders)
        self.folders, self.folder, self.said = folders, folder, said
        self.rows = os.path.join(folder, "rows")
        shutil.copytree(os.path.join(BINDINGS, "rows"), self.rows)
        kept = {open(path).read() for path in glob.glob(os.path.join(self.rows, "*.in"))}
        for name, text, answer in (row for row in worked_rows() if row[1] not in kept):
            for end, content in (("in", text), ("out", answer)):
                with open(os.path.join(self.rows, f"{name}.{end}"), "w") as file:
                    file.write(content)

    def c_program(self, name, *flags, source="test_core.c"):
        needs("cc")
        program = os.path.join(self.folder, name)
        source = os.path.join(BINDINGS, "c", source)
        if not run(["cc", *FLAGS, *flags, source, *self.archives, "-o", program]):
            raise LeftOut(f"the compiler does not take {' '.join(flags)}") if flags else AssertionError("the C program does not compile")
        return program

    def c(self):
        return run([self.c_program("test_core"), self.rows])

    def sanitized(self):
        # The library's own code is not instrumented: what is looked at is the C program, and the memory that the library takes and frees.
        program = self.c_program("test_sanitized", "-fsanitize=address,undefined", "-fno-sanitize-recover=all")
        env = {**os.environ, "ASAN_OPTIONS": "detect_leaks=1"}
        return run([program, self.rows], env=env)

    def threads(self):
        return run([self.c_program("test_threads", "-fsanitize=thread", "-pthread", source="test_threads.c")])

    def leaks(self):
        needs("valgrind")
        return run(["valgrind", "--quiet", "--leak-check=full", "--error-exitcode=9", self.c_program("test_leaks"), self.rows])

    def cargo(self, *words):
        needs("cargo")
        folder = os.path.join(BINDINGS, "rust")
        env = {**os.environ, "ZELLUNKAY_LIBS": ":".join(self.folders), "CARGO_TARGET_DIR": os.path.join(self.folder, "target"),
               "ZELLUNKAY_ROWS": self.rows, "ZELLUNKAY_RUNS": str(self.said.runs)}
        return run(["cargo", *words], cwd=folder, env=env)

    def rust(self):
        done = self.cargo("test", "--release", "--offline")
        return done and (not self.said.rate or self.cargo("run", "--release", "--offline", "--example", "pool_rate"))

    def statuses(self):
        return statuses.are_one()

    def abuse(self):
        plain = run([self.c_program("test_abuse", "-Wno-use-after-free", source="test_abuse.c"), self.rows])
        program = self.c_program("test_abuse_sanitized", "-fsanitize=address,undefined", "-fno-sanitize-recover=all", "-Wno-use-after-free", source="test_abuse.c")
        # What the library told by a mark, a sanitizer tells by an end of the program.
        caught = subprocess.run([program, self.rows, "closed"], stderr=subprocess.PIPE, text=True)
        return plain and run([program, self.rows, "open"]) and "heap-use-after-free" in caught.stderr

    def shared(self):
        """libzellunkay.so, for ctypes."""
        needs("cc")
        python.shared(self.archives, self.folder, version().split(".")[0])
        return {**os.environ, "ZELLUNKAY_LIBRARY": self.folder, "ZELLUNKAY_ROWS": self.rows, "PYTHONPATH": os.path.join(BINDINGS, "python"), "PYTHONDONTWRITEBYTECODE": "1"}

    def python(self):
        return run([sys.executable, "-m", "unittest", "discover", "-s", os.path.join(BINDINGS, "python", "tests")], env=self.shared())

    def futures(self):
        tests = os.environ.get("PYTHON_TESTS", "")
        if not glob.glob(os.path.join(tests, "test_concurrent_futures*")):
            raise LeftOut("PYTHON_TESTS names no folder with test_concurrent_futures")
        program = os.path.join(BINDINGS, "python", "cpython_tests.py")
        return run([sys.executable, program, tests], env=self.shared())

    def java(self):
        return java.tested(self.archives, self.folder)


def packed(folders, languages):
    """Makes these languages' packages in `out`, and tells how each ended."""
    out = os.path.join(ROOT, "out")
    os.makedirs(out, exist_ok=True)
    archives, ends, made = archives_of(folders), {}, []
    with tempfile.TemporaryDirectory() as folder:
        number = version()
        shared = libraries.shared(archives, folder, number.split(".")[0])
        parts = Parts(number, archives, shared, libraries.static(archives, folder))
        for name in languages:
            try:
                made += importlib.import_module(f"packages.{name}").package(out, parts)
                ends[name] = "made"
            except LeftOut as why:
                ends[name] = f"left out: {why}"
            except AssertionError as why:
                ends[name] = f"FAILED: {why}"
    with open(os.path.join(out, "SHA256SUMS"), "w") as file:
        for path in sorted(made):
            file.write(f"{hashlib.sha256(open(path, 'rb').read()).hexdigest()}  {os.path.relpath(path, out)}\n")
    return ends


def archives_of(folders):
    lacking = [name for name in ARCHIVES if not any(os.path.exists(f"{at}/{name}") for at in folders)]
    if lacking:
        sys.exit(f"no {' and no '.join(lacking)} in {':'.join(folders)}: run `rt lib` in crates/tp_c, and name the kit's folder c")
    return [next(path for at in folders if os.path.exists(path := os.path.join(at, name))) for name in ARCHIVES]


def tested(folders, said):
    """Makes the steps, and tells how each ended."""
    ends = {}
    with tempfile.TemporaryDirectory() as folder:
        steps = Steps(folders, folder, said)
        for name in said.steps or STEPS:
            try:
                ends[name] = "passed" if getattr(steps, name)() else "FAILED"
            except LeftOut as why:
                ends[name] = f"left out: {why}"
            except AssertionError as why:
                ends[name] = f"FAILED: {why}"
    return ends


def main():
    parser = argparse.ArgumentParser(description=__doc__, formatter_class=argparse.RawDescriptionHelpFormatter)
    parser.add_argument("--libraries", default=f"{ROOT}/crates/tp_c/out:/opt/rattle/c")
    parser.add_argument("--runs", type=int, default=10_000)
    parser.add_argument("--rate", action="store_true")
    parser.add_argument("steps", nargs="*", metavar="STEP")
    said = parser.parse_args()
    packs = said.steps[:1] == ["package"]
    if unknown := set(said.steps[packs:]) - set(LANGUAGES if packs else STEPS):
        parser.error(f"{', '.join(sorted(unknown))}: {'the packages' if packs else 'the steps'} are {', '.join(LANGUAGES if packs else STEPS)}")
    folders = [os.path.abspath(at) for at in said.libraries.split(":")]
    ends = packed(folders, said.steps[1:] or LANGUAGES) if packs else tested(folders, said)
    for name, end in ends.items():
        print(f"{name}: {end}")
    sys.exit(any(end.startswith("FAILED") for end in ends.values()))


main()
