#!/usr/bin/env python3
"""quick.py [--at-once N] [--all]: a quick check, which proves nothing: five minutes of four processors, ten of two.

It builds `test_model`, `test_program` and `test_structures` by `unproved.py`, N at a time, and plays all rows of their `data/`;
so it does with the tests of `test_pool`, which run real threads. With `--all` the tests of the other three crates come too, in
three builds more. It asks `check_links.py`, `check_english.py` (the sizes of the pages too) and `calls.py --check`. A line says
what begins, and what fails is printed. The last line is `N passed, M failed; nothing is proved`, and the status is 1 where
something failed. What was built of the same sources before is not built again.

N is a build for each processor where memory allows, four at most: a build takes up to 3 GB.
"""
import argparse
import concurrent.futures
import os
import pathlib
import re
import shutil
import subprocess
import sys
import tempfile

ROOT = pathlib.Path(__file__).resolve().parent.parent
ROWS = ["test_program", "test_model", "test_structures"]
PAGES = [["check_links.py"], ["check_english.py"], ["calls.py", "--check"]]
RUNNER = pathlib.Path(shutil.which("rt") or sys.exit("quick.py finds no rt on the PATH")).resolve().parent / "rattle-test"
SECONDS = 120


def at_once():
    """How many builds go side by side."""
    kilobytes = int(re.search(r"^MemAvailable: *(\d+)", pathlib.Path("/proc/meminfo").read_text(), re.M)[1])
    return max(1, min(len(os.sched_getaffinity(0)), kilobytes // 3_000_000, 4))


def as_nobody():
    """The words by which root runs a program without root's rights, as the gate does: a row may want a file that can't be read."""
    return ["setpriv", "--reuid=65534", "--regid=65534", "--clear-groups", "--no-new-privs"] if os.geteuid() == 0 else []


def say(text):
    """Prints a line whole, also where several threads print."""
    sys.stdout.write(f"{text}\n")
    sys.stdout.flush()


def rows_in(told):
    """How many rows were played, as a crate of rows prints them: a number and a file on each line."""
    return sum(map(int, re.findall(r"^ *(\d+) \S+\.txt$", told, re.M)))


def ran(words, **how):
    """The status of a command, and what it printed."""
    done = subprocess.run(words, stdin=subprocess.DEVNULL, stdout=subprocess.PIPE, stderr=subprocess.STDOUT, **how)
    return done.returncode, done.stdout.decode(errors="replace")


def copy_of(data, room):
    """A copy of a crate's data, in which nobody may write."""
    shutil.copytree(data, room, dirs_exist_ok=True)
    for path in [room, *room.rglob("*")]:
        path.chmod(0o777 if path.is_dir() else 0o666)


def plays_rows(crate, program):
    """How many rows were as their texts say, how many checks failed, and what was printed."""
    folder = ROOT / "crates" / crate
    wanted = (folder / "stdout").read_text()
    with tempfile.TemporaryDirectory() as room:
        copy_of(folder / "data", pathlib.Path(room))
        try:
            status, told = ran([*as_nobody(), program], cwd=room, timeout=SECONDS)
        except subprocess.TimeoutExpired:
            return 0, 1, f"{crate} had not ended after {SECONDS} seconds"
    if status == 0 and told == wanted:
        return rows_in(told), 0, told
    return rows_in(told), 1, f"{told}{rows_in(wanted) - rows_in(told) - 1} further rows of {crate} were not played\n"


def plays_tests(crate, program):
    """The same of tests."""
    status, told = ran([RUNNER, "--seconds", "60", program], cwd=ROOT)
    failed = len(re.findall(r" \.\.\. (?!ok$|ignored$)\S.*$", told, re.M))
    return len(re.findall(r" \.\.\. ok$", told, re.M)), max(failed, int(status != 0)), told


def built(crate, tests, folder):
    """Builds a crate and plays it."""
    what = f"{crate}, its {'tests' if tests else 'rows'}"
    say(f"building {what}")
    program = folder / f"{crate}{'_tests' * tests}"
    status, told = ran([sys.executable, ROOT / "tools/unproved.py", *["--test"] * tests, crate, program])
    if status:
        return what, 0, 1, told
    say(f"playing {what}")
    program.chmod(0o755)
    return what, *(plays_tests if tests else plays_rows)(crate, program)


def asked(words):
    """Asks a check of the pages."""
    say(f"asking {' '.join(words)}")
    status, told = ran([sys.executable, ROOT / "tools" / words[0], *words[1:]], cwd=ROOT)
    return " ".join(words), int(status == 0), int(status != 0), told


def main():
    parser = argparse.ArgumentParser(description=__doc__, formatter_class=argparse.RawDescriptionHelpFormatter)
    parser.add_argument("--at-once", type=int, default=at_once())
    parser.add_argument("--all", action="store_true")
    words = parser.parse_args()
    builds = [("test_program", False), ("test_pool", True), *((crate, False) for crate in ROWS[1:])]
    builds += [(crate, True) for crate in ROWS * words.all]
    passed = failed = 0
    with tempfile.TemporaryDirectory() as room, concurrent.futures.ThreadPoolExecutor(words.at_once) as pool:
        folder = pathlib.Path(room)
        folder.chmod(0o711)
        ends = [pool.submit(asked, page) for page in PAGES] + [pool.submit(built, *build, folder) for build in builds]
        for end in concurrent.futures.as_completed(ends):
            what, well, badly, told = end.result()
            passed, failed = passed + well, failed + badly
            say(f"{what}: {well} passed, {badly} failed" + (f"\n{told}" if badly else ""))
    say(f"{passed} passed, {failed} failed; nothing is proved")
    return int(failed > 0)


if __name__ == "__main__":
    sys.exit(main())
