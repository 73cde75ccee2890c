#!/usr/bin/env python3
"""Runs built tests with each of their allocations refused in turn.

    tools/fail_memory.py                    the tests of want of memory of test_pool
    tools/fail_memory.py PROGRAM TEST ..    these tests of a built program of tests, as out/test_pool_tests; none: all

The gate gives each test ample memory, and no allocator of a test's own reaches a running pool, whose calls take the
process's memory. So this is done by hand: `rt test` in the crate's folder builds its tests (`unproved.py --test` does so
without a proof), and a small library in front of the C library's `malloc` and its kin refuses the n-th request of the
process, for n from 1 on, until a run asks for fewer. A run ends well where it ends as with ample memory, or where the
test says that it is refused with 4. The status is 1 where a run ends otherwise, or has not ended in a minute.

What a test does about a refusal is its own: `docs/inside/CONTRIBUTING.md`, "Want of memory".
"""
import pathlib
import subprocess
import sys
import tempfile

ROOT = pathlib.Path(__file__).resolve().parent.parent
USUAL = {
    "test_pool": ["memory::ample_memory_succeeds", "want_of_memory_makes_no_worker"],
}
SECONDS = 60
# How the result of a test is told that ends with 4, its own or the library's.
REFUSALS = ("error: NoMemory", "error: AllocFailed")
REFUSAL = "says want of memory"
SHIM = r"""
#define _GNU_SOURCE
#include <errno.h>
#include <fcntl.h>
#include <stdatomic.h>
#include <stdlib.h>
#include <sys/mman.h>
extern void *__libc_malloc(size_t), *__libc_realloc(void *, size_t), *__libc_memalign(size_t, size_t);
// Counted in a file, since a process may end without a word.
static atomic_long *asked;
static long refused;
__attribute__((constructor)) static void begin(void) {
    const char *word = getenv("REFUSED_REQUEST"), *path = getenv("REQUESTS");
    refused = word ? atol(word) : 0;
    int file = path ? open(path, O_RDWR) : -1;
    void *at = mmap(0, sizeof *asked, PROT_READ | PROT_WRITE, MAP_SHARED, file, 0);
    if (at != MAP_FAILED) asked = at;
}
static int refuses(void) {
    if (!asked || ++*asked != refused) return 0;
    errno = ENOMEM;
    return 1;
}
// The program's own requests are these; the C library's for itself, as of a thread's stack, are not met.
void *malloc(size_t n) { return refuses() ? 0 : __libc_malloc(n); }
void *realloc(void *at, size_t n) { return refuses() ? 0 : __libc_realloc(at, n); }
int posix_memalign(void **at, size_t align, size_t n) {
    void *made = refuses() ? 0 : __libc_memalign(align, n);
    if (!made) return ENOMEM;
    *at = made;
    return 0;
}
"""


def listed(program):
    """The names of the program's tests."""
    said = subprocess.run([program, "--list"], capture_output=True, text=True, check=False).stdout
    return [name for name, is_test, _ in (line.partition(": test") for line in said.splitlines()) if is_test]


def run(program, test, shim, number):
    """How the test ends where this request is refused, and how many there were: its status, or that it says want of memory."""
    counted = pathlib.Path(shim).with_suffix(".count")
    counted.write_bytes(bytes(8))
    env = {"PATH": "/usr/bin:/bin", "LD_PRELOAD": shim, "REFUSED_REQUEST": str(number), "REQUESTS": str(counted)}
    try:
        ran = subprocess.run([program, test], env=env, capture_output=True, text=True, timeout=SECONDS, check=False)
        ending = REFUSAL if ran.returncode == 101 and any(word in ran.stdout + ran.stderr for word in REFUSALS) else ran.returncode
    except subprocess.TimeoutExpired:
        ending = "has not ended"
    return ending, int.from_bytes(counted.read_bytes(), sys.byteorder)


def tried(program, test, shim):
    """Whether each run of the test ends as it does with ample memory, or says want of memory."""
    wanted, many = run(program, test, shim, 0)
    print(f"{test}: {many} requests with ample memory, status {wanted}", flush=True)
    ended, bad, number = {wanted: 0, REFUSAL: 0}, [], 1
    while True:
        ending, asked = run(program, test, shim, number)
        if asked < number:
            break
        if ending in ended:
            ended[ending] += 1
        else:
            bad.append(f"request {number}: {ending}")
        number += 1
    print(f"{test}: {number - 1} refused; {ended[wanted]} runs ended so, {ended[REFUSAL]} with 4, {len(bad)} otherwise", *bad, sep="\n  ", flush=True)
    return not bad and wanted == 0


def main():
    with tempfile.TemporaryDirectory(prefix="fail-memory-") as room:
        source, shim = f"{room}/shim.c", f"{room}/shim.so"
        pathlib.Path(source).write_text(SHIM, encoding="utf-8")
        subprocess.run(["cc", "-O1", "-shared", "-fPIC", "-o", shim, source], check=True)
        if len(sys.argv) > 1:
            wanted = {sys.argv[1]: sys.argv[2:]}
        else:
            wanted = {str(ROOT / f"crates/{crate}/out/{crate}_tests"): tests for crate, tests in USUAL.items()}
        well = True
        for program, words in wanted.items():
            for test in [name for name in listed(program) if not words or any(name.endswith(word) for word in words)]:
                well = tried(program, test, shim) and well
    return 0 if well else 1


if __name__ == "__main__":
    sys.exit(main())
