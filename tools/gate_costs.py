#!/usr/bin/env python3
"""Runs the gate and prints what it cost, crate by crate, in processor seconds: proof, tests, wrong bodies.

    tools/gate_costs.py                 runs `rt ci` here, from the top of the repository
    tools/gate_costs.py COMMAND WORD..  runs another command, as `taskset -c 0,1 rt ci`

What the command prints goes through; the table comes on standard error at its end, as rows of Markdown, the dearest crate
first. The script reads the processor time of each check twice a second, so up to half a second of each is missed; the last
row has the whole run's, as the system counted it. The status is the command's.
"""
import collections
import os
import resource
import subprocess
import sys
import time

TICKS = os.sysconf("SC_CLK_TCK")
KINDS = ("proof", "tests", "wrong bodies", "other")


def processes():
    """Each process: its number, its parent's, the moment of its start, and its processor seconds."""
    for pid in filter(str.isdigit, os.listdir("/proc")):
        try:
            with open(f"/proc/{pid}/stat", encoding="utf-8", errors="replace") as it:
                fields = it.read().rpartition(")")[2].split()
        except OSError:
            continue
        yield int(pid), int(fields[1]), fields[19], (int(fields[11]) + int(fields[12])) / TICKS


def task_of(pid):
    """What a process works on: a crate and a kind; none where it is no check."""
    try:
        with open(f"/proc/{pid}/cmdline", encoding="utf-8", errors="replace") as it:
            words = it.read().split("\0")
        folder = os.readlink(f"/proc/{pid}/cwd")
    except OSError:
        return None
    if os.path.basename(words[0]) != "rattle" or "--crate-name" not in words:
        return None
    crate = words[words.index("--crate-name") + 1]
    if "/rt-edit-" in folder:
        return crate, "wrong bodies"
    return crate, "tests" if "--test" in words else "proof"


def watch(child):
    """The processor seconds of each crate and kind, until the child ends."""
    tasks, spent = {}, {}
    while child.poll() is None:
        found = list(processes())
        below = {child.pid}
        while True:
            more = {pid for pid, parent, _, _ in found if parent in below} - below
            if not more:
                break
            below |= more
        for pid, _, start, seconds in found:
            if pid in below:
                key = pid, start
                # (a process that was just forked still shows its parent's words)
                tasks[key] = task_of(pid) or tasks.get(key)
                spent[key] = seconds
        time.sleep(0.5)
    costs = collections.defaultdict(collections.Counter)
    for key, seconds in spent.items():
        crate, kind = tasks[key] or ("(the rest)", "other")
        costs[crate][kind] += seconds
    return costs


def table(costs, clock, total):
    yield f"| crate | {' | '.join(KINDS)} | together |"
    yield "|---|" + "---:|" * (len(KINDS) + 1)
    for crate, row in sorted(costs.items(), key=lambda it: -it[1].total()):
        yield f"| {crate} | {' | '.join(f'{row[kind]:.0f}' for kind in KINDS)} | {row.total():.0f} |"
    sums = sum(costs.values(), collections.Counter())
    yield f"| all | {' | '.join(f'{sums[kind]:.0f}' for kind in KINDS)} | {sums.total():.0f} |"
    yield f"\n{total / 60:.0f} processor minutes in all, {clock / 60:.0f} minutes of the clock, {len(os.sched_getaffinity(0))} processors"


def main(words):
    begun = time.monotonic()
    child = subprocess.Popen(words or ["rt", "ci"])
    costs = watch(child)
    used = resource.getrusage(resource.RUSAGE_CHILDREN)
    print(*table(costs, time.monotonic() - begun, used.ru_utime + used.ru_stime), sep="\n", file=sys.stderr)
    return child.returncode


if __name__ == "__main__":
    sys.exit(main(sys.argv[1:]))
