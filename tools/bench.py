#!/usr/bin/env python3
"""Times programs of `lab_bench` by turns, with their threads pinned, and Java's pool beside them.

    python3 tools/bench.py PROGRAM [PROGRAM ..] [--java] [--rounds N] [--runs N] [--only WORD ..]

The first program is what the others are compared with, such as one of an earlier commit. For each load each program runs in each round, in
rotating order, `lab_bench raw .. RUNS`; the median of a program's runs is one value, and the median of the rounds is told, with the least
and the greatest. `x1.40` says that the program is 1.40 times as quick as the first one. Behind it stands how quick it is beside the textbook's
pool of the same program, and beside Java's.

A load is COURSE:WORKERS,SUBMITTERS,JOB, with the length of a job in nanoseconds; `--only` takes those that contain one of the words. A job
passes turns of `spin_loop`. A turn takes 4.6 nanoseconds on one machine and 13 on another, so it is measured first, by the first program.
The autogroup is set to -20 where that is allowed, so that a shared machine disturbs less. `busy` is how many processors others used meanwhile:
above 0.2 a figure is not to be trusted.
"""
import argparse
import os
import pathlib
import statistics
import subprocess
import sys
import tempfile
import time

HERE = pathlib.Path(__file__).resolve().parent / "bench"
LOADS = ["through:1,1,0", "through:2,1,0", "through:4,1,0", "through:4,2,0", "through:2,1,2300", "through:4,1,2300", "through:4,1,5750",
         "through:4,1,11500", "through:4,1,50000", "through:4,8,0", "through:4,32,0", "life:1,1,0", "life:2,1,0", "life:4,1,0", "life:4,2,0", "life:4,1,10", "answer:1,1,0", "answer:4,1,0"]
TASKS = {0: 100_000, 2_300: 40_000, 5_750: 20_000, 11_500: 12_000, 50_000: 4_000}
ANSWERS = 5_000
PINS = {1: "0,1", 2: "0,1,2", 4: "0,1,2,3,0"}
HERTZ = os.sysconf("SC_CLK_TCK")


def used():
    """Processor seconds that all processes have used."""
    words = [int(word) for word in open("/proc/stat").readline().split()[1:]]
    return (words[0] + words[1] + words[2] + words[5] + words[6]) / HERTZ


def own():
    return sum(os.times()[:4])


def plan(load, turn):
    """The words of a load for `raw`, but for the number of runs, and its list of processors. A turn takes so many nanoseconds."""
    course, numbers = load.split(":")
    workers, submitters, job = map(int, numbers.split(","))
    if course == "life" and job == 10:
        tasks, job = 10, 0
    else:
        tasks = ANSWERS if course == "answer" else TASKS[job] // submitters
    return [course, *map(str, [workers, submitters, tasks, round(job / turn)])], PINS[workers]


def turn_of(program, preload):
    """How many nanoseconds a turn takes, by jobs so long that the pool is nothing beside them."""
    tasks, turns = 200, 20_000
    times = ran([program, "raw", "through", "1", "1", str(tasks), str(turns), "5"], PINS[1], preload)
    return statistics.median(times["textbook"]) / tasks / turns


def quick():
    try:
        pathlib.Path("/proc/self/autogroup").write_text("-20")
    except OSError:
        pass


def ran(command, pins, preload):
    """The times that a program printed, by the name of the pool."""
    env = dict(os.environ, **({"PINS": pins, "LD_PRELOAD": str(preload)} if preload else {}))
    done = subprocess.run(command, capture_output=True, text=True, env=env, preexec_fn=lambda: (os.setsid(), quick()))
    if done.returncode:
        sys.exit(f"{' '.join(command)}: {done.stdout[-300:]}{done.stderr[-300:]}")
    times = {}
    for line in done.stdout.splitlines():
        name, nanoseconds = line.split()
        times.setdefault(name, []).append(int(nanoseconds))
    return times


def percentile(times, percent):
    return sorted(times)[min(len(times) - 1, len(times) * percent // 100)]


def values(load, times):
    """What is compared of a program's times: their median, or two percentiles of answers."""
    if load.startswith("answer"):
        return {"p50": percentile(times, 50), "p99": percentile(times, 99)}
    return {"median": statistics.median(times)}


def told(load, words, found, first):
    """The lines of a load. `found` has lists of values by program, pool and what is compared."""
    tasks = 1 if load.startswith("answer") else int(words[3]) * int(words[2])
    for (program, pool, what), all_values in sorted(found.items(), key=lambda item: (item[0][2], item[0][1], item[0][0] != first)):
        middle = statistics.median(all_values)
        line = f"  {pool:8} {what:6} {program}: {middle / tasks:.0f} ns [{min(all_values) / tasks:.0f} to {max(all_values) / tasks:.0f}]"
        for other, name in [((first, pool, what), "x"), ((program, "textbook", what), "of the textbook's "), (("java", "java", what), "of Java's ")]:
            if other in found and other != (program, pool, what):
                line += f", {name}{statistics.median(found[other]) / middle:.2f}"
        print(line)


def main():
    parser = argparse.ArgumentParser(description=__doc__, formatter_class=argparse.RawDescriptionHelpFormatter)
    parser.add_argument("programs", nargs="+")
    parser.add_argument("--java", action="store_true")
    parser.add_argument("--rounds", type=int, default=7)
    parser.add_argument("--runs", type=int, default=3)
    parser.add_argument("--only", nargs="*", default=[""])
    asked = parser.parse_args()
    with tempfile.TemporaryDirectory() as folder:
        preload = pathlib.Path(folder) / "pin.so"
        subprocess.run(["cc", "-O2", "-shared", "-fPIC", str(HERE / "pin.c"), "-o", str(preload), "-ldl", "-lpthread"], check=True)
        if asked.java:
            subprocess.run(["javac", "-d", folder, str(HERE / "Peers.java")], check=True)
        runners = [(program, [program, "raw"], preload) for program in asked.programs]
        runners += [("java", ["java", "-cp", folder, "Peers"], None)] if asked.java else []
        turn = turn_of(asked.programs[0], preload)
        print(f"a turn takes {turn:.1f} ns")
        for load in LOADS:
            if not any(word in load for word in asked.only):
                continue
            words, pins = plan(load, turn)
            found, before, since, mine = {}, used(), time.monotonic(), own()
            for round_number in range(asked.rounds):
                at = round_number % len(runners)
                for name, command, pinned in runners[at:] + runners[:at]:
                    for pool, times in ran([*command, *words, str(asked.runs)], pins, pinned).items():
                        for what, value in values(load, times).items():
                            found.setdefault((name, pool, what), []).append(value)
            busy = (used() - before - (own() - mine)) / (time.monotonic() - since)
            print(f"{load} ({words[3]} tasks, busy {busy:.1f})", flush=True)
            told(load, words, found, asked.programs[0])


if __name__ == "__main__":
    main()
