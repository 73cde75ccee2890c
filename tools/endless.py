#!/usr/bin/env python3
"""endless.py PROGRAM [FARE TASKS]..: has `lab_bench endless` run, and reads its resident memory from outside.

PROGRAM is a built lab_bench (`tools/unproved.py lab_bench OUT`). At each line that the program prints, the memory that the kernel
says is resident (VmRSS) is read, and at the end by how much it grew since the first line. Without a FARE, all of them with
20,000,000 tasks each. The aim is a growth of less than 1 MB.
"""
import subprocess
import sys

FARES = ["plain", "futures", "cancels", "faults", "groups", "any"]


def resident(pid):
    """The resident memory of a process, in kB."""
    with open(f"/proc/{pid}/status", encoding="utf-8") as status:
        return next(int(line.split()[1]) for line in status if line.startswith("VmRSS"))


def served(program, fare, tasks):
    """Runs the program, and prints its memory beside its lines; whether it grew by less than 1 MB."""
    run = subprocess.Popen([program, "endless", fare, tasks], stdout=subprocess.PIPE, text=True)
    sizes = []
    for line in run.stdout:
        if line.startswith("at "):
            sizes.append(resident(run.pid))
            print(f"{fare}: {line.strip()}: {sizes[-1]} kB")
        else:
            print(f"{fare}: {line.strip()}")
    grown = sizes[-1] - sizes[0] if sizes else 0
    print(f"{fare}: grown by {grown} kB, at most by {max(sizes) - sizes[0] if sizes else 0} kB; status {run.wait()}", flush=True)
    return grown < 1024 and run.returncode == 0


def main():
    program, words = sys.argv[1], sys.argv[2:]
    pairs = list(zip(words[::2], words[1::2])) or [(fare, "20000000") for fare in FARES]
    results = [served(program, fare, tasks) for fare, tasks in pairs]
    sys.exit(0 if all(results) else 1)


main()
