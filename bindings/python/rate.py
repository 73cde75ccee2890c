#!/usr/bin/env python3
"""rate.py [ROUNDS]: processor time a task, of ThreadPoolExecutor of concurrent.futures and of the executor of this package, by turns.

In a burst all tasks are submitted and then waited for; one by one, each is waited for before the next. A task does nothing, so what is
measured is the pool. Told are the medians of the rounds, in microseconds of processor time, and the median of their quotients.
"""

import statistics
import sys
import time
from concurrent.futures import ThreadPoolExecutor

import zellunkay


def burst(pool, tasks):
    for future in [pool.submit(int) for _ in range(tasks)]:
        future.result()


def one_by_one(pool, tasks):
    for _ in range(tasks):
        pool.submit(int).result()


def cost(make, workers, way, tasks):
    with make(workers) as pool:
        way(pool, 200)
        begun = time.process_time()
        way(pool, tasks)
        return (time.process_time() - begun) / tasks * 1e6


def main():
    rounds = int(sys.argv[1]) if len(sys.argv) > 1 else 9
    kinds = [("textbook", ThreadPoolExecutor), ("ours", zellunkay.Executor), ("recorded", lambda workers: zellunkay.Executor(workers, limit=1_000_000))]
    print(f"{'':24}" + "".join(f"{name:>12}" for name, _ in kinds) + f"{'ours':>12}{'recorded':>12}   microseconds a task, and quotients", flush=True)
    for way, tasks in ((burst, 5_000), (one_by_one, 1_000)):
        for workers in (1, 4):
            costs = [[cost(make, workers, way, tasks) for _, make in kinds] for _ in range(rounds)]
            medians = [statistics.median(row[n] for row in costs) for n in range(3)]
            quotients = [statistics.median(row[n] / row[0] for row in costs) for n in (1, 2)]
            name = f"{way.__name__.replace('_', ' ')}, {workers} worker{'s' * (workers > 1)}"
            print(f"{name:24}" + "".join(f"{cost:12.1f}" for cost in medians) + "".join(f"{quotient:12.2f}" for quotient in quotients), flush=True)


main()
