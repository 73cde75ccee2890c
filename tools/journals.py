#!/usr/bin/env python3
"""journals.py PROGRAM [JOBS]: tries `poolrun threads --journal` on so many jobs (100,000), by hand.

It measures runs with and without a journal in turns. It kills a run at ten moments, and has each journal judged (`audit --cut`) and
asked (`now`, `why`). Then it writes journals to a full disk, to a closed pipe, to a folder that is not there, to a pipe that nobody
reads and to one that is read late, and compares the run's output and status with those of a run without a journal. The status is 0 where
all is as it should be.
"""
import os
import signal
import subprocess
import sys
import tempfile
import time

POOL = "pool 2 2 unbounded keep 0 abort limit 1048576\n"


def run(words, **more):
    """A run to its end: status, output, errors."""
    done = subprocess.run(words, capture_output=True, text=True, **more)
    return done.returncode, done.stdout, done.stderr


def seconds(words):
    """How long a run takes."""
    begun = time.monotonic()
    subprocess.run(words, stdout=subprocess.DEVNULL, check=True)
    return time.monotonic() - begun


def rates(program, jobs, count, turns=7):
    """Jobs a second without and with a journal, the best of some turns; whether the second is at most a tenth lower."""
    alone = [program, "threads", jobs]
    both = [[seconds(words) for words in (alone, alone[:2] + ["--journal", "rates.txt", jobs])] for _ in range(turns)]
    without, journalled = (count / min(column) for column in zip(*both))
    print(f"  {without:.0f} jobs a second without a journal, {journalled:.0f} with one: {100 * journalled / without:.0f} in a hundred")
    return journalled >= 0.9 * without


def killed(program, jobs, journal, after):
    """Kills a run so many seconds after its journal has its first lines."""
    if os.path.exists(journal):
        os.remove(journal)
    child = subprocess.Popen([program, "threads", "--journal", journal, jobs], stdout=subprocess.DEVNULL)
    while child.poll() is None and not (os.path.exists(journal) and os.path.getsize(journal)):
        time.sleep(0.001)
    time.sleep(after)
    child.send_signal(signal.SIGKILL)
    return child.wait()


def judged(program, journal, status):
    """Has the journal of a killed run judged and asked; whether all of that answers. An early kill leaves one without a task."""
    legal, front, _ = run([program, "audit", "--cut", journal])
    now, told, _ = run([program, "now", journal])
    with open(journal) as text:
        has_task = " submit " in text.read()
    why, story, _ = run([program, "why", journal, "t0"]) if has_task else (0, "no task yet", "")
    lines = told.splitlines()
    queue = next((line for line in lines if line.startswith("queue")), "?")
    runs = [line.strip() for line in lines if line.startswith("  w")]
    print(f"  ended by {status}, {os.path.getsize(journal)} bytes: {front.splitlines()[0]}; {queue}; {'; '.join(runs)}; t0: {story.splitlines()[-1]}")
    return status == -signal.SIGKILL and legal == now == why == 0 and front.startswith("legal so far ")


def rest_of(text):
    """The counters of a record's text: how many of each kind of entry, since schedules differ."""
    return text.splitlines()[:2], text.count(" submit "), text.count(" end "), text.splitlines()[-1].split()[0]


def failing(program, jobs, plain):
    """Journals that can't be written: the run is as one without, and is told of the reason."""
    good = True
    for path, reason in (("/dev/full", "No space left"), ("no-folder/journal.txt", "No such file"), ("/dev/fd/{}", "Broken pipe")):
        reader, writer = os.pipe()
        os.close(reader)
        status, out, errors = run([program, "threads", "--journal", path.format(writer), jobs], pass_fds=[writer])
        os.close(writer)
        print(f"  {path}: status {status}, {len(out)} bytes, told: {errors.strip()}")
        good &= status == 0 and rest_of(out) == rest_of(plain) and reason in errors
    return good


def unread(program, jobs, plain):
    """A pipe that nobody reads: the run waits five seconds for it, and goes on without it."""
    os.mkfifo("unread")
    begun = time.monotonic()
    status, out, errors = run([program, "threads", "--journal", "unread", jobs])
    print(f"  unread: status {status} after {time.monotonic() - begun:.1f} s, {len(out)} bytes, told: {errors.strip()}")
    return status == 0 and rest_of(out) == rest_of(plain) and "waits to be written" in errors


def slow(program, jobs):
    """A pipe that is read after a second: the journal is whole."""
    os.mkfifo("slow")
    with open("out.txt", "w") as out:
        child = subprocess.Popen([program, "threads", "--journal", "slow", jobs], stdout=out)
        time.sleep(1)
        text = open("slow").read()
        status = child.wait()
    print(f"  slow: status {status}, {len(text)} bytes")
    return status == 0 and text == open("out.txt").read()


def main(words):
    program = os.path.abspath(words[0])
    count = int(words[1]) if len(words) > 1 else 100_000
    with tempfile.TemporaryDirectory() as folder:
        os.chdir(folder)
        with open("jobs.txt", "w") as jobs:
            jobs.write(POOL + "execute 5\n" * count)
        begun = time.monotonic()
        status, plain, _ = run([program, "threads", "jobs.txt"])
        long = time.monotonic() - begun
        good = status == 0
        print(f"{count} jobs in {long:.2f} s without a journal; load {os.getloadavg()[0]:.1f}")
        status, out, errors = run([program, "threads", "--journal", "whole.txt", "jobs.txt"])
        whole = open("whole.txt").read()
        print(f"  a whole run: status {status}, the journal is the output: {whole == out}; {run([program, 'audit', '--any-length', 'whole.txt'])[1].splitlines()[:2]} {errors}")
        good &= status == 0 and whole == out
        good &= rates(program, "jobs.txt", count)
        for moment in range(10):
            status = killed(program, "jobs.txt", "journal.txt", long * moment / 20)
            good &= judged(program, "journal.txt", status)
        good &= failing(program, "jobs.txt", plain)
        good &= unread(program, "jobs.txt", plain)
        good &= slow(program, "jobs.txt")
    print("all as it should be" if good else "NOT as it should be")
    return 0 if good else 1


if __name__ == "__main__":
    sys.exit(main(sys.argv[1:]))
