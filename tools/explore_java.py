#!/usr/bin/env python3
"""Has callers live with Java's ThreadPoolExecutor, and shows that each end that was seen is one that `poolrun explore` tells.

    python3 tools/explore_java.py POOLRUN                the races below, 3,000 lives each
    python3 tools/explore_java.py POOLRUN 500 FILE ..    so many lives of the callers of these files

POOLRUN is the built program, as `rt run` leaves it in crates/poolrun/out/poolrun. It needs a JDK of version 17 or later. The status is 1
where an end was seen that is not told. An end that was never seen proves nothing: Java's schedules are what the machine makes of them.
"""
import pathlib
import subprocess
import sys
import tempfile

LIVES = pathlib.Path(__file__).parent / "explore_java" / "Lives.java"
RACES = {
    "shutdown": """pool 1 1 unbounded keep 0 abort
caller a: execute 1; b: execute 2
caller shutdown
""",
    "stop": """pool 1 1 unbounded keep 0 abort
caller a: execute 1; b: submit 2
caller stop
""",
    "cancel": """pool 1 1 unbounded keep 0 abort
caller a: submit 1; b: submit 2
caller cancel b flag; cancel a
""",
    "oldest": """pool 1 1 bounded 1 keep 0 discardoldest
caller a: execute 1; b: execute 2
caller c: execute 3
""",
    "caller": """pool 1 1 bounded 1 keep 0 callerruns
caller a: execute 1; b: execute 2
caller c: execute 3; shutdown
""",
}


def ends_of(command):
    """The ends that a command prints, each behind its number."""
    done = subprocess.run(command, capture_output=True, text=True)
    if done.returncode != 0:
        sys.exit(f"{command[0]} failed: {done.stderr}")
    lines = [line for line in done.stdout.split("\n") if line and not line.startswith("states ")]
    return {end: int(number) for number, end in (line.split(" ", 1) for line in lines)}


def compare(name, poolrun, path, lives):
    """Whether each end that was seen is told."""
    told = ends_of([poolrun, "explore", path])
    seen = ends_of(["java", str(LIVES), path, str(lives)])
    strange = [end for end in seen if end not in told]
    print(f"{name}: {lives} lives, {len(seen) - len(strange)} of {len(told)} ends seen, {len(strange)} that are not told")
    for end in told:
        print(f"  {seen.get(end, 0):6} {end}")
    for end in strange:
        print(f"  {seen[end]:6} {end}   NOT TOLD")
    return not strange


def main():
    poolrun, lives, files = sys.argv[1], int(sys.argv[2]) if len(sys.argv) > 2 else 3000, sys.argv[3:]
    is_so = [compare(path, poolrun, path, lives) for path in files]
    if not files:
        with tempfile.TemporaryDirectory() as folder:
            for name, text in RACES.items():
                path = pathlib.Path(folder, f"{name}.txt")
                path.write_text(text)
                is_so.append(compare(name, poolrun, str(path), lives))
    sys.exit(0 if all(is_so) else 1)


main()
