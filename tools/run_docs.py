#!/usr/bin/env python3
"""Runs the commands that README.md, docs/TUTORIAL.md, docs/COOKBOOK.md, docs/STORIES.md, docs/EXPLORE.md and docs/inside/PROVING.md give, in a
fresh clone, and compares what they print.

    python3 tools/run_docs.py               all of them: those that prove take an hour and more
    python3 tools/run_docs.py --only-quick  without those that prove
    python3 tools/run_docs.py --libs CLONE  over the built libraries (crates/*/out) of another clone, without the gate
    python3 tools/run_docs.py FILE.md ..    those of these documents

What a block of a document is, fenced or indented:

- commands, where it is fenced as `sh` or each of its lines begins with a command's name. Each block is run by a
  shell of its own at the top of the clone;
- what the last commands print, where it has no label or `text` and the line just above it has the word 'prints' or
  'output'. Its lines must come in this order, one after another; a line `..` stands for any lines;
- a part of a program, where it is `rust` and no file: its lines stand so in a source of `crates`, however they are indented;
- a file, where the line just above it ends in its name, in backticks and with a colon: it is written there, also where
  it is what the last commands print. As `diff` it is an edit of that file instead: the lines with `-` become those with `+`.

All other blocks are passed over. Where a command calls out/poolrun, which docs/SCENARIOS.md says how to make, it is made before. Each command must succeed, unless what is printed next has a line with `error`, `not
proved` or `hides`, or the line just above it names a status: there the page shows a failure. The status is 1 where a document and a run differ.
"""
import argparse
import pathlib
import re
import shutil
import subprocess
import sys
import tempfile

ROOT = pathlib.Path(__file__).resolve().parent.parent
COMMANDS = r"(rt|cd|git|python3|(tools|out)/\S+|mkdir|rm|cat|echo|printf|touch|sed)\b"
PROVES = r"rt (check|run|test|ci|lib|all|verdict|must-fail|plant|tidy)\b|further\.py|gate_costs\.py"
MAKES_POOLRUN = ["python3", "tools/unproved.py", "poolrun", "out/poolrun"]
GATE = r"rt ci\b|gate_costs\.py"
FENCED = re.compile(r"^```(\w*)\n(.*?)^```$", re.M | re.S)
SHOWN = re.compile(r"error|not proved|hides|the status [1-9]")
INDENTED = re.compile(r"(?<=\n\n)((?: {4}[^\n]*\n|\n(?= {4}))+)")
FILE = re.compile(r"`([\w-]*[./][\w./-]+)`[^`\n]*:$")


def blocks(text):
    """The blocks of a document in their order: what stands just above each, its label, and its lines."""
    found = [(m.start(), m[1], m[2]) for m in FENCED.finditer(text)]
    spans = [m.span() for m in FENCED.finditer(text)]
    for m in INDENTED.finditer(text):
        if not any(start <= m.start() < end for start, end in spans):
            found.append((m.start(), "", re.sub(r"(?m)^ {4}", "", m[1])))
    for start, label, lines in sorted(found):
        above = text[:start].strip().split("\n")[-1]
        yield above, label, lines.rstrip("\n").split("\n")


def comes(wanted, printed):
    """Whether these lines were printed one after another, where `..` stands for any lines."""
    starts = range(len(printed) + 1)
    for run in "\n".join(wanted).split("\n..\n"):
        run = run.split("\n")
        starts = [at + len(run) for at in starts if printed[at:at + len(run)] == run]
        if not starts:
            return False
        starts = range(min(starts), len(printed) + 1)
    return True


def is_part_of_a_program(crates, lines):
    """Whether these lines stand one after another in a source of these crates."""
    part = "\n".join(line.strip() for line in lines)
    texts = ("\n".join(map(str.strip, path.read_text().split("\n"))) for path in crates.glob("*/src/*.rt"))
    return any(part in text for text in texts)


def edit(path, lines):
    """Makes the edit of a `diff` block: its lines but for those with `+` stand in the file once."""
    old = "".join(line[1:] + "\n" for line in lines if line[:1] != "+")
    new = "".join(line[1:] + "\n" for line in lines if line[:1] != "-")
    text = path.read_text()
    if text.count(old) != 1:
        return False
    path.write_text(text.replace(old, new))
    return True


class Reader:
    """A reader of documents, who does in the clone what they say."""

    def __init__(self, clone, left_out):
        self.clone = clone
        self.left_out = left_out
        self.printed = None
        self.failed = []
        self.faults = 0

    def fault(self, what):
        self.faults += 1
        print(f"    DIFFERS: {what}")

    def settle(self):
        """A command that failed, with no failure shown behind it, is a fault."""
        for line in self.failed:
            self.fault(f"this command failed: {line}")
        self.failed = []

    def run(self, lines):
        self.settle()
        if self.left_out and re.search(self.left_out, "\n".join(lines)):
            print(f"  left out: {lines[0]}")
            self.printed = None
            return
        if "out/poolrun" in "\n".join(lines) and not (self.clone / "out/poolrun").exists():
            subprocess.run(MAKES_POOLRUN, cwd=self.clone, check=True)
        print("  " + "\n  ".join(lines), flush=True)
        with tempfile.NamedTemporaryFile("r") as told:
            script = "set -o pipefail\n" + "\n".join(f"{{ {line}\n}} || echo {at} >> {told.name}" for at, line in enumerate(lines))
            done = subprocess.run(["bash", "-c", script], cwd=self.clone, stdout=subprocess.PIPE, stderr=subprocess.STDOUT)
            self.failed = [lines[int(at)] for at in told.read().split()]
        self.printed = done.stdout.decode(errors="replace").split("\n")

    def write(self, name, lines):
        """Writes a file that a document names, if it does."""
        if name:
            path = self.clone / name[1]
            path.parent.mkdir(parents=True, exist_ok=True)
            path.write_text("\n".join(lines) + "\n")

    def read(self, above, label, lines):
        name = FILE.search(above)
        if label == "diff":
            if not edit(self.clone / name[1], lines):
                self.fault(f"{name[1]} has no place for this edit: {lines[0]}")
        elif label == "sh" or (not label and all(re.match(COMMANDS, line) for line in lines)):
            self.run(lines)
        elif label in ("", "text") and re.search(r"\b(prints?|output)\b", above, re.I):
            if any(map(SHOWN.search, [above, *lines])):
                self.failed = []
            if self.printed is not None and not comes(lines, self.printed):
                self.fault("the document says\n" + "\n".join(lines) + "\n    and it printed\n" + "\n".join(self.printed))
            self.write(name, lines)
        elif name:
            self.write(name, lines)
        elif label == "rust" and not is_part_of_a_program(self.clone / "crates", lines):
            self.fault(f"no program has these lines: {lines[0]}")


def clone_of(root, folder, libs):
    subprocess.run(["git", "clone", "-q", str(root), str(folder)], check=True)
    for out in sorted(libs.glob("crates/*/out")) if libs else []:
        if (folder / "crates" / out.parent.name).is_dir():
            shutil.copytree(out, folder / "crates" / out.parent.name / "out", symlinks=True)


def main():
    parser = argparse.ArgumentParser(description=__doc__, formatter_class=argparse.RawDescriptionHelpFormatter)
    parser.add_argument("--only-quick", action="store_true")
    parser.add_argument("--libs", type=pathlib.Path)
    parser.add_argument("documents", nargs="*", default=["README.md", "docs/TUTORIAL.md", "docs/COOKBOOK.md", "docs/STORIES.md", "docs/EXPLORE.md", "docs/inside/PROVING.md"])
    asked = parser.parse_args()
    faults = 0
    for document in asked.documents:
        with tempfile.TemporaryDirectory() as folder:
            clone = pathlib.Path(folder) / "zellunkay"
            clone_of(ROOT, clone, asked.libs)
            print(document)
            reader = Reader(clone, PROVES if asked.only_quick else GATE if asked.libs else None)
            for above, label, lines in blocks((ROOT / document).read_text()):
                reader.read(above, label, lines)
            reader.settle()
            faults += reader.faults
    print(f"{faults} differ")
    return 1 if faults else 0


if __name__ == "__main__":
    sys.exit(main())
