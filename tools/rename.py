#!/usr/bin/env python3
"""Renames and moves what the repository has, everywhere it is named, and checks that each wrong body still applies.

    tools/rename.py crate OLD NEW             a crate: its folder, and its name in all files
    tools/rename.py merge CRATE INTO          puts a crate's files into another, and its name goes
    tools/rename.py file CRATE OLD NEW        a module: src/OLD.rt, what lies below it, its proofs, its paths (a/b for a::b)
    tools/rename.py item CRATE OLD NEW        an item's name, a whole word, in its crate and in those that stand on it
    tools/rename.py check                     only the check

`--dry` tells what would change and writes nothing. The wrong bodies of crates/*/must-fail and tools/further are texts like
the others, so a rename finds what they replace; the check then looks for each once more: the file is there, and each old
text stands in it once. Its last line is the number of edits, and of those that do not apply; the status is 1 where there
are any. What a script can't know stays to be read: the head of a merged lib.rt, an item whose name another item shares,
the order of lines (`rt fmt`), and sentences.
"""
import argparse
import pathlib
import re
import shutil
import subprocess
import sys

from further import edited

ROOT = pathlib.Path(__file__).resolve().parent.parent
WORD = r"(?<![\w/-]){}(?![\w-])"


def texts():
    """All files of the repository that name crates, files or items."""
    names = subprocess.run(["git", "ls-files", "-co", "--exclude-standard"], cwd=ROOT, stdout=subprocess.PIPE, text=True, check=True)
    kinds = (".rt", ".antt", ".edit", ".md", ".py", ".txt", "run")
    return [ROOT / name for name in sorted(set(names.stdout.split("\n"))) if name.endswith(kinds) and (ROOT / name).is_file()]


class Tree:
    """The repository, with what was changed in it."""

    def __init__(self, dry):
        self.dry = dry
        self.changed = 0

    def write(self, path, text):
        self.changed += 1
        print(f"  {path.relative_to(ROOT)}")
        if not self.dry:
            path.write_text(text)

    def move(self, old, new):
        """Moves a file or a folder; a folder that is there already takes in what is moved."""
        if not old.exists():
            return
        print(f"  {old.relative_to(ROOT)} -> {new.relative_to(ROOT)}")
        if self.dry:
            return
        new.parent.mkdir(parents=True, exist_ok=True)
        if old.is_dir() and new.is_dir():
            for name in sorted(old.iterdir()):
                self.move(name, new / name.name)
            old.rmdir()
        elif new.exists():
            sys.exit(f"rename: {new.relative_to(ROOT)} is there already")
        else:
            shutil.move(old, new)

    def replace(self, changes, paths):
        """Makes these changes, each a pattern and what stands in its place, in these files."""
        for path in paths:
            text = new = path.read_text()
            for pattern, by in changes:
                new = re.sub(pattern, by, new)
            if new != text:
                self.write(path, new)


def dependencies():
    """The lines of crates.txt: each crate with what it stands on."""
    lines = (ROOT / "crates.txt").read_text().split("\n")
    return {line.split(":")[0].split()[0]: line.split(":")[1].split() for line in lines if ":" in line and not line.startswith("#")}


def above(crate):
    """The crate and all that stand on it, at whatever distance."""
    stands, found = dependencies(), {crate}
    while True:
        more = {name for name, below in stands.items() if found & set(below)} - found
        if not more:
            return found
        found |= more


def of_crates(names):
    """The files of these crates, their further wrong bodies, and the documents."""
    roots = [ROOT / "docs", ROOT / "README.md", *(ROOT / "crates" / n for n in names), *(ROOT / "tools/further" / n for n in names)]
    return [path for path in texts() if any(root == path or root in path.parents for root in roots)]


def names_of_crate(old, new):
    """The changes of a crate's name: the word, its folders, and what is built of it."""
    return [(WORD.format(old), new), *((rf"(?<={folder}/){old}\b", new) for folder in ("crates", "further")), (rf"(?<=out/){old}(?=_tests\b|\b)", new)]


def crate(tree, old, new):
    """A crate's new name."""
    if (ROOT / "crates" / new).exists():
        sys.exit(f"rename: there is a crate {new}")
    tree.replace(names_of_crate(old, new), texts())
    for home in (ROOT / "crates", ROOT / "tools/further"):
        tree.move(home / old, home / new)


def joined(path, other):
    """Two lists of modules as one, each line once, with the head of the first."""
    lines = path.read_text().split("\n") if path.exists() else []
    more = [line for line in other.read_text().split("\n") if re.match(r"(pub )?mod |pub use ", line) and line not in lines]
    return "\n".join([*"\n".join(lines).strip("\n").split("\n"), *more]).strip("\n") + "\n"


def merge(tree, old, new):
    """The files of one crate in another. Inside the other its paths are the crate's own."""
    here, there = ROOT / "crates" / old, ROOT / "crates" / new
    stands = dependencies()
    for part, head in (("src", "lib.rt"), ("specs", "Lib.antt"), ("proofs", "Lib.antt")):
        if (here / part / head).exists():
            tree.write(there / part / head, joined(there / part / head, here / part / head))
            if not tree.dry:
                (here / part / head).unlink()
        tree.move(here / part, there / part)
    tree.move(here / "must-fail", there / "must-fail")
    tree.move(ROOT / "tools/further" / old, ROOT / "tools/further" / new)
    if not tree.dry:
        shutil.rmtree(here)
    own = [path for path in texts() if there in path.parents and path.suffix == ".rt"]
    tree.replace([(rf"\b(?:{old}|{new})::", "crate::")], own)
    tree.replace(names_of_crate(old, new), texts())
    lines = []
    for line in (ROOT / "crates.txt").read_text().split("\n"):
        name, colon, below = line.partition(":")
        if colon and not line.startswith("#"):
            below = list(dict.fromkeys(below.split()))
            if name == new:
                if any(line.startswith(f"{new}:") for line in lines):
                    continue
                below = [n for n in dict.fromkeys(stands[new] + stands[old]) if n not in (old, new)]
            line = f"{name}: {' '.join(n for n in below if n != name)}"
        lines.append(line)
    tree.write(ROOT / "crates.txt", "\n".join(lines))


def file(tree, name, old, new):
    """A module's new name. `a/b` is the module b of a."""
    home = ROOT / "crates" / name
    if not (home / "src" / f"{old}.rt").exists():
        sys.exit(f"rename: crates/{name}/src/{old}.rt is not there")
    path, by = old.replace("/", "::"), new.replace("/", "::")
    declared, now = old.replace("/", "."), new.replace("/", ".")
    last, next_last = old.split("/")[-1], new.split("/")[-1]
    changes = [(rf"\b(crate|{name})::{path}\b(?!\()", rf"\1::{by}"), (rf"(Rattle\.{name}\.(?:specs\.declared|proofs)\.){declared}\b", rf"\g<1>{now}"),
               (rf"(?<=crates/{name}/src/){old}(?=\.rt|/)", new), (rf"(?<=crates/{name}/proofs/){old}(?=/)", new)]
    tree.replace(changes, of_crates(above(name)))
    tree.replace([(rf"(?m)^(file: (?:src|proofs)/){old}(?=\.rt|/)", rf"\g<1>{new}"), (rf"(?m)^((?:pub(?:\(crate\))? )?mod ){last};", rf"\g<1>{next_last};")],
                 [p for p in of_crates({name}) if p.suffix == ".edit" or p == home / "src/lib.rt" or p == home / "src" / f"{'/'.join(old.split('/')[:-1])}.rt"])
    for start, end in ((home / "src" / f"{old}.rt", home / "src" / f"{new}.rt"), (home / "src" / old, home / "src" / new), (home / "proofs" / old, home / "proofs" / new)):
        tree.move(start, end)


def item(tree, name, old, new):
    """An item's new name. Another item of that name in these crates is renamed too: read the difference."""
    tree.replace([(rf"\b{old}\b", new)], of_crates(above(name)))
    for folder in sorted((ROOT / "crates" / name / "proofs").rglob(old)):
        tree.move(folder, folder.with_name(new))


def broken(edit):
    """Why a wrong body does not apply: None where it does."""
    return edited(edit, ROOT / "crates" / (edit.parts[-3] if edit.parent.name == "must-fail" else edit.parent.name))[1]


def check():
    """Looks for each wrong body in its file."""
    edits = sorted([*ROOT.glob("crates/*/must-fail/*.edit"), *ROOT.glob("tools/further/*/*.edit")])
    faults = [(edit, why) for edit in edits if (why := broken(edit))]
    for edit, why in faults:
        print(f"{edit.relative_to(ROOT)}: {why}")
    print(f"{len(edits)} edits, {len(faults)} do not apply")
    return 1 if faults else 0


def main():
    parser = argparse.ArgumentParser(description=__doc__, formatter_class=argparse.RawDescriptionHelpFormatter)
    parser.add_argument("--dry", action="store_true")
    kinds = parser.add_subparsers(dest="kind", required=True)
    for kind, words in (("crate", "old new"), ("merge", "old new"), ("file", "name old new"), ("item", "name old new"), ("check", "")):
        one = kinds.add_parser(kind)
        for word in words.split():
            one.add_argument(word)
    asked = parser.parse_args()
    tree = Tree(asked.dry)
    if asked.kind in ("crate", "merge"):
        (crate if asked.kind == "crate" else merge)(tree, asked.old, asked.new)
    elif asked.kind != "check":
        (file if asked.kind == "file" else item)(tree, asked.name, asked.old, asked.new)
    return check()


if __name__ == "__main__":
    sys.exit(main())
