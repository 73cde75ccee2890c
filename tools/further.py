#!/usr/bin/env python3
"""Tries the further wrong bodies: those of tools/further/CRATE/, which the gate does not read.

    tools/further.py                  all of them
    tools/further.py tp_text tp_ring  those of these crates
    tools/further.py tp_text/line_not_kept
    tools/further.py --kept ..        those of crates/CRATE/must-fail/ instead

Each must be refused by the prover. They are tried by `rt must-fail` on a copy of the repository, over the libraries that
earlier checks left in out/, so the tree itself does not change. Run it for a crate whose contracts change. The status is 0
where each was refused, else 1.

One that a type refuses does not reach the prover. It has a line `error: CODE`, and the compiler must refuse it with
`error[CODE]`, where the crate as it stands compiles.
"""
import os
import pathlib
import re
import shutil
import subprocess
import sys
import tempfile

ROOT = os.path.dirname(os.path.dirname(os.path.abspath(__file__)))
# No function of ours is called so: of a check of it alone, the compiler's part is left, and a line that says so.
NONE = "no_function_is_called_so"


def edits(folder):
    """The wrong bodies of a folder, by name."""
    names = sorted(os.listdir(folder)) if os.path.isdir(folder) else []
    return {name.removesuffix(".edit"): f"{folder}/{name}" for name in names if name.endswith(".edit")}


def chosen(asked, kept):
    """The wrong bodies to try, crate by crate; all where none is asked for. Stops at a word that names none."""
    crates = sorted(os.listdir(f"{ROOT}/crates" if kept else f"{ROOT}/tools/further"))
    there = {crate: edits(f"{ROOT}/crates/{crate}/must-fail" if kept else f"{ROOT}/tools/further/{crate}") for crate in crates}
    if not asked:
        return {crate: found for crate, found in there.items() if found}
    wanted = {}
    for word in asked:
        crate, _, name = word.partition("/")
        found = there.get(crate, {})
        if not found or name and name not in found:
            sys.exit(f"further: no wrong body is called {word}")
        wanted.setdefault(crate, {}).update({name: found[name]} if name else found)
    return wanted


def edited(edit, home):
    """The texts that a wrong body makes of the files of this crate, by path, and None; or, in the place of None, why it does not apply."""
    made, path, old = {}, None, None
    for line in pathlib.Path(edit).read_text().split("\n"):
        word, _, rest = line.partition(": ")
        if word == "file":
            path = pathlib.Path(home) / rest.strip()
            if not path.is_file():
                return made, f"no file {rest}"
            made.setdefault(path, path.read_text())
        elif word == "old":
            old = rest
        elif word == "new":
            if made[path].count(old) != 1:
                return made, f"the old text stands {made[path].count(old)} times: {old}"
            made[path] = made[path].replace(old, rest)
    return made, None


def code_of(edit):
    """The code of the error by which the compiler refuses this wrong body; None where the prover is to refuse it."""
    found = re.search(r"^error: (\S+)$", pathlib.Path(edit).read_text(), re.M)
    return found and found[1]


def errors(home, made):
    """The lines in which the compiler refuses a copied crate with these texts. The copy is as before then."""
    was = {path: path.read_text() for path in made}
    for path, text in made.items():
        path.write_text(text)
    ran = subprocess.run(["rt", "check", "--jobs", "1", "--only", NONE], cwd=home, stdout=subprocess.PIPE, stderr=subprocess.STDOUT, text=True)
    for path, text in was.items():
        path.write_text(text)
    return [line for line in ran.stdout.split("\n") if "error" in line and NONE not in line]


def refused_by_types(home, found):
    """Tries wrong bodies of a copied crate, by name, that a type refuses; answers whether each was."""
    lines = errors(home, {})
    if lines:
        print(f"{os.path.basename(home)} does not compile: {lines[0]}", flush=True)
    well = not lines
    for name, edit in found.items():
        made, why = edited(edit, home)
        said = [] if why else [line for line in errors(home, made) if f"error[{code_of(edit)}]" in line]
        print(f"{os.path.basename(home)}/{name}: {f'refused, as it must be: {said[0]}' if said else f'NOT REFUSED with error[{code_of(edit)}]'}", flush=True)
        well = well and bool(said)
    return well


def main(words):
    kept = "--kept" in words
    wanted = chosen([word for word in words if word != "--kept"], kept)
    of_types = {crate: {name: edit for name, edit in found.items() if code_of(edit)} for crate, found in wanted.items()}
    of_proofs = {crate: [edit for edit in found.values() if not code_of(edit)] for crate, found in wanted.items()}
    with tempfile.TemporaryDirectory(prefix="further-") as room:
        for part in ("crates.txt", "HANDLES"):
            shutil.copy(f"{ROOT}/{part}", room)
        shutil.copytree(f"{ROOT}/crates", f"{room}/crates", copy_function=shutil.copy2, ignore=shutil.ignore_patterns("must-fail", "incremental"))
        subprocess.run(["git", "init", "-q", room], check=True)
        well = [refused_by_types(f"{room}/crates/{crate}", found) for crate, found in of_types.items() if found]
        tried = [crate for crate, found in of_proofs.items() if found]
        for crate in tried:
            os.mkdir(f"{room}/crates/{crate}/must-fail")
            for file in of_proofs[crate]:
                shutil.copy(file, f"{room}/crates/{crate}/must-fail")
        status = subprocess.run(["rt", "must-fail", *tried], cwd=room).returncode if tried else 0
        return status if all(well) else 1


if __name__ == "__main__":
    sys.exit(main(sys.argv[1:]))
