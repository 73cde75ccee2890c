#!/usr/bin/env python3
"""Tells each link and each file name in README.md, CHANGELOG.md and docs/ that leads nowhere, each name that stands in no source, and each page
that is more than two clicks away from README.md.

    python3 tools/check_links.py [--root FOLDER]

Read are Markdown links, with their anchors, and what stands in backticks and looks like a path of the repository:
it begins with a folder or a file at its top, or it is a crate's name such as `tp_pool`. NAME, `*` and `..` in a
path stand for anything; `out` is made by a run, and a crate that a page makes by `rt new` by its reader. Code blocks
are not read. In tables a name in backticks, as `Locked::stop` or `law_jobs_have_room`, is a word of the sources, of the bindings or
of a file's name. The status is 1 where something is missing, and each line says FILE:LINE and what it names.
"""
import argparse
import glob
import pathlib
import re
import subprocess
import sys

LINK = re.compile(r"\[[^\]]*\]\(([^)\s]+)\)")
QUOTED = re.compile(r"`([^`\s]+)`")
CRATE = re.compile(r"(tp|poolrun)_[a-z_]+$")
NAME = re.compile(r"`(\w+(?:::(?:\w+|\{[\w, ]+\}))*)`")
SOURCES = ["crates/*/src/**/*.rt", "crates/*/specs/**/*.antt", "crates/*/proofs/**/*.antt", "bindings/**/*", "tools/*.py"]
MADE = {"out", "NAME", "F"}


def lines_of(text):
    """The lines outside fenced and indented code blocks, with their numbers."""
    fenced = indented = False
    above = ""
    for number, line in enumerate(text.split("\n"), 1):
        if line.lstrip().startswith("```"):
            fenced = not fenced
        elif not fenced:
            indented = line.startswith("    ") and (indented or not above.strip())
            if not indented:
                yield number, line
        above = line


def anchor(heading):
    """The anchor that a heading gets: its words in lower case, joined by hyphens."""
    return re.sub(r"[^\w\- ]", "", heading.strip().lower()).replace(" ", "-")


def anchors(path):
    headings = (line for _, line in lines_of(path.read_text()) if line.startswith("#"))
    return {anchor(line.lstrip("#")) for line in headings}


def leads_somewhere(root, page, target):
    """Whether a link of this page leads to a file of the repository, and to a heading there."""
    if re.match(r"[a-z]+:", target):
        return True
    name, _, heading = target.partition("#")
    path = (page.parent / name).resolve() if name else page
    if not path.exists() or root not in [path, *path.parents]:
        return False
    return not heading or path.suffix != ".md" or heading in anchors(path)


def is_path(word, tops):
    return "/" in word and word.split("/")[0] in tops


def stands(root, word):
    """Whether a file or folder of this name is there, where capitals and stars stand for any name."""
    parts = word.rstrip("/").split("/")
    pattern = "/".join("*" if part in MADE or ".." in part else part.replace("NAME", "*") for part in parts)
    return "out" in parts or bool(glob.glob(str(root / pattern)))


def faults(root, page, tops, crates):
    made = tuple(name + "/" for name in re.findall(r"^\s*rt new (\S+)", page.read_text(), re.M))
    for number, line in lines_of(page.read_text()):
        for target in LINK.findall(line):
            if not leads_somewhere(root, page, target):
                yield number, "the link " + target
        for word in QUOTED.findall(line):
            word = word.split("::")[0]
            if is_path(word, tops):
                if not word.startswith(made) and not stands(root, word):
                    yield number, "the file " + word
            elif CRATE.match(word.split("/")[0]) and word.split("/")[0] not in crates:
                yield number, "the crate " + word
            elif CRATE.match(word.split("/")[0]) and "/" in word and not stands(root, "crates/" + word):
                yield number, "the file crates/" + word


def words_of(root, listed):
    """The words of the sources, of the bindings and of file names; those of Java, of Rust and of Python stand in the pages alone."""
    words = set(re.findall(r"\w+", "\n".join(listed)))
    for pattern in SOURCES:
        for path in root.glob(pattern):
            if path.is_file() and "out" not in path.parts:
                words |= set(re.findall(r"\w+", path.read_text(errors="replace")))
    return words


def strangers(page, words):
    """The names in the tables of a page that stand in no source: those of two parts, and those with an underscore."""
    for number, line in lines_of(page.read_text()):
        for name in NAME.findall(line) if line.startswith("|") else []:
            if ("::" in name or "_" in name) and not words.issuperset(re.findall(r"\w+", name)):
                yield number, "the name " + name


def pages_behind(page):
    """The pages that this one links."""
    targets = (target.partition("#")[0] for _, line in lines_of(page.read_text()) for target in LINK.findall(line))
    return {(page.parent / target).resolve() for target in targets if target.endswith(".md")}


def far(root, pages):
    """The pages to which no two clicks lead."""
    near = pages_behind(root / "README.md")
    near |= {page for one in near for page in pages_behind(one)}
    return [page for page in pages[1:] if page not in near]


def main():
    parser = argparse.ArgumentParser(description=__doc__, formatter_class=argparse.RawDescriptionHelpFormatter)
    parser.add_argument("--root", default=pathlib.Path(__file__).resolve().parent.parent, type=pathlib.Path)
    root = parser.parse_args().root.resolve()
    listed = subprocess.run(["git", "ls-files"], cwd=root, capture_output=True, text=True, check=True).stdout.split()
    tops = {name.split("/")[0] for name in listed} | {"crates", "docs", "tools"}
    crates = {name.split("/")[1] for name in listed if name.startswith("crates/")}
    words = words_of(root, listed)
    found = 0
    pages = [root / "README.md", root / "CHANGELOG.md", *sorted((root / "docs").glob("**/*.md"))]
    for page in far(root, pages):
        found += 1
        print(f"{page.relative_to(root)}: is more than two clicks away")
    for page in pages:
        for number, what in [*faults(root, page, tops, crates), *strangers(page, words)]:
            found += 1
            print(f"{page.relative_to(root)}:{number}: {what} leads nowhere")
    print(f"{found} lead nowhere")
    return 1 if found else 0


if __name__ == "__main__":
    sys.exit(main())
