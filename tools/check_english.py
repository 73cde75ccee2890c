#!/usr/bin/env python3
"""Tells what is too long in README.md, CHANGELOG.md and docs/: a sentence of more than 30 words, a cell of a table of more than
300 characters, README.md beyond 9 KB, and the users' pages, docs/*.md, beyond 90 KB in all. Tells each word that the glossaries
explain twice, each refusal of which docs/TROUBLE.md has no cause or no advice, and each mark of a merge.

    python3 tools/check_english.py [PAGE..]

Code blocks are not read. A sentence ends at a full stop, a colon, a semicolon or a question mark before a space, and with its
paragraph, item or cell. Each line says FILE:LINE, the number, and how the sentence begins. The status is 1 where there is one.
With pages named, only their sentences and cells are looked at.
"""
import glob
import pathlib
import re
import sys

from check_links import lines_of

MOST_WORDS, MOST_CHARACTERS = 30, 300
MOST_BYTES = {"README.md": 9 * 1024, "docs/*.md": 90 * 1024}
GLOSSARIES = ["docs/GLOSSARY.md", "docs/inside/WORDS.md"]
TROUBLE, REFUSALS = "docs/TROUBLE.md", "crates/tp_types/src/refusals.rt"


def flaws(line):
    """What is too long in a line: the number, and how it begins."""
    cells = line.strip().strip("|").split("|") if line.startswith("|") else [line]
    for cell in map(str.strip, cells):
        if len(cells) > 1 and len(cell) > MOST_CHARACTERS:
            yield f"{len(cell)} characters", cell
        for sentence in re.split(r"(?<=[.:;?!])[)*]*\s", cell):
            words = len(re.sub(r"`[^`]*`", "code", sentence).split())
            if words > MOST_WORDS:
                yield f"{words} words", sentence


def large():
    """The pages that have too many bytes together."""
    for pages, most in MOST_BYTES.items():
        size = sum(pathlib.Path(page).stat().st_size for page in glob.glob(pages))
        if most < size:
            yield f"{pages}: {size} bytes, and {most} at most"


def explained_twice():
    """The words that have two rows in the glossaries' tables of meanings."""
    rows = [row for page in GLOSSARIES for row in re.findall(r"^\| ([^|]+) \|", pathlib.Path(page).read_text().split("\n## ")[0], re.M)]
    for word in sorted({word for word in rows if 1 < rows.count(word)} - {"Word"}):
        yield f"{' or '.join(GLOSSARIES)}: '{word}' is explained twice"


def untold():
    """The refusals, by their numbers and names in the sources, that have no cause or no advice among the troubles."""
    told = {part.split("\n")[0].split("(")[0].rstrip(): part for part in re.split(r"^### ", pathlib.Path(TROUBLE).read_text(), flags=re.M)}
    for name, number in re.findall(r"PoolError::(\w+)(?:\(_\))? => (\d+),", pathlib.Path(REFUSALS).read_text()):
        if any(word not in told.get(f"{number} {name}", "") for word in ("*Cause:*", "*Do:*")):
            yield f"{TROUBLE}: '{number} {name}' has no cause or no advice"


def merge_marks(pages):
    """The lines that a merge left behind."""
    for page in pages:
        for number, line in enumerate(pathlib.Path(page).read_text(encoding="utf-8").split("\n"), 1):
            if re.match(r"(<{7}|>{7}) ", line):
                yield f"{page}:{number}: {line}"


def sentences(pages):
    for page in pages:
        for number, line in lines_of(pathlib.Path(page).read_text(encoding="utf-8")):
            for much, start in flaws(line):
                yield f"{page}:{number}: {much}: {start[:60]} .."


if sys.argv[1:]:
    found = list(sentences(sys.argv[1:]))
else:
    pages = ["README.md", "CHANGELOG.md", *sorted(glob.glob("docs/**/*.md", recursive=True))]
    found = [*sentences(pages), *merge_marks(pages), *large(), *explained_twice(), *untold()]
print(*found, f"{len(found)} to mend", sep="\n")
sys.exit(bool(found))
