"""The statuses of all languages, which are compared: the header has each once, with its name, its number and its text."""

import os
import re
import sys

from packages import BINDINGS, HEADER, ROOT, text_of

# A row of a table, in the header and in a language's own file: what a name and its number look like there.
ROW = re.compile(r'row\((\w+), (\d+), "')
TABLES = {
    "crates/tp_types/src/refusals.rt": r"PoolError::(\w+)(?:\(_\))? => (\d+),",
    "crates/tp_c/src/statuses.rt": r"Status::(\w+) => (\d+),",
    "bindings/rust/src/machine/errors.rs": r"\((\d+), Error::(\w+), ",
    "bindings/python/zellunkay/core.py": r'(\d+): "(\w+)"',
    "bindings/java": r"\b([A-Z_]+)\((\d+)",
}

def camel(name):
    return "".join(word.capitalize() for word in name.split("_"))


def of_header():
    return {camel(name): int(number) for name, number in ROW.findall(text_of(HEADER))}


def are_one():
    """Whether each table agrees with the header: the same name has the same number, and the same number the same name."""
    wanted, holds = of_header(), True
    by_number = {number: name for name, number in wanted.items()}
    for path, row in TABLES.items():
        at = os.path.join(ROOT, path)
        if not os.path.exists(at):
            continue
        files = [at] if os.path.isfile(at) else [os.path.join(below, name) for below, _, names in os.walk(at) for name in names if name.startswith("Status")]
        for a, b in (found for file in files for found in re.findall(row, text_of(file))):
            name, number = (b, int(a)) if a.isdigit() else (a, int(b))
            name = camel(name) if name.isupper() else name
            if by_number.get(number, name) != name or wanted.get(name, number) != number:
                print(f"{path}: {name} is {number}; the header has {by_number.get(number)} for that, and {wanted.get(name)} for {name}", file=sys.stderr)
                holds = False
    return holds
