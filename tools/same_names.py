#!/usr/bin/env python3
"""same_names.py: fails where two public types of different crates have the same name.

A reader who meets a name without its crate must know which type it is. So a type that could be taken for another one says its crate's
noun too. ALLOWED has the names that had two senses or more when this rule was made, with how many. It may only get shorter: the tool
also fails where a name has fewer senses by now, and says so. Tests, labs and examples count for nothing, since no crate stands on them.

Run it anywhere: it reads the sources of the repository that it stands in."""
import pathlib
import re
import sys

TOP = pathlib.Path(__file__).resolve().parent.parent

# Each name with the number of its senses.
ALLOWED = """
    Account 2, Answer 2, Asking 2, Body 2, Call 3, Calls 2, Counted 2, End 3, Ending 2, Event 2, Fates 2, Group 2, Handle 2, Home 2, Kind 2,
    Life 2, Line 2, Mark 2, Mistake 2, Mover 2, Named 2, Notes 2, Order 2, Place 2, Reading 3, Reason 2, Refusal 2, Refusals 2, Run 2,
    Setting 2, ShownKind 2, Slots 2, Step 3, Told 3, Window 2, Wish 2
"""

TYPE = re.compile(r"^pub (?:struct|enum|union|trait|type) (\w+)")


def types_of(crate):
    """The public types of a crate, each with its file and line."""
    for file in sorted((crate / "src").rglob("*.rt")):
        for number, line in enumerate(file.read_text().splitlines(), 1):
            if found := TYPE.match(line):
                yield found.group(1), f"{file.relative_to(TOP)}:{number}"


def senses():
    """Each name of a public type, with a place in each crate that has such a type."""
    crates = TOP / "crates"
    places = {}
    for crate in sorted([*crates.glob("tp_*"), *crates.glob("poolrun*")]):
        for name, place in types_of(crate):
            places.setdefault(name, {}).setdefault(crate.name, place)
    return {name: list(found.values()) for name, found in places.items()}


def main():
    allowed = {name: int(count) for name, count in (item.split() for item in ALLOWED.split(","))}
    found = senses()
    wrong = 0
    for name, places in sorted(found.items()):
        if len(places) > allowed.get(name, 1):
            wrong += 1
            print(f"same_names: {name} is the name of types of {len(places)} crates:")
            print("".join(f"  {place}\n" for place in places), end="")
    for name, count in allowed.items():
        if len(found.get(name, [])) < count:
            wrong += 1
            print(f"same_names: {name} has fewer than {count} senses: make ALLOWED shorter")
    if not wrong:
        print(f"same_names: {len(allowed)} names have more than one sense, and no new one has")
    return 1 if wrong else 0


if __name__ == "__main__":
    sys.exit(main())
