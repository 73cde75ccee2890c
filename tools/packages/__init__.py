"""What the packages of the bindings share: each module of this folder makes one language's package of the proved library, by a function

    package(out, parts)

which makes what it makes in the folder `out`, and answers the paths there of the files that a user gets. It raises LeftOut where this
machine cannot make it. `parts` are Parts.
"""

import gzip
import os
import re
import shutil
import subprocess
import tarfile
from dataclasses import dataclass

ROOT = os.path.dirname(os.path.dirname(os.path.dirname(os.path.abspath(__file__))))
BINDINGS = os.path.join(ROOT, "bindings")
HEADER = os.path.join(BINDINGS, "include", "zellunkay.h")


class LeftOut(Exception):
    """A step that this machine cannot make, and why."""


@dataclass
class Parts:
    """What a package is made of."""

    version: str
    """The version of the packages, as `2.0.0`: its first number is that of the header's calls."""
    archives: list
    """The paths of libtp_c.a and of the kit's liblibc_c.a."""
    shared: str
    """The path of libzellunkay.so."""
    static: str
    """The path of libzellunkay.a, which holds all that the shared library does."""


def needs(program):
    if not shutil.which(program):
        raise LeftOut(f"there is no {program}")


def run(words, **how):
    print("$", " ".join(words), flush=True)
    return subprocess.run(words, **how).returncode == 0


def must(words, **how):
    if not run(words, **how):
        raise AssertionError(f"{words[0]} failed")


def archived(folder):
    """The folder as an archive beside it: of the same files it has the same bytes."""
    def plain(entry):
        entry.mtime, entry.uid, entry.gid, entry.uname, entry.gname = 0, 0, 0, "", ""
        return entry

    out = f"{folder}.tar.gz"
    with open(out, "wb") as file, gzip.GzipFile("", "wb", 9, file, 0) as packed, tarfile.open(fileobj=packed, mode="w", format=tarfile.USTAR_FORMAT) as tar:
        tar.add(folder, os.path.basename(folder), filter=plain)
    return out


def text_of(path):
    with open(path, encoding="utf-8") as file:
        return file.read()


def version():
    """The version of the packages: that of the header's calls, and no change of the same calls since."""
    return re.search(r"#define ZK_VERSION (\d+)", text_of(HEADER))[1] + ".0.0"
