"""The library in the two forms that programs link, made of the archive that `rt lib` makes: libzellunkay.a and libzellunkay.so."""

import os
import re

from packages import BINDINGS, HEADER, must, needs, text_of

SONAME = "libzellunkay.so"
# What the library is to define for others: the calls of the header, and nothing else.
SCRIPT = "{ global: zk_*; local: *; };\n"


def core_calls():
    """The library's own functions, as the header declares them."""
    return list(dict.fromkeys(re.findall(r"^\w+ (zk_core_\w+)\(", text_of(HEADER), re.M)))


def checked_calls():
    """The functions that test what they are given."""
    return list(dict.fromkeys(re.findall(r"^ZK_API [\w *]*?(zk_\w+)\(", text_of(HEADER), re.M)))


def checked(folder):
    """The checked functions as an object."""
    needs("cc")
    out = os.path.join(folder, "zellunkay.o")
    words = ["cc", "-std=gnu11", "-O2", "-fPIC", "-Wall", "-Wextra", "-ffunction-sections", "-I", os.path.join(BINDINGS, "include")]
    must([*words, "-c", os.path.join(BINDINGS, "c", "zellunkay.c"), "-o", out])
    return out


def shared(archives, folder, major):
    """libzellunkay.so in this folder: it defines zk_* alone, and has no text that is changed as it is loaded."""
    script = os.path.join(folder, "zellunkay.map")
    with open(script, "w") as file:
        file.write(SCRIPT)
    out = os.path.join(folder, SONAME)
    wanted = [f"-Wl,-u,{name}" for name in core_calls()]
    flags = [f"-Wl,-soname,{SONAME}.{major}", f"-Wl,--version-script={script}", "-Wl,-z,text", "-Wl,-z,defs", "-Wl,-z,relro", "-Wl,-z,now", "-Wl,--gc-sections"]
    must(["cc", "-shared", *wanted, *flags, checked(folder), *archives, "-o", out])
    return out


def static(archives, folder):
    """libzellunkay.a in this folder: one archive in place of two, with the checked functions."""
    needs("ar")
    out = os.path.join(folder, "libzellunkay.a")
    lines = [f"create {out}", *[f"addlib {archive}" for archive in archives], f"addmod {checked(folder)}", "save", "end"]
    must(["ar", "-M"], input="\n".join(lines) + "\n", text=True)
    return out
