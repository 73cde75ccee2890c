"""The C package: header, libraries, a pkg-config file and a Makefile with `install`, in one archive."""

import os
import shutil
import subprocess
import tempfile

from packages import BINDINGS, HEADER, archived, must

PKG_CONFIG = """prefix=@PREFIX@
libdir=${{prefix}}/lib
includedir=${{prefix}}/include

Name: zellunkay
Description: The proved core of a thread pool
Version: {version}
Cflags: -I${{includedir}}
Libs: -L${{libdir}} -lzellunkay
"""

MAKEFILE = """# make install PREFIX=/usr/local: the header, the libraries, and a file for pkg-config.
PREFIX ?= /usr/local

install:
\tinstall -d $(DESTDIR)$(PREFIX)/include $(DESTDIR)$(PREFIX)/lib/pkgconfig
\tinstall -m 644 include/zellunkay.h $(DESTDIR)$(PREFIX)/include/
\tinstall -m 644 lib/libzellunkay.a $(DESTDIR)$(PREFIX)/lib/
\tinstall -m 755 lib/libzellunkay.so.{version} $(DESTDIR)$(PREFIX)/lib/
\tln -sf libzellunkay.so.{version} $(DESTDIR)$(PREFIX)/lib/libzellunkay.so.{major}
\tln -sf libzellunkay.so.{major} $(DESTDIR)$(PREFIX)/lib/libzellunkay.so
\tsed 's|@PREFIX@|$(PREFIX)|' zellunkay.pc > $(DESTDIR)$(PREFIX)/lib/pkgconfig/zellunkay.pc

.PHONY: install
"""


def said_by(words):
    return subprocess.run(words, stdout=subprocess.PIPE, text=True, check=True).stdout


def is_clean(shared, major):
    """Whether the shared library has its name, defines zk_* alone, and has no text that is changed as it is loaded."""
    defined = [line.split()[-1] for line in said_by(["nm", "-D", "--defined-only", shared]).splitlines()]
    dynamic = said_by(["readelf", "-d", shared])
    return defined and all(name.startswith("zk_") for name in defined) and f"[libzellunkay.so.{major}]" in dynamic and "TEXTREL" not in dynamic


def is_usable(folder):
    """Whether the example builds and runs over what `make install` installs, by the shared library and by the other."""
    with tempfile.TemporaryDirectory() as prefix:
        must(["make", "-s", "-C", folder, "install", f"PREFIX={prefix}"])
        lib, program = os.path.join(prefix, "lib"), os.path.join(prefix, "example")
        source = os.path.join(folder, "examples", "example.c")
        flags = ["-std=c11", "-Wall", "-Wextra", "-Werror", "-I", os.path.join(prefix, "include")]
        for links in (["-L", lib, "-lzellunkay", f"-Wl,-rpath,{lib}"], [os.path.join(lib, "libzellunkay.a")]):
            must(["cc", *flags, source, *links, "-o", program])
            if not said_by([program]).endswith(" completed=1 queued=0 live=1 largest=1\n"):
                return False
    return True


def package(out, parts):
    name = f"zellunkay-c-{parts.version}"
    folder = os.path.join(out, name)
    shutil.rmtree(folder, ignore_errors=True)
    for below in ("include", "lib", "examples"):
        os.makedirs(os.path.join(folder, below))
    shutil.copy(HEADER, os.path.join(folder, "include"))
    shutil.copy(parts.static, os.path.join(folder, "lib"))
    shutil.copy(parts.shared, os.path.join(folder, "lib", f"libzellunkay.so.{parts.version}"))
    shutil.copy(os.path.join(BINDINGS, "c", "example.c"), os.path.join(folder, "examples"))
    for file, text in (("zellunkay.pc", PKG_CONFIG), ("Makefile", MAKEFILE)):
        with open(os.path.join(folder, file), "w") as made:
            made.write(text.format(version=parts.version, major=parts.version.split(".")[0]))
    if not is_clean(parts.shared, parts.version.split(".")[0]) or not is_usable(folder):
        raise AssertionError("the C package is not as it has to be")
    return [archived(folder)]
