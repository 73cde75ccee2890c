"""The Python package: a wheel with the shared library inside, for any CPython from 3.9 on. It needs no compiler where it is installed."""

import base64
import hashlib
import os
import platform
import re
import subprocess
import sys
import tempfile
import zipfile

from packages import BINDINGS, ROOT, LeftOut, libraries, must, needs, text_of

SOURCES = os.path.join(BINDINGS, "python", "zellunkay")
PAGE = os.path.join(ROOT, "docs", "bindings", "PYTHON.md")

METADATA = """Metadata-Version: 2.1
Name: zellunkay
Version: {version}
Summary: A thread pool in the form of concurrent.futures, over a proved core, and the judgment of its records
Requires-Python: >=3.9
Description-Content-Type: text/markdown

{page}"""

WHEEL = """Wheel-Version: 1.0
Generator: tools/packages/python.py
Root-Is-Purelib: false
Tag: {tag}
"""


def shared(archives, folder, major):
    """libzellunkay.so with the calls of bindings/c/paths.c too."""
    needs("cc")
    paths = os.path.join(folder, "paths.o")
    words = ["cc", "-std=gnu11", "-O2", "-fPIC", "-Wall", "-Wextra", "-ffunction-sections", "-I", os.path.join(BINDINGS, "include")]
    must([*words, "-c", os.path.join(BINDINGS, "c", "paths.c"), "-o", paths])
    return libraries.shared([paths, *archives], folder, major)


def glibc_of(library):
    """The version of the C library that this one needs at least, which a name of a `manylinux` platform tells."""
    needs("readelf")
    said = lambda *flags: subprocess.run(["readelf", *flags, library], stdout=subprocess.PIPE, text=True, check=True).stdout
    others = set(re.findall(r"\(NEEDED\).*\[(.*)\]", said("-d"))) - {"libc.so.6"}
    if others:
        raise AssertionError(f"{library} needs {', '.join(sorted(others))}, and manylinux allows the C library alone")
    wanted = [tuple(int(part) for part in found.split(".")) for found in re.findall(r"GLIBC_([\d.]+)", said("--version-info"))]
    # Below 2.5 no platform is named.
    return max([(2, 5), *wanted])


def tag_of(library):
    if platform.system() != "Linux" or platform.libc_ver()[0] != "glibc":
        raise LeftOut("this is no Linux with glibc")
    major, minor = glibc_of(library)[:2]
    return f"py3-none-manylinux_{major}_{minor}_{platform.machine()}"


def files_of(library, version, tag):
    """The wheel's files: their paths there, and their bytes."""
    for name in sorted(os.listdir(SOURCES)):
        if name.endswith(".py") or name == "py.typed":
            with open(os.path.join(SOURCES, name), "rb") as file:
                yield f"zellunkay/{name}", file.read()
    with open(library, "rb") as file:
        yield "zellunkay/libzellunkay.so", file.read()
    info = f"zellunkay-{version}.dist-info"
    yield f"{info}/METADATA", METADATA.format(version=version, page=text_of(PAGE)).encode()
    yield f"{info}/WHEEL", WHEEL.format(tag=tag).encode()


def write(path, files, info):
    """The archive of these files, with the list of them. The same files have the same bytes each time."""
    listed = ""
    with zipfile.ZipFile(path, "w", zipfile.ZIP_DEFLATED) as wheel:

        def add(name, content):
            entry = zipfile.ZipInfo(name, (1980, 1, 1, 0, 0, 0))
            entry.compress_type, entry.external_attr = zipfile.ZIP_DEFLATED, (0o755 if name.endswith(".so") else 0o644) << 16
            wheel.writestr(entry, content)

        for name, content in files:
            add(name, content)
            digest = base64.urlsafe_b64encode(hashlib.sha256(content).digest()).rstrip(b"=").decode()
            listed += f"{name},sha256={digest},{len(content)}\n"
        add(f"{info}/RECORD", (listed + f"{info}/RECORD,,\n").encode())


def example():
    """The program of the page."""
    return re.search(r"```python\n(.*?)```", text_of(PAGE), re.S)[1]


def is_usable(wheel):
    """Whether the page's program runs where the wheel was installed, in a folder of its own and with nothing else."""
    with tempfile.TemporaryDirectory() as folder:
        python = os.path.join(folder, "venv", "bin", "python")
        must([sys.executable, "-m", "venv", os.path.join(folder, "venv")])
        must([python, "-m", "pip", "install", "--quiet", "--no-index", wheel])
        program = os.path.join(folder, "example.py")
        with open(program, "w") as file:
            file.write(example())
        told = subprocess.run([python, "-I", program], cwd=folder, env={}, stdout=subprocess.PIPE, text=True)
        return told.returncode == 0 and told.stdout.startswith("385 0\nlegal ")


def package(out, parts):
    with tempfile.TemporaryDirectory() as folder:
        library = shared(parts.archives, folder, parts.version.split(".")[0])
        tag = tag_of(library)
        wheel = os.path.join(out, f"zellunkay-{parts.version}-{tag}.whl")
        write(wheel, files_of(library, parts.version, tag), f"zellunkay-{parts.version}.dist-info")
    if not is_usable(wheel):
        raise AssertionError("the wheel is not as it has to be")
    return [wheel]
