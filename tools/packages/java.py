"""The Java package: a jar with the native library inside, for Java 17 and later on Linux. It needs no compiler where it is used."""

import glob
import os
import platform
import re
import subprocess
import tempfile
import zipfile

from packages import BINDINGS, ROOT, LeftOut, must, needs, text_of

JAVA = os.path.join(BINDINGS, "java")
PAGE = os.path.join(ROOT, "docs", "bindings", "JAVA.md")
MANIFEST = "Manifest-Version: 1.0\nImplementation-Title: zellunkay\nImplementation-Version: {version}\nAutomatic-Module-Name: io.zellunkay\n\n"


def native(archives, folder):
    """The library for Java, with the proved core inside."""
    needs("cc")
    needs("javac")
    home = os.path.dirname(os.path.dirname(os.path.realpath(subprocess.run(["which", "javac"], stdout=subprocess.PIPE, text=True).stdout.strip())))
    headers = os.path.join(home, "include")
    if not os.path.exists(os.path.join(headers, "jni.h")):
        raise LeftOut(f"there is no {headers}/jni.h")
    out, script = os.path.join(folder, "libzellunkay_java.so"), os.path.join(folder, "java.map")
    with open(script, "w") as file:
        file.write("{ global: Java_*; local: *; };\n")
    words = ["cc", "-std=gnu11", "-O2", "-fPIC", "-shared", "-Wall", "-Wextra", "-I", headers, "-I", os.path.join(headers, "linux"), "-I", os.path.join(BINDINGS, "include")]
    flags = [f"-Wl,--version-script={script}", "-Wl,-z,text", "-Wl,-z,defs", "-Wl,-z,relro", "-Wl,-z,now", "-Wl,--gc-sections"]
    must([*words, *flags, os.path.join(JAVA, "c", "core.c"), *archives, "-o", out])
    return out


def classes(sources, folder, *below):
    needs("javac")
    must(["javac", "-Xlint:all", "-Werror", "--release", "17", "-d", folder, *(["-cp", ":".join(below)] if below else []), *sorted(sources)])
    return folder


def tested(archives, folder):
    """Plays the cases against the JDK's pool and ours."""
    ours = classes(glob.glob(f"{JAVA}/src/io/zellunkay/*.java"), os.path.join(folder, "classes"))
    cases = classes(glob.glob(f"{JAVA}/test/*.java"), os.path.join(folder, "cases"), ours)
    library = native(archives, folder)
    return subprocess.run(["java", "-Xcheck:jni", f"-Dzellunkay.library={library}", "-cp", f"{ours}:{cases}", "Cases"]).returncode == 0


def machine():
    """As Java names this machine."""
    return {"x86_64": "amd64"}.get(platform.machine(), platform.machine())


def is_usable(jar):
    """Whether the page's program prints what stands there, with the jar alone."""
    with tempfile.TemporaryDirectory() as folder:
        program = os.path.join(folder, "Ten.java")
        with open(program, "w") as file:
            file.write(re.search(r"```java\n(.*?)```", text_of(PAGE), re.S)[1])
        told = subprocess.run(["java", "-cp", jar, program], cwd=folder, stdout=subprocess.PIPE, text=True)
        return told.returncode == 0 and told.stdout.startswith("385 0\nlegal ")


def package(out, parts):
    jar = os.path.join(out, f"zellunkay-{parts.version}.jar")
    with tempfile.TemporaryDirectory() as folder:
        made = classes(glob.glob(f"{JAVA}/src/io/zellunkay/*.java"), os.path.join(folder, "classes"))
        library = native(parts.archives, folder)
        files = [(os.path.relpath(path, made), path) for path in sorted(glob.glob(f"{made}/io/zellunkay/*.class"))]
        files.append((f"io/zellunkay/linux-{machine()}/libzellunkay_java.so", library))
        with zipfile.ZipFile(jar, "w", zipfile.ZIP_DEFLATED) as archive:

            def add(name, content):
                entry = zipfile.ZipInfo(name, (1980, 1, 1, 0, 0, 0))
                entry.compress_type, entry.external_attr = zipfile.ZIP_DEFLATED, 0o644 << 16
                archive.writestr(entry, content)

            add("META-INF/MANIFEST.MF", MANIFEST.format(version=parts.version))
            for name, path in files:
                with open(path, "rb") as file:
                    add(name, file.read())
    if not is_usable(jar):
        raise AssertionError("the jar is not as it has to be")
    return [jar]
