"""The Rust package: the crate, with the core's archives and its page in it, as `cargo package` makes it. That builds it too, from nothing
but what is in it."""

import os
import re
import shutil
import tempfile

from packages import BINDINGS, ROOT, must, needs, text_of

# What the archives are made for: where the crate's build script looks for them.
TARGET = "x86_64-unknown-linux-gnu"


def put(crate, parts):
    """The crate with all that a user of it needs."""
    shutil.copytree(os.path.join(BINDINGS, "rust"), crate, ignore=shutil.ignore_patterns("target", "native"))
    native = os.path.join(crate, "native", TARGET)
    os.makedirs(native)
    for archive in parts.archives:
        must(["strip", "-g", archive, "-o", os.path.join(native, os.path.basename(archive))])
    # Other pages are not in the package.
    page = re.sub(r"\[([^]]*)\]\(\.\./[^)]*\)", r"\1", text_of(os.path.join(ROOT, "docs", "bindings", "RUST.md")))
    with open(os.path.join(crate, "README.md"), "w", encoding="utf-8") as file:
        file.write(page)
    for name in ("Cargo.toml", "Cargo.lock"):
        path = os.path.join(crate, name)
        text = re.sub(r'(name = "zellunkay"\nversion = )"[^"]*"', rf'\1"{parts.version}"', text_of(path))
        with open(path, "w", encoding="utf-8") as file:
            file.write(text)


def package(out, parts):
    needs("cargo")
    needs("strip")
    with tempfile.TemporaryDirectory() as folder:
        crate, target = os.path.join(folder, "zellunkay"), os.path.join(folder, "target")
        put(crate, parts)
        env = {name: value for name, value in os.environ.items() if name != "ZELLUNKAY_LIBS"}
        must(["cargo", "package", "--offline", "--quiet"], cwd=crate, env={**env, "CARGO_TARGET_DIR": target})
        made = os.path.join(out, f"zellunkay-{parts.version}.crate")
        shutil.copy(os.path.join(target, "package", os.path.basename(made)), made)
    return [made]
