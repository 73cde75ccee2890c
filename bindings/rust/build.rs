//! Links the proved core. Its archives lie in the package, in `native/TARGET`; in the folders that `ZELLUNKAY_LIBS` names, with a colon
//! between; or, in the repository, where `rt lib` makes them. With the feature `shared` it is the library libzellunkay.so.

use std::env;
use std::path::{Path, PathBuf};
use std::process::{exit, Command};

/// The machine that the package's core is made for.
const TARGET: &str = "x86_64-unknown-linux-gnu";

/// The core, and what calls `malloc` for it.
const ARCHIVES: [&str; 2] = ["tp_c", "libc_c"];

/// Where a shared library mostly lies.
const USUAL: [&str; 5] = ["/usr/local/lib", "/usr/lib/x86_64-linux-gnu", "/usr/lib64", "/usr/lib", "/lib"];

fn set(name: &str) -> Option<String> {
    println!("cargo:rerun-if-env-changed={name}");
    env::var(name).ok().filter(|value| !value.is_empty())
}

fn stop(lines: &[String]) -> ! {
    eprintln!("\nzellunkay: {}\n", lines.join("\n  "));
    exit(1);
}

/// The folders that `ZELLUNKAY_LIBS` names.
fn named() -> Option<Vec<PathBuf>> {
    set("ZELLUNKAY_LIBS").map(|folders| folders.split(':').map(PathBuf::from).collect())
}

fn list(folders: &[PathBuf]) -> String {
    folders.iter().map(|folder| folder.display().to_string()).collect::<Vec<_>>().join(", ")
}

fn link(kind: &str, name: &str, at: &Path) {
    println!("cargo:rustc-link-search=native={}", at.parent().unwrap_or(Path::new(".")).display());
    println!("cargo:rustc-link-lib={kind}={name}");
    println!("cargo:rerun-if-changed={}", at.display());
}

fn link_static(target: &str) {
    let here = PathBuf::from(env::var_os("CARGO_MANIFEST_DIR").expect("cargo sets it"));
    let folders = named().unwrap_or_else(|| {
        vec![here.join("native").join(target), here.join("../../crates/tp_c/out"), PathBuf::from("/opt/rattle/c")]
    });
    for name in ARCHIVES {
        let file = format!("lib{name}.a");
        match folders.iter().map(|folder| folder.join(&file)).find(|path| path.is_file()) {
            Some(path) => link("static", name, &path),
            None if target != TARGET => stop(&[
                format!("the package has the core for {TARGET} alone, and this is {target}."),
                "Make the archives libtp_c.a and liblibc_c.a for it in the repository, by `rt lib` in crates/tp_c,".to_string(),
                "and name their folders in the variable ZELLUNKAY_LIBS, with a colon between.".to_string(),
            ]),
            None => stop(&[
                format!("there is no {file} in {}.", list(&folders)),
                "In the repository: make it by `rt lib` in crates/tp_c, or name the folders of libtp_c.a and liblibc_c.a".to_string(),
                "in the variable ZELLUNKAY_LIBS, with a colon between.".to_string(),
                "Elsewhere: take the package that `python3 tools/bindings.py package` makes, which has both.".to_string(),
            ]),
        }
    }
}

fn link_shared() {
    let by_pkg_config = || {
        let out = Command::new("pkg-config").args(["--variable=libdir", "zellunkay"]).output().ok()?;
        let folder = String::from_utf8(out.stdout).ok()?;
        out.status.success().then(|| vec![PathBuf::from(folder.trim())])
    };
    let folders = named().or_else(by_pkg_config).unwrap_or_else(|| USUAL.map(PathBuf::from).to_vec());
    match folders.iter().map(|folder| folder.join("libzellunkay.so")).find(|path| path.is_file()) {
        Some(path) => link("dylib", "zellunkay", &path),
        None => stop(&[
            format!("there is no libzellunkay.so in {}.", list(&folders)),
            "Install it, or name its folder in the variable ZELLUNKAY_LIBS. Where it runs the loader has to find it, too,".to_string(),
            "as by LD_LIBRARY_PATH. Or use the feature `static`, which needs no library.".to_string(),
        ]),
    }
}

fn main() {
    // Pages alone are made there, and nothing is linked.
    if set("DOCS_RS").is_some() {
        return;
    }
    let is_on = |feature: &str| env::var_os(format!("CARGO_FEATURE_{feature}")).is_some();
    match (is_on("STATIC"), is_on("SHARED")) {
        (false, true) => link_shared(),
        (true, is_shared) => {
            if is_shared {
                println!("cargo:warning=zellunkay: the features `static` and `shared` are both on, so `static` is taken");
            }
            link_static(&env::var("TARGET").expect("cargo sets it"));
        }
        (false, false) => stop(&["one of the features `static` and `shared` has to be on.".to_string()]),
    }
}
