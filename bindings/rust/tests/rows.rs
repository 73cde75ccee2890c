//! The worked rows through the library: those of the folder that ZELLUNKAY_ROWS names, which tools/bindings.py makes.

use std::env;
use std::fs;
use std::path::PathBuf;
use zellunkay::{audit, explore, now, steps, Told};

/// What is told of a row, by its file's name: `audit-..`, `steps-..`, `explore-..`, or `now-ENTRY-..`.
fn told_of(name: &str, text: &[u8]) -> Told {
    match name.split_once('-').unwrap() {
        ("audit", _) => audit(text),
        ("explore", _) => explore(text, 1_000_000),
        ("now", rest) => now(text, Some(rest.split('-').next().unwrap().parse().unwrap())),
        _ => steps(text),
    }
}

#[test]
fn rows_are_answered() {
    let Some(folder) = env::var_os("ZELLUNKAY_ROWS").map(PathBuf::from) else {
        return;
    };
    let mut count = 0;
    for found in fs::read_dir(folder).unwrap() {
        let path = found.unwrap().path();
        if path.extension().and_then(|end| end.to_str()) != Some("in") {
            continue;
        }
        let name = path.file_name().unwrap().to_str().unwrap();
        let output = String::from_utf8(told_of(name, &fs::read(&path).unwrap()).output).unwrap();
        let wanted = fs::read_to_string(path.with_extension("out")).unwrap();
        // A row of ends does not say how many states there are, which the answer's first line begins with.
        let from = if name.starts_with("explore") { output.find("interleavings").unwrap() } else { 0 };
        assert_eq!(output[from..], wanted, "{path:?}");
        count += 1;
    }
    assert!(count > 70, "{count} rows");
}
