//! Endings, and texts at the limit.

use std::thread;
use zellunkay::{audit, steps, Error};

#[test]
fn endings() {
    assert_eq!(steps(b"pool 1 1 unbounded keep 0 abort\n").ending, Ok(()));
    assert_eq!(steps(b"").ending, Err(Error::BadLine));
    assert_eq!(steps(b"pool 2 1 unbounded keep 0 abort\n").ending, Err(Error::BadSizes));
    assert_eq!(audit(b"tprecord 2\npool 1 1 unbounded keep 0 abort\nend 0\n").ending, Ok(()));
    assert_eq!(audit(b"tprecord 2\npool 1 1 unbounded keep 0 abort\n1 open w0 live\nend 1\n").ending, Err(Error::Flaw));
    assert_eq!(audit(b"tprecord 2\npool 1 1 unbounded keep 0 abort\nend 1\n").ending, Err(Error::BadEntry));
    assert_eq!(Error::Flaw.number(), 32);
}

#[test]
fn longest() {
    let mut text = vec![b'\n'; 1_048_577];
    assert_eq!(steps(&text).output, b"refused 25 ReadFailed\n");
    assert_eq!(audit(&text).output, b"refused 25 ReadFailed\n");
    text.pop();
    assert_eq!(steps(&text).output, b"refused 23 BadLine 1048577\n");
}

#[test]
fn any_thread_calls() {
    let text = b"pool 1 1 unbounded keep 0 abort\nsubmit plain 5\nopen 0\ntake 0\nbegin 0\nend 0\n";
    let told = steps(text);
    thread::scope(|scope| {
        for _ in 0..4 {
            scope.spawn(|| (0..100).for_each(|_| assert_eq!(steps(text), told)));
        }
    });
}
