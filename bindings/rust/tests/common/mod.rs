//! What the tests of pools share.
#![allow(dead_code)]

use std::panic;
use std::sync::mpsc::{channel, Sender};
use std::thread;
use std::time::{Duration, Instant};
use zellunkay::{audit, Closed, ThreadPool};

/// Bodies panic here on purpose.
pub fn silent() {
    panic::set_hook(Box::new(|_| {}));
}

/// What is left of the pool, whose record is judged where it has one.
pub fn closed(pool: ThreadPool) -> Closed {
    let closed = pool.close().expect("no worker closes it");
    if let Some(record) = &closed.record {
        let told = audit(record);
        assert_eq!(told.ending, Ok(()), "{}\n{}", String::from_utf8_lossy(&told.output), String::from_utf8_lossy(record));
    }
    closed
}

/// Has a worker wait until what is answered is dropped.
pub fn busy(pool: &ThreadPool) -> Sender<()> {
    let (go, wait) = channel::<()>();
    let (begun, begins) = channel::<()>();
    pool.execute(move || {
        drop(begun);
        let _ = wait.recv();
    })
    .unwrap();
    let _ = begins.recv();
    go
}

/// Waits until it is so.
pub fn until(what: &str, mut is_so: impl FnMut() -> bool) {
    let start = Instant::now();
    while !is_so() {
        assert!(start.elapsed() < Duration::from_secs(60), "{what}");
        thread::sleep(Duration::from_millis(1));
    }
}

/// Fails where the function takes more than a minute: what hangs is told by its name.
pub fn in_time<T: Send + 'static>(name: &str, function: impl FnOnce() -> T + Send + 'static) -> T {
    let (tell, told) = channel();
    let thread = thread::spawn(move || {
        let value = function();
        let _ = tell.send(());
        value
    });
    match told.recv_timeout(Duration::from_secs(60)) {
        Err(std::sync::mpsc::RecvTimeoutError::Timeout) => panic!("{name} hangs"),
        _ => thread.join().unwrap_or_else(|_| panic!("{name} panics")),
    }
}
