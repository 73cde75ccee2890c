//! Panics of bodies, of drops and of handlers harm nobody else, and refused jobs come back.

mod common;

use common::{busy, closed, in_time, silent};
use std::panic::{catch_unwind, panic_any, AssertUnwindSafe};
use std::sync::atomic::{AtomicU64, Ordering};
use std::sync::Arc;
use std::thread;
use std::time::Duration;
use zellunkay::{Builder, Error, Failure, Fate, ThreadPool, Verdict};

/// Panics when it is dropped.
struct Bomb;

impl Drop for Bomb {
    fn drop(&mut self) {
        panic!("a drop panics on purpose");
    }
}

/// The pool's one worker still serves.
fn serves(pool: &ThreadPool) {
    let mut future = pool.submit(|| 5).unwrap();
    assert_eq!(future.get_timeout(Duration::from_secs(60)).unwrap(), 5);
}

#[test]
fn panics_are_told_and_workers_replaced() {
    silent();
    let pool = Builder::new(2).record(100_000).open().unwrap();
    for _ in 0..20 {
        pool.execute(|| panic!("on purpose")).unwrap();
    }
    let failure = pool.submit(|| -> u32 { panic!("on purpose") }).unwrap().get().unwrap_err();
    assert_eq!((failure.message(), failure.to_string().as_str()), (Some("on purpose"), "the task's body panicked: on purpose"));
    serves(&pool);
    assert_eq!(closed(pool).view.run, 22);
}

#[test]
fn drops_that_panic_leave_the_worker_alive() {
    silent();
    let pool = Builder::new(1).record(100_000).open().unwrap();
    // The payload of a plain body's panic.
    pool.execute(|| panic_any(Bomb)).unwrap();
    serves(&pool);
    // A value, and a payload, whose future is gone before they come: behind a body that waits for it.
    let go = busy(&pool);
    drop(pool.submit(|| Bomb).unwrap());
    drop(pool.submit(|| -> () { panic_any(Bomb) }).unwrap());
    drop(go);
    serves(&pool);
    // What a body has caught.
    let bomb = Bomb;
    pool.execute(move || drop(bomb)).unwrap();
    serves(&pool);
    // A value that comes after the cancel.
    let (begun, begins) = std::sync::mpsc::channel();
    let (go, wait) = std::sync::mpsc::channel::<()>();
    let future = pool.submit(move || {
        begun.send(()).unwrap();
        let _ = wait.recv();
        Bomb
    })
    .unwrap();
    begins.recv().unwrap();
    assert_eq!(future.cancel(true), Ok(true));
    drop(go);
    serves(&pool);
    closed(pool);
}

#[test]
fn lost_jobs_whose_drops_panic() {
    silent();
    let pool = Builder::new(1).bounded(1).policy(Verdict::DiscardOldest).open().unwrap();
    let go = busy(&pool);
    for _ in 0..5 {
        let bomb = Bomb;
        pool.execute(move || drop(bomb)).unwrap();
    }
    pool.execute(|| ()).unwrap();
    drop(go);
    assert_eq!(closed(pool).view.discarded, 5);
}

/// A pool whose queue is full, with a handler that panics.
fn full() -> (ThreadPool, std::sync::mpsc::Sender<()>) {
    let pool = Builder::new(1).bounded(1).handler(|_| panic!("a handler panics on purpose")).record(1000).open().unwrap();
    let go = busy(&pool);
    pool.execute(|| ()).unwrap();
    (pool, go)
}

#[test]
fn a_handler_that_panics_rejects() {
    silent();
    let (pool, go) = full();
    let dropped = Arc::new(());
    let weak = Arc::downgrade(&dropped);
    let caught = catch_unwind(AssertUnwindSafe(|| pool.execute(move || drop(dropped))));
    assert_eq!(caught.unwrap_err().downcast_ref::<&str>(), Some(&"a handler panics on purpose"));
    assert!(weak.upgrade().is_none(), "the job is gone");
    drop(go);
    let view = closed(pool).view;
    assert_eq!((view.submitted, view.run, view.rejected), (3, 2, 1));
}

#[test]
fn a_scope_ends_where_the_handler_panics() {
    silent();
    in_time("a scope with a handler that panics", || {
        let (pool, go) = full();
        let word = String::from("borrowed");
        let caught = catch_unwind(AssertUnwindSafe(|| pool.scope(|scope| scope.submit(|| word.len()).map(|_| ()))));
        assert!(caught.is_err());
        drop(go);
        closed(pool);
    });
}

#[test]
fn a_scope_waits_where_it_panics() {
    silent();
    let pool = ThreadPool::fixed(2).unwrap();
    let count = AtomicU64::new(0);
    let caught = catch_unwind(AssertUnwindSafe(|| {
        pool.scope(|scope| {
            for _ in 0..10 {
                scope.submit(|| {
                    thread::sleep(Duration::from_millis(1));
                    count.fetch_add(1, Ordering::SeqCst)
                })
                .unwrap();
            }
            panic!("on purpose");
        })
    }));
    assert!(caught.is_err());
    assert_eq!(count.load(Ordering::SeqCst), 10);
    closed(pool);
}

#[test]
fn refused_jobs_come_back_with_what_they_hold() {
    let pool = Builder::new(1).bounded(1).open().unwrap();
    let go = busy(&pool);
    pool.execute(|| ()).unwrap();
    let words = vec![String::from("kept")];
    let refused = pool.submit(move || words).unwrap_err();
    assert_eq!((refused.error, refused.to_string()), (Error::Rejected, Error::Rejected.to_string()));
    assert_eq!((refused.body)(), ["kept"]);
    let mut body = pool.submit_with_flag(|flag| flag.is_set()).unwrap_err().body;
    drop(go);
    let again = loop {
        match pool.submit_with_flag(body) {
            Ok(future) => break future,
            Err(refused) => body = refused.body,
        }
    };
    assert!(!again.get().unwrap());
    pool.shutdown();
    assert_eq!(pool.execute(|| ()).map_err(Error::from), Err(Error::Rejected));
}

#[test]
fn failures_are_errors() {
    let failure: Box<dyn std::error::Error> = Box::new(Failure::Lost(Fate::Discarded));
    assert_eq!(failure.to_string(), "the task left the pool without running: Discarded");
    assert_eq!(format!("{:?}", Failure::Panicked(Box::new("words"))), "Panicked(\"words\")");
    let pool = ThreadPool::fixed(1).unwrap();
    assert!(format!("{pool:?}").starts_with("ThreadPool { view: PoolView { state: Running,"), "{pool:?}");
}
