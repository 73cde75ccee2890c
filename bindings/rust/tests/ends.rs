//! How pools end: each accepted job runs, threads are joined, and nobody hangs.

mod common;

use common::{busy, closed, in_time, silent, until};
use std::panic::{catch_unwind, AssertUnwindSafe};
use std::sync::atomic::{AtomicU64, Ordering};
use std::sync::{mpsc, Arc, Mutex};
use std::thread;
use std::time::Duration;
use zellunkay::{audit, Builder, Error, Failure, Fate, ThreadPool};

fn counted(count: &Arc<AtomicU64>) -> impl FnOnce() + Send + 'static {
    let count = count.clone();
    move || {
        count.fetch_add(1, Ordering::SeqCst);
    }
}

#[test]
fn a_drop_runs_what_was_accepted() {
    let count = Arc::new(AtomicU64::new(0));
    let pool = ThreadPool::fixed(2).unwrap();
    for _ in 0..1000 {
        let one = counted(&count);
        pool.execute(move || {
            thread::sleep(Duration::from_micros(100));
            one();
        })
        .unwrap();
    }
    drop(pool);
    assert_eq!(count.load(Ordering::SeqCst), 1000);
}

#[test]
fn close_waits_and_joins() {
    let count = Arc::new(AtomicU64::new(0));
    let pool = Builder::new(2).record(10_000).open().unwrap();
    for _ in 0..100 {
        pool.execute(counted(&count)).unwrap();
    }
    let view = closed(pool).view;
    assert_eq!((view.run, view.live, count.load(Ordering::SeqCst)), (100, 0, 100));
}

#[test]
fn a_job_may_drop_its_pool() {
    in_time("a pool that its own job drops", || {
        let count = Arc::new(AtomicU64::new(0));
        let pool = Arc::new(Mutex::new(Some(ThreadPool::fixed(2).unwrap())));
        let held = pool.lock().unwrap();
        let (of_job, one) = (pool.clone(), counted(&count));
        let there = held.as_ref().unwrap();
        there.execute(move || {
            drop(of_job.lock().unwrap().take());
            one();
        })
        .unwrap();
        for _ in 0..100 {
            there.execute(counted(&count)).unwrap();
        }
        drop(held);
        until("each job runs", || count.load(Ordering::SeqCst) == 101);
    });
}

#[test]
fn a_job_cant_close_its_pool() {
    in_time("a pool that its own job closes", || {
        let pool = Arc::new(Mutex::new(None));
        let (tell, told) = mpsc::channel();
        let mut held = pool.lock().unwrap();
        let of_job = pool.clone();
        let there = held.insert(ThreadPool::fixed(1).unwrap());
        there.execute(move || {
            let pool: ThreadPool = of_job.lock().unwrap().take().unwrap();
            tell.send(pool.close().err()).unwrap();
        })
        .unwrap();
        drop(held);
        assert_eq!(told.recv().unwrap(), Some(Error::OwnWorker));
    });
}

#[test]
fn shutdown_within_a_time() {
    let pool = ThreadPool::fixed(1).unwrap();
    assert!(!pool.is_shutdown());
    let go = busy(&pool);
    let lost = pool.submit(|| 1).unwrap();
    let handed = pool.shutdown_within(Duration::from_millis(20)).unwrap();
    assert_eq!(handed.iter().map(|job| job.task).collect::<Vec<_>>(), [1]);
    assert!(matches!(lost.get(), Err(Failure::Lost(Fate::HandedBack))));
    assert!(pool.is_shutdown() && !pool.is_terminated());
    drop(go);
    assert!(pool.await_termination(Duration::MAX) && pool.is_terminated());
    let quick = ThreadPool::fixed(1).unwrap();
    quick.execute(|| ()).unwrap();
    assert!(quick.shutdown_within(Duration::MAX).unwrap().is_empty() && quick.is_terminated());
}

#[test]
fn a_stopped_pool_hands_no_borrows_back() {
    in_time("a scope whose pool is stopped", || {
        let pool = ThreadPool::fixed(1).unwrap();
        let go = busy(&pool);
        let plain = pool.execute(|| ()).unwrap();
        let word = String::from("borrowed");
        let handed = pool.scope(|scope| {
            let lost = scope.submit(|| word.len()).unwrap();
            let handed = pool.shutdown_now().unwrap();
            assert!(matches!(lost.get(), Err(Failure::Lost(Fate::HandedBack))));
            handed
        });
        assert_eq!(handed.iter().map(|job| job.task).collect::<Vec<_>>(), [plain]);
        drop(go);
    });
}

/// A stack that no machine has.
const NO_STACK: usize = 1 << 60;

#[test]
fn no_thread_can_be_made() {
    in_time("a pool without threads", || {
        let pool = Builder::new(2).stack_size(NO_STACK).record(1000).open().unwrap();
        let refused = pool.submit(|| 5).unwrap_err();
        assert_eq!((refused.error, (refused.body)()), (Error::NoThread, 5));
        assert_eq!(pool.scope(|scope| scope.submit(|| 6).map(|_| ()).unwrap_err().error), Error::NoThread);
        assert_eq!(pool.prestart(), Ok(false));
        assert_eq!(closed(pool).view.removed, 2);
        let maximum = Builder::new(0).maximum(2).handoff().stack_size(NO_STACK).open().unwrap();
        assert_eq!(maximum.execute(|| ()).unwrap_err().error, Error::Rejected);
    });
}

#[test]
fn a_full_record_refuses_and_ends() {
    let pool = Builder::new(1).record(64).open().unwrap();
    let count = Arc::new(AtomicU64::new(0));
    let mut accepted = 0;
    let refused = loop {
        match pool.execute(counted(&count)) {
            Ok(_) => accepted += 1,
            Err(refused) => break refused,
        }
    };
    assert_eq!(refused.error, Error::BookFull);
    (refused.body)();
    closed(pool);
    assert_eq!(count.load(Ordering::SeqCst), accepted + 1);
}

#[test]
fn a_running_pool_tells_its_record() {
    let pool = Builder::new(1).record(1000).open().unwrap();
    let go = busy(&pool);
    assert_eq!(audit(&pool.record().unwrap()).ending, Ok(()));
    drop(go);
    assert_eq!(ThreadPool::fixed(1).unwrap().record(), Err(Error::WrongKind));
}

#[test]
fn a_pool_is_dropped_while_a_thread_panics() {
    silent();
    let count = Arc::new(AtomicU64::new(0));
    let one = counted(&count);
    let caught = catch_unwind(AssertUnwindSafe(|| {
        let pool = ThreadPool::fixed(1).unwrap();
        pool.execute(one).unwrap();
        panic!("on purpose");
    }));
    assert!(caught.is_err());
    assert_eq!(count.load(Ordering::SeqCst), 1);
}
