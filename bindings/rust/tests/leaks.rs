//! What is over leaves nothing behind: no memory, and no stack of a thread.

mod common;

use common::{closed, silent, until};
use std::fs;
use std::sync::atomic::{AtomicU64, Ordering};
use std::sync::{Arc, Mutex, MutexGuard, PoisonError};
use std::time::Duration;
use zellunkay::{Builder, ThreadPool};

/// The memory of this process is looked at by one test at a time.
fn alone() -> MutexGuard<'static, ()> {
    static ALONE: Mutex<()> = Mutex::new(());
    ALONE.lock().unwrap_or_else(PoisonError::into_inner)
}

/// How many mappings this process has, two of which are a thread's stack and its guard, and how many pages are in memory.
fn memory() -> (usize, u64) {
    let maps = fs::read_to_string("/proc/self/maps").unwrap().lines().count();
    let pages = fs::read_to_string("/proc/self/statm").unwrap().split(' ').nth(1).unwrap().parse().unwrap();
    (maps, pages)
}

/// Ends so many workers, one after another.
fn end_workers(pool: &ThreadPool, workers: u32) {
    for _ in 0..workers {
        pool.execute(|| panic!("on purpose")).unwrap();
    }
    let (view, before) = (|| pool.view(), pool.view().submitted);
    until("each panics", || view().run >= before);
}

#[test]
fn forty_thousand_workers_end_and_leave_nothing() {
    let _alone = alone();
    silent();
    let pool = ThreadPool::fixed(2).unwrap();
    end_workers(&pool, 2000);
    let before = memory();
    for _ in 0..20 {
        end_workers(&pool, 2000);
        let now = memory();
        assert!(now.0 < before.0 + 60, "{} mappings, before {}", now.0, before.0);
        assert!(now.1 < before.1 + 2000, "{} pages, before {}", now.1, before.1);
    }
    assert_eq!(closed(pool).view.run, 42_000);
}

#[test]
fn workers_that_time_out_leave_nothing() {
    let _alone = alone();
    let pool = Builder::new(0).maximum(4).handoff().keep_alive(Duration::from_millis(1)).open().unwrap();
    let mut before = None;
    for round in 0..600 {
        let mut open: Vec<_> = (0..4).filter_map(|_| pool.submit(|| ()).ok()).collect();
        open.drain(..).for_each(|future| future.get().unwrap());
        until("all workers leave", || pool.view().live == 0);
        if round == 100 {
            before = Some(memory());
        }
    }
    assert!(memory().0 < before.unwrap().0 + 60, "{:?}, before {before:?}", memory());
    closed(pool);
}

#[test]
fn a_million_tasks_leave_nothing() {
    let _alone = alone();
    let pool = ThreadPool::fixed(4).unwrap();
    let sum = Arc::new(AtomicU64::new(0));
    let mut before = None;
    for round in 0..50u64 {
        for number in 0..20_000 {
            let sum = sum.clone();
            pool.execute(move || {
                sum.fetch_add(number, Ordering::Relaxed);
            })
            .unwrap();
        }
        until("the queue is empty", || pool.view().queued == 0);
        if round == 5 {
            before = Some(memory().1);
        }
    }
    let (before, after) = (before.unwrap(), memory().1);
    assert!(after < before + 3000, "{after} pages, before {before}");
    let closed = closed(pool);
    assert_eq!(sum.load(Ordering::SeqCst), 50 * (20_000 * 19_999 / 2));
    assert_eq!((closed.view.run, closed.record), (1_000_000, None));
}
