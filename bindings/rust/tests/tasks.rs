//! Futures, groups, single tasks and settings.

mod common;

use common::{busy, closed, in_time, until};
use std::sync::atomic::{AtomicU64, Ordering};
use std::sync::{mpsc, Arc};
use std::thread;
use std::time::{Duration, Instant};
use zellunkay::{Builder, Error, Failure, Fate, ThreadPool, Verdict};

#[test]
fn a_job_reads_its_flag() {
    in_time("a job that waits for its flag", || {
        let pool = Builder::new(2).record(1000).open().unwrap();
        let (begun, begins) = mpsc::channel();
        let (told, ends) = mpsc::channel();
        let watch = |name: &'static str| {
            let (begun, told) = (begun.clone(), told.clone());
            pool.submit_with_flag(move |flag| {
                begun.send(()).unwrap();
                while !flag.is_set() {
                    thread::yield_now();
                }
                told.send(name).unwrap();
            })
            .unwrap()
        };
        // By a cancel that asks for it, and by a stop.
        let first = watch("cancelled");
        begins.recv().unwrap();
        assert_eq!(first.cancel(true), Ok(true));
        assert_eq!(ends.recv().unwrap(), "cancelled");
        let second = watch("stopped");
        begins.recv().unwrap();
        assert!(pool.shutdown_now().unwrap().is_empty());
        assert_eq!(ends.recv().unwrap(), "stopped");
        assert!(matches!(first.get(), Err(Failure::Cancelled)));
        assert!(second.get().is_ok());
        closed(pool);
    });
}

#[test]
fn a_future_is_asked_again() {
    let pool = ThreadPool::fixed(1).unwrap();
    let go = busy(&pool);
    let mut future = pool.submit(|| 7).unwrap();
    assert!(matches!(future.get_timeout(Duration::from_millis(1)), Err(Failure::TimedOut)));
    assert!(matches!(future.get_timeout(Duration::ZERO), Err(Failure::TimedOut)));
    drop(go);
    assert_eq!(future.get_timeout(Duration::MAX).unwrap(), 7);
    assert!(matches!(future.get_timeout(Duration::MAX), Err(Failure::Taken)));
    assert!(matches!(future.get(), Err(Failure::Taken)));
}

#[test]
fn the_longest_keep_alive_has_no_end() {
    let pool = Builder::new(0).maximum(1).handoff().keep_alive(Duration::MAX).open().unwrap();
    pool.submit(|| ()).unwrap().get().unwrap();
    pool.set_keep_alive(Duration::from_millis(1)).unwrap();
    until("the worker leaves in time", || pool.view().live == 0);
    assert!(pool.await_termination(Duration::from_millis(1)) == pool.is_terminated());
}

#[test]
fn a_group_tells_each_task_once() {
    in_time("a group", || {
        let pool = Builder::new(3).record(10_000).open().unwrap();
        let group = pool.group();
        let numbers: Vec<u32> = (0..100u64).map(|number| group.submit(move || number).unwrap()).collect();
        let mut told: Vec<_> = std::iter::from_fn(|| group.take().unwrap()).map(|(task, value)| (task, value.unwrap())).collect();
        told.sort();
        assert_eq!(told, numbers.into_iter().zip(0..).collect::<Vec<_>>());
        assert_eq!((group.open(), group.take().unwrap().is_none()), (0, true));
        drop(group);
        closed(pool);
    });
}

#[test]
fn a_group_tells_what_was_cancelled_or_lost() {
    in_time("a group", || {
        let pool = Builder::new(1).record(1000).open().unwrap();
        let go = busy(&pool);
        let group = pool.group();
        let tasks: Vec<u32> = (0..4).map(|number| group.submit(move || number).unwrap()).collect();
        assert_eq!(group.cancel(tasks[1], false), Ok(true));
        assert!(pool.remove(tasks[2]).unwrap().is_some());
        let mut told = Vec::new();
        for _ in 0..2 {
            let (task, value) = group.take().unwrap().unwrap();
            told.push((task, value.unwrap_err().to_string()));
        }
        assert_eq!(told[0], (tasks[1], Failure::Cancelled.to_string()));
        assert_eq!(told[1], (tasks[2], Failure::Lost(Fate::Removed).to_string()));
        assert!(group.take_timeout(Duration::from_millis(1)).unwrap().is_none());
        assert_eq!(group.open(), 2);
        drop(go);
        assert_eq!(group.take().unwrap().unwrap().1.unwrap(), 0);
        assert_eq!(group.take().unwrap().unwrap().1.unwrap(), 3);
        pool.shutdown();
        assert_eq!(group.submit(|| 0).unwrap_err().error, Error::Rejected);
        assert!(group.take().unwrap().is_none());
        closed(pool);
    });
}

#[test]
fn many_take_of_a_group() {
    in_time("takers of a group", || {
        let pool = ThreadPool::fixed(2).unwrap();
        let group = pool.group();
        let sum = AtomicU64::new(0);
        thread::scope(|scope| {
            for round in 0..3 {
                let (group, sum) = (&group, &sum);
                for number in 0..1000u64 {
                    group.submit(move || number + round).unwrap();
                }
                for _ in 0..2 {
                    scope.spawn(|| {
                        while let Some((_, value)) = group.take().unwrap() {
                            sum.fetch_add(value.unwrap(), Ordering::SeqCst);
                        }
                    });
                }
            }
        });
        assert_eq!(sum.into_inner(), 3 * 999 * 500 + 3000);
        // A group that is gone leaves nothing behind: its tasks are over, and forgotten.
        group.submit(|| 0).unwrap();
        drop(group);
        closed(pool);
    });
}

#[test]
fn a_caller_runs_a_group() {
    let pool = Builder::new(1).bounded(1).policy(Verdict::CallerRuns).record(1000).open().unwrap();
    let go = busy(&pool);
    let group = pool.group();
    for number in 0..3 {
        group.submit(move || (number, thread::current().id())).unwrap();
    }
    let (number, thread) = group.take().unwrap().unwrap().1.unwrap();
    assert_eq!((number, thread), (1, thread::current().id()));
    drop(go);
    assert_eq!(std::iter::from_fn(|| group.take().unwrap()).count(), 2);
    drop(group);
    closed(pool);
}

#[test]
fn single_tasks_leave_the_queue() {
    let pool = Builder::new(1).record(1000).open().unwrap();
    let go = busy(&pool);
    let plain = pool.execute(|| ()).unwrap();
    let future = pool.submit(|| 5).unwrap();
    let back = pool.remove(future.task()).unwrap().unwrap();
    assert_eq!(back.task, future.task());
    (back.function)();
    assert!(matches!(future.get(), Err(Failure::Lost(Fate::Removed))));
    assert!(pool.remove(plain).unwrap().is_some() && pool.remove(plain).unwrap().is_none());
    assert!(pool.remove(1000).unwrap().is_none());
    let cancelled: Vec<_> = (0..3).map(|_| pool.submit(|| ()).unwrap()).collect();
    cancelled.iter().for_each(|future| assert_eq!(future.cancel(false), Ok(true)));
    assert_eq!((pool.purge(), pool.purge()), (Ok(3), Ok(0)));
    drop(go);
    let view = closed(pool).view;
    assert_eq!((view.removed, view.cancelled, view.run), (2, 3, 1));
}

#[test]
fn a_pool_without_a_record_forgets_what_is_purged() {
    let pool = ThreadPool::fixed(1).unwrap();
    let go = busy(&pool);
    for _ in 0..1000 {
        let futures: Vec<_> = (0..10).map(|_| pool.submit(|| ()).unwrap()).collect();
        futures.iter().for_each(|future| assert_eq!(future.cancel(false), Ok(true)));
        assert_eq!(pool.purge(), Ok(10));
        // It is forgotten: a cancel of a task that is known would be answered, too, so the machine is asked by a second purge.
        assert_eq!((futures[0].cancel(false), pool.purge()), (Ok(false), Ok(0)));
    }
    drop(go);
    assert_eq!(closed(pool).view.cancelled, 10_000);
}

#[test]
fn settings_change_while_it_runs() {
    in_time("a pool whose settings change", || {
        let pool = Builder::new(1).maximum(2).record(10_000).open().unwrap();
        let go = busy(&pool);
        let wait: Vec<_> = (0..3).map(|_| pool.submit(|| thread::current().id()).unwrap()).collect();
        // A larger core has a worker made for what is queued.
        pool.set_core(2).unwrap();
        for future in wait {
            future.get().unwrap();
        }
        assert_eq!(pool.view().live, 2);
        drop(go);
        assert_eq!((pool.set_core(3), pool.set_maximum(1), pool.set_maximum(1025)), (Err(Error::BadSizes), Err(Error::BadSizes), Err(Error::BadSizes)));
        assert_eq!(pool.set_core_timeout(true), Err(Error::KeepZero));
        // A smaller core has idle workers leave, at once with no keep-alive.
        pool.set_core(1).unwrap();
        until("one worker leaves", || pool.view().live == 1);
        pool.set_maximum(8).unwrap();
        pool.set_core(8).unwrap();
        while pool.prestart().unwrap() {}
        assert_eq!(pool.view().live, 8);
        pool.set_keep_alive(Duration::from_millis(5)).unwrap();
        pool.set_core_timeout(true).unwrap();
        until("all workers leave", || pool.view().live == 0);
        assert_eq!(pool.submit(|| 5).unwrap().get().unwrap(), 5);
        closed(pool);
    });
}

#[test]
fn an_idle_worker_stays_for_its_keep_alive() {
    let keep = Duration::from_millis(200);
    let pool = Builder::new(0).maximum(2).handoff().keep_alive(keep).open().unwrap();
    let long = pool.submit(|| {
        thread::sleep(Duration::from_millis(150));
        Instant::now()
    });
    // The other worker is idle first, and leaves first: the pool hears of the time then.
    pool.submit(|| ()).unwrap().get().unwrap();
    let idle = long.unwrap().get().unwrap();
    until("one leaves", || pool.view().live <= 1);
    // It looks whether it is to leave, and stays.
    pool.set_core_timeout(false).unwrap();
    until("the other leaves", || pool.view().live == 0);
    assert!(idle.elapsed() >= keep - Duration::from_millis(2), "{:?}", idle.elapsed());
}

#[test]
fn jobs_submit_jobs() {
    in_time("nested submissions", || {
        let pool = Arc::new(ThreadPool::fixed(4).unwrap());
        let count = Arc::new(AtomicU64::new(0));
        fn spread(pool: &Arc<ThreadPool>, count: &Arc<AtomicU64>, depth: u32) {
            for _ in 0..10 {
                let (inner, counted) = (pool.clone(), count.clone());
                pool.execute(move || {
                    counted.fetch_add(1, Ordering::SeqCst);
                    if depth > 1 {
                        spread(&inner, &counted, depth - 1);
                    }
                })
                .unwrap();
            }
        }
        spread(&pool, &count, 4);
        until("each job runs", || count.load(Ordering::SeqCst) == 11_110);
        until("each job is dropped", || Arc::strong_count(&pool) == 1);
        assert_eq!(closed(Arc::into_inner(pool).unwrap()).view.run, 11_110);
    });
}
