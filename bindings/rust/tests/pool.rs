//! The pool, and its records.

mod common;

use common::{closed, silent};
use std::sync::atomic::{AtomicU64, Ordering};
use std::sync::{mpsc, Arc};
use std::thread;
use std::time::Duration;
use zellunkay::{Builder, Error, Failure, ThreadPool, Verdict};

#[test]
fn values_come() {
    let pool = Builder::new(3).record(100_000).open().unwrap();
    let futures: Vec<_> = (0..1000u64).map(|number| pool.submit(move || number * number).unwrap()).collect();
    for (number, future) in futures.into_iter().enumerate() {
        assert_eq!(future.get().unwrap(), (number * number) as u64);
    }
    assert_eq!(closed(pool).view.run, 1000);
}

#[test]
fn policies() {
    for (verdict, is_rejected) in [(Verdict::Abort, true), (Verdict::CallerRuns, false), (Verdict::Discard, false), (Verdict::DiscardOldest, false)] {
        let pool = Builder::new(1).bounded(1).policy(verdict).record(1000).open().unwrap();
        let (go, wait) = mpsc::channel::<()>();
        pool.execute(move || wait.recv().unwrap()).unwrap();
        let first = pool.submit(|| thread::current().id()).unwrap();
        let second = pool.submit(|| thread::current().id());
        assert_eq!(second.as_ref().err().map(|refused| refused.error) == Some(Error::Rejected), is_rejected, "{verdict:?}");
        go.send(()).unwrap();
        match verdict {
            Verdict::Abort => assert!(first.get().is_ok()),
            Verdict::CallerRuns => assert_eq!(second.ok().unwrap().get().unwrap(), thread::current().id()),
            Verdict::Discard => assert!(matches!(second.ok().unwrap().get(), Err(Failure::Lost(_)))),
            Verdict::DiscardOldest => {
                assert!(matches!(first.get(), Err(Failure::Lost(_))));
                assert!(second.ok().unwrap().get().is_ok());
            }
        }
        closed(pool);
    }
}

#[test]
fn handlers_are_asked() {
    let asked = Arc::new(AtomicU64::new(0));
    let counted = asked.clone();
    let handler = move |_task| {
        counted.fetch_add(1, Ordering::SeqCst);
        Verdict::CallerRuns
    };
    let pool = Builder::new(0).maximum(1).handoff().handler(handler).record(1000).open().unwrap();
    let (go, wait) = mpsc::channel::<()>();
    pool.execute(move || wait.recv().unwrap()).unwrap();
    assert_eq!(pool.submit(|| thread::current().id()).unwrap().get().unwrap(), thread::current().id());
    assert_eq!(asked.load(Ordering::SeqCst), 1);
    go.send(()).unwrap();
    closed(pool);
}

#[test]
fn cancels() {
    let pool = Builder::new(1).record(1000).open().unwrap();
    let (go, wait) = mpsc::channel::<()>();
    pool.execute(move || wait.recv().unwrap()).unwrap();
    let future = pool.submit(|| 1).unwrap();
    assert_eq!(future.cancel(false), Ok(true));
    assert_eq!(future.cancel(false), Ok(false));
    assert!(matches!(future.get(), Err(Failure::Cancelled)));
    go.send(()).unwrap();
    let done = pool.submit(|| 2).unwrap();
    while !done.is_done() {
        thread::yield_now();
    }
    assert_eq!(done.cancel(true), Ok(false));
    assert_eq!(done.get().unwrap(), 2);
    assert_eq!(closed(pool).view.cancelled, 1);
}

#[test]
fn priorities_leave_first() {
    let pool = Builder::new(1).priority().record(1000).open().unwrap();
    let (go, wait) = mpsc::channel::<()>();
    let (told, order) = mpsc::channel();
    pool.execute(move || wait.recv().unwrap()).unwrap();
    for priority in [5, 1, 3, 1] {
        let told = told.clone();
        pool.execute_at(priority, move || told.send(priority).unwrap()).unwrap();
    }
    go.send(()).unwrap();
    closed(pool);
    assert_eq!(order.try_iter().collect::<Vec<_>>(), [1, 1, 3, 5]);
}

#[test]
fn shutdown_now_hands_back() {
    let pool = Builder::new(1).record(1000).open().unwrap();
    let (go, wait) = mpsc::channel::<()>();
    pool.execute(move || wait.recv().unwrap()).unwrap();
    let count = Arc::new(AtomicU64::new(0));
    for _ in 0..3 {
        let count = count.clone();
        pool.execute(move || { count.fetch_add(1, Ordering::SeqCst); }).unwrap();
    }
    let lost = pool.submit(|| 1).unwrap();
    let handed = pool.shutdown_now().unwrap();
    assert_eq!(handed.iter().map(|job| job.task).collect::<Vec<_>>(), [1, 2, 3, 4]);
    assert!(matches!(lost.get(), Err(Failure::Lost(_))));
    assert_eq!(pool.execute(|| ()).unwrap_err().error, Error::Rejected);
    for job in handed {
        (job.function)();
    }
    assert_eq!(count.load(Ordering::SeqCst), 3);
    go.send(()).unwrap();
    let closed = closed(pool);
    assert_eq!((closed.view.handedback, closed.view.run, closed.view.rejected), (4, 1, 1));
}

#[test]
fn scopes_borrow() {
    let pool = ThreadPool::fixed(3).unwrap();
    let words: Vec<String> = (0..100).map(|number| format!("word {number}")).collect();
    let total: usize = pool.scope(|scope| {
        let futures: Vec<_> = words.iter().map(|word| scope.submit(move || word.len()).unwrap()).collect();
        futures.into_iter().map(|future| future.get().unwrap()).sum()
    });
    assert_eq!(total, words.iter().map(String::len).sum());
    let mut sum = 0u64;
    pool.scope(|scope| {
        let sum = &mut sum;
        scope.submit(move || *sum = 7).unwrap();
    });
    assert_eq!(sum, 7);
    closed(pool);
}

#[test]
fn idle_workers_leave_in_time() {
    let pool = Builder::new(0).maximum(2).handoff().keep_alive(Duration::from_millis(20)).record(1000).open().unwrap();
    pool.execute(|| ()).unwrap();
    let start = std::time::Instant::now();
    while pool.view().live > 0 {
        assert!(start.elapsed() < Duration::from_secs(20), "{:?}", pool.view());
        thread::sleep(Duration::from_millis(5));
    }
    closed(pool);
}

#[test]
fn settings_are_refused() {
    assert_eq!(ThreadPool::fixed(0).err(), Some(Error::BadSizes));
    assert_eq!(Builder::new(1).bounded(0).open().err(), Some(Error::BadCapacity));
    assert_eq!(Builder::new(1).record(63).open().err(), Some(Error::BadLimit));
    assert_eq!(Builder::new(1).core_timeout(true).open().err(), Some(Error::KeepZero));
}

/// A plan of a stress run, whose record's text is no longer than an audit of a whole text takes: how the pool is made, by how many threads tasks come, and how many by each.
struct Plan {
    name: &'static str,
    pool: fn() -> Builder,
    threads: u64,
    tasks: u64,
}

const PLANS: [Plan; 7] = [
    Plan { name: "fixed", pool: || Builder::new(4), threads: 4, tasks: 1200 },
    Plan { name: "small queue, callers run", pool: || Builder::new(2).maximum(4).bounded(4).policy(Verdict::CallerRuns), threads: 4, tasks: 1200 },
    Plan { name: "small queue, oldest dropped", pool: || Builder::new(1).maximum(3).bounded(2).policy(Verdict::DiscardOldest), threads: 3, tasks: 1200 },
    Plan { name: "discarded", pool: || Builder::new(1).bounded(1).policy(Verdict::Discard), threads: 4, tasks: 1200 },
    Plan { name: "handoff", pool: || Builder::new(0).maximum(8).handoff().keep_alive(Duration::from_millis(1)), threads: 4, tasks: 1000 },
    Plan { name: "priorities", pool: || Builder::new(3).priority(), threads: 4, tasks: 1200 },
    Plan { name: "core workers time out", pool: || Builder::new(3).keep_alive(Duration::from_millis(1)).core_timeout(true), threads: 3, tasks: 1200 },
];

fn stress(plan: &Plan, ends_early: bool) {
    let pool = Arc::new((plan.pool)().record(1_048_576).open().unwrap());
    let ran = Arc::new(AtomicU64::new(0));
    let submitters: Vec<_> = (0..plan.threads)
        .map(|thread| {
            let (pool, ran, tasks) = (pool.clone(), ran.clone(), plan.tasks);
            thread::spawn(move || {
                for number in 0..tasks {
                    let ran = ran.clone();
                    let body = move || { ran.fetch_add(1, Ordering::SeqCst); };
                    let priority = (number * 7 + thread) as u32 % 5;
                    match number % 5 {
                        0 => drop(pool.submit_at(priority, body).map(|future| future.cancel(number % 2 == 0))),
                        1 if number % 100 == 1 => drop(pool.execute_at(priority, move || {
                            body();
                            panic!("on purpose")
                        })),
                        _ => drop(pool.execute_at(priority, body)),
                    }
                }
            })
        })
        .collect();
    let mut handed = 0;
    if ends_early {
        thread::sleep(Duration::from_millis(20));
        handed = pool.shutdown_now().unwrap().len();
    }
    for submitter in submitters {
        submitter.join().unwrap();
    }
    let pool = Arc::into_inner(pool).expect("the submitters are over");
    let closed = closed(pool);
    let view = closed.view;
    assert_eq!(u64::from(view.submitted), plan.threads * plan.tasks, "{}", plan.name);
    assert_eq!(view.submitted, view.run + view.caller + view.rejected + view.discarded + view.handedback + view.removed + view.cancelled, "{}", plan.name);
    assert_eq!(view.handedback as usize, handed, "{}", plan.name);
    // A task that was cancelled while it ran has run too.
    assert!(ran.load(Ordering::SeqCst) >= u64::from(view.run + view.caller), "{}", plan.name);
    assert!(ran.load(Ordering::SeqCst) <= u64::from(view.run + view.caller + view.cancelled), "{}", plan.name);
}

#[test]
fn stress_to_the_end() {
    silent();
    for plan in &PLANS {
        stress(plan, false);
    }
}

#[test]
fn stress_that_is_stopped() {
    silent();
    for plan in &PLANS {
        stress(plan, true);
    }
}
