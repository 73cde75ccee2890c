//! How many tasks a second pass through a pool, beside a textbook's pool: a queue under a mutex, and one condition.
//!
//!     pool_rate [ROUNDS [TASKS]]     both pools by turns: the median of the rates, and of the ratio of each round
//!     pool_rate text|ours|full TASKS one pool with one worker, once: what an instruction counter is to see
//!
//! A job is a sum, or some 10 microseconds of them.

use std::collections::VecDeque;
use std::env;
use std::hint::black_box;
use std::sync::atomic::{AtomicU64, Ordering};
use std::sync::{Arc, Condvar, Mutex};
use std::thread::{self, JoinHandle};
use std::time::{Duration, Instant};
use zellunkay::{Builder, ThreadPool};

type Task = Box<dyn FnOnce() + Send>;

#[derive(Default)]
struct Line {
    tasks: VecDeque<Task>,
    is_closed: bool,
}

/// The textbook's pool.
struct Textbook {
    line: Arc<(Mutex<Line>, Condvar)>,
    threads: Vec<JoinHandle<()>>,
}

impl Textbook {
    fn new(workers: u32) -> Textbook {
        let line: Arc<(Mutex<Line>, Condvar)> = Arc::default();
        let threads = (0..workers)
            .map(|_| {
                let line = line.clone();
                thread::spawn(move || loop {
                    let mut held = line.0.lock().unwrap();
                    let task = loop {
                        match held.tasks.pop_front() {
                            Some(task) => break task,
                            None if held.is_closed => return,
                            None => held = line.1.wait(held).unwrap(),
                        }
                    };
                    drop(held);
                    task();
                })
            })
            .collect();
        Textbook { line, threads }
    }

    fn execute(&self, task: impl FnOnce() + Send + 'static) {
        self.line.0.lock().unwrap().tasks.push_back(Box::new(task));
        self.line.1.notify_one();
    }

    fn close(self) {
        self.line.0.lock().unwrap().is_closed = true;
        self.line.1.notify_all();
        for thread in self.threads {
            thread.join().unwrap();
        }
    }
}

/// What one task does: it adds its number to the sum, after so many turns of a loop.
#[derive(Clone)]
struct Job {
    sum: Arc<AtomicU64>,
    turns: u64,
}

impl Job {
    fn run(&self, number: u64) {
        for turn in 0..self.turns {
            black_box(turn);
        }
        self.sum.fetch_add(number, Ordering::Relaxed);
    }
}

fn textbook(workers: u32, tasks: u64, job: &Job) {
    let pool = Textbook::new(workers);
    for number in 0..tasks {
        let job = job.clone();
        pool.execute(move || job.run(number));
    }
    pool.close();
}

fn ours(pool: ThreadPool, tasks: u64, job: &Job) {
    for number in 0..tasks {
        let job = job.clone();
        pool.execute(move || job.run(number)).unwrap();
    }
    pool.close().unwrap();
}

/// Tasks a second.
fn rate(tasks: u64, turns: u64, run: impl FnOnce(&Job)) -> f64 {
    let job = Job { sum: Arc::default(), turns };
    let start = Instant::now();
    run(&job);
    let seconds = start.elapsed().as_secs_f64();
    assert_eq!(job.sum.load(Ordering::SeqCst), tasks * (tasks - 1) / 2, "each task ran once");
    tasks as f64 / seconds
}

fn median(mut numbers: Vec<f64>) -> f64 {
    numbers.sort_by(f64::total_cmp);
    numbers[numbers.len() / 2]
}

/// How many turns take 10 microseconds, at best.
fn ten_microseconds() -> u64 {
    let took = |turns: u64| {
        let job = Job { sum: Arc::default(), turns };
        let start = Instant::now();
        job.run(0);
        start.elapsed()
    };
    let turns = 1_000_000;
    let least = (0..20).map(|_| took(turns)).min().unwrap_or(Duration::ZERO);
    10_000 * turns / (least.as_nanos() as u64).max(1)
}

fn compare(workers: u32, tasks: u64, turns: u64, rounds: usize) {
    let rates: Vec<(f64, f64)> = (0..rounds)
        .map(|_| {
            let text = rate(tasks, turns, |job| textbook(workers, tasks, job));
            (text, rate(tasks, turns, |job| ours(ThreadPool::fixed(workers).unwrap(), tasks, job)))
        })
        .collect();
    let of = |pick: fn(&(f64, f64)) -> f64| median(rates.iter().map(pick).collect());
    let length = if turns > 0 { "10 microseconds" } else { "a sum" };
    let (text, ours, ratio) = (of(|rate| rate.0), of(|rate| rate.1), of(|rate| rate.1 / rate.0));
    println!("{workers} workers, {length}: textbook {text:.0} tasks a second, ours {ours:.0}: {ratio:.2}");
}

fn main() {
    let words: Vec<String> = env::args().skip(1).collect();
    let number = |at: usize, or: u64| words.get(at).map_or(or, |word| word.parse().expect("a number"));
    let one = |turns| Job { sum: Arc::default(), turns };
    match words.first().map(String::as_str) {
        Some("text") => textbook(1, number(1, 10_000), &one(0)),
        Some("ours") => ours(ThreadPool::fixed(1).unwrap(), number(1, 10_000), &one(0)),
        Some("full") => ours(Builder::new(1).record(1_048_576).open().unwrap(), number(1, 10_000), &one(0)),
        _ => {
            let (rounds, tasks) = (number(0, 11) as usize, number(1, 100_000));
            let long = ten_microseconds();
            for workers in [1, 2, 4] {
                compare(workers, tasks, 0, rounds);
                compare(workers, tasks / 10, long, rounds);
            }
        }
    }
}
