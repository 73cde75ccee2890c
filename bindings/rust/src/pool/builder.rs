//! What a pool is made of.

use crate::machine::{Error, Machine, Recorder, Verdict};
use crate::pool::inner::{Core, Handler, Inner};
use crate::pool::seats::Seats;
use crate::pool::settings::ticks;
use crate::pool::table::Jobs;
use crate::pool::ThreadPool;
use std::collections::{BTreeSet, HashMap};
use std::fmt;
use std::sync::{Arc, Condvar, Mutex};
use std::time::{Duration, Instant};

/// What a pool is made of.
///
/// ```
/// use std::time::Duration;
/// use zellunkay::{Builder, Verdict};
/// let pool = Builder::new(2).maximum(4).bounded(100).keep_alive(Duration::from_secs(5)).policy(Verdict::CallerRuns).open()?;
/// assert_eq!(pool.submit(|| 6 * 7)?.get()?, 42);
/// # Ok::<(), Box<dyn std::error::Error>>(())
/// ```
pub struct Builder {
    core: u32,
    maximum: u32,
    queue: String,
    keep: u64,
    verdict: Verdict,
    core_timeout: bool,
    limit: Option<u32>,
    handler: Option<Handler>,
    name: String,
    stack: Option<usize>,
}

impl Builder {
    /// A pool of so many workers, with a queue that always has room, whose refused tasks are rejected, and which keeps no record.
    pub fn new(workers: u32) -> Builder {
        Builder {
            core: workers,
            maximum: workers,
            queue: "unbounded".to_string(),
            keep: 0,
            verdict: Verdict::Abort,
            core_timeout: false,
            limit: None,
            handler: None,
            name: "zellunkay".to_string(),
            stack: None,
        }
    }

    /// So many workers at most.
    pub fn maximum(mut self, workers: u32) -> Builder {
        self.maximum = workers;
        self
    }

    /// A queue with no places: a task is handed to an idle worker.
    pub fn handoff(mut self) -> Builder {
        self.queue = "handoff".to_string();
        self
    }

    /// A queue with so many places.
    pub fn bounded(mut self, places: u32) -> Builder {
        self.queue = format!("bounded {places}");
        self
    }

    /// A queue that the task with the least priority number leaves first.
    pub fn priority(mut self) -> Builder {
        self.queue = "priority".to_string();
        self
    }

    /// How long a worker above the core may be idle, in milliseconds, rounded up.
    pub fn keep_alive(mut self, time: Duration) -> Builder {
        self.keep = ticks(time);
        self
    }

    /// Whether core workers leave too when they were idle so long.
    pub fn core_timeout(mut self, on: bool) -> Builder {
        self.core_timeout = on;
        self
    }

    /// What becomes of tasks that the pool cannot take.
    pub fn policy(mut self, verdict: Verdict) -> Builder {
        self.verdict = verdict;
        self.handler = None;
        self
    }

    /// A handler that is asked for each of them, by its task's number. It is called with no lock of the pool held, by the thread that
    /// submits. Where it panics the task is rejected, and the panic goes on.
    pub fn handler(mut self, handler: impl Fn(u32) -> Verdict + Send + Sync + 'static) -> Builder {
        self.handler = Some(Box::new(handler));
        self
    }

    /// The pool keeps its record, of so many entries at most.
    pub fn record(mut self, entries: u32) -> Builder {
        self.limit = Some(entries);
        self
    }

    /// What the names of its threads begin with, in place of `zellunkay`. A slot's number follows.
    pub fn name(mut self, name: &str) -> Builder {
        self.name = name.replace('\0', "");
        self
    }

    /// How many bytes the stack of a worker has, in place of what Rust's threads have.
    pub fn stack_size(mut self, bytes: usize) -> Builder {
        self.stack = Some(bytes);
        self
    }

    /// The pool line of these settings.
    pub fn line(&self) -> String {
        let policy = match (&self.handler, self.verdict) {
            (Some(_), _) => "own",
            (None, Verdict::Abort) => "abort",
            (None, Verdict::CallerRuns) => "callerruns",
            (None, Verdict::Discard) => "discard",
            (None, Verdict::DiscardOldest) => "discardoldest",
        };
        let timeout = if self.core_timeout { " coretimeout" } else { "" };
        let limit = self.limit.map_or(String::new(), |entries| format!(" limit {entries}"));
        format!("pool {} {} {} keep {} {policy}{timeout}{limit}", self.core, self.maximum, self.queue, self.keep)
    }

    /// Opens the pool. Refused as [`Machine::open`] is.
    pub fn open(self) -> Result<ThreadPool, Error> {
        let recorder = if self.limit.is_some() { Recorder::Full } else { Recorder::Tally };
        let machine = Machine::open(&self.line(), recorder)?;
        let core = Core {
            machine,
            jobs: Jobs::new(),
            seats: Seats::default(),
            queued: 0,
            rank: 0,
            passes: 0,
            is_ended: false,
            keeps_record: recorder == Recorder::Full,
            keep: Duration::from_millis(self.keep),
            core_timeout: self.core_timeout,
            ticked: 0,
            cancelled: BTreeSet::new(),
            groups: HashMap::new(),
            last_group: 0,
            waiting: 0,
        };
        let inner = Inner {
            core: Mutex::new(core),
            ends: Condvar::new(),
            dones: Condvar::new(),
            opened: Instant::now(),
            verdict: self.verdict,
            handler: self.handler,
            name: self.name,
            stack: self.stack,
        };
        Ok(ThreadPool { inner: Arc::new(inner) })
    }
}

impl fmt::Debug for Builder {
    fn fmt(&self, f: &mut fmt::Formatter<'_>) -> fmt::Result {
        f.debug_tuple("Builder").field(&self.line()).finish()
    }
}
