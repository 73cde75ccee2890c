//! Futures of jobs.

use crate::machine::{Error, Fate};
use crate::pool::inner::Inner;
use crate::pool::locks::{deadline_in, sound, wait_until};
use std::any::Any;
use std::error;
use std::fmt;
use std::sync::atomic::{AtomicBool, Ordering};
use std::sync::{Arc, Condvar, Mutex, MutexGuard, Weak};
use std::time::{Duration, Instant};

/// Why a future has no value.
#[non_exhaustive]
pub enum Failure {
    /// It was cancelled.
    Cancelled,
    /// Its body panicked, with this.
    Panicked(Box<dyn Any + Send>),
    /// Its task left the pool without running, with this fate.
    Lost(Fate),
    /// The pool is gone, and had no worker for the task.
    Dropped,
    /// It has not ended in time. It may be asked again.
    TimedOut,
    /// Its value, or why there is none, was taken before.
    Taken,
}

impl Failure {
    /// What the body's panic said, where it said words.
    pub fn message(&self) -> Option<&str> {
        let Failure::Panicked(panic) = self else {
            return None;
        };
        panic.downcast_ref::<&str>().copied().or_else(|| panic.downcast_ref::<String>().map(String::as_str))
    }
}

impl fmt::Debug for Failure {
    fn fmt(&self, f: &mut fmt::Formatter<'_>) -> fmt::Result {
        match self {
            Failure::Cancelled => f.write_str("Cancelled"),
            Failure::Panicked(_) => write!(f, "Panicked({:?})", self.message().unwrap_or("..")),
            Failure::Lost(fate) => write!(f, "Lost({fate:?})"),
            Failure::Dropped => f.write_str("Dropped"),
            Failure::TimedOut => f.write_str("TimedOut"),
            Failure::Taken => f.write_str("Taken"),
        }
    }
}

impl fmt::Display for Failure {
    fn fmt(&self, f: &mut fmt::Formatter<'_>) -> fmt::Result {
        match self {
            Failure::Cancelled => f.write_str("the task was cancelled"),
            Failure::Panicked(_) => match self.message() {
                Some(message) => write!(f, "the task's body panicked: {message}"),
                None => f.write_str("the task's body panicked"),
            },
            Failure::Lost(fate) => write!(f, "the task left the pool without running: {fate:?}"),
            Failure::Dropped => f.write_str("the pool is gone, and had no worker for the task"),
            Failure::TimedOut => f.write_str("the task has not ended in time"),
            Failure::Taken => f.write_str("the task's value was taken before"),
        }
    }
}

impl error::Error for Failure {}

/// A flag that a job may read: whether somebody who cancelled its task, or stopped the pool, asks it to end.
#[derive(Clone, Debug, Default)]
pub struct CancelFlag(Arc<AtomicBool>);

impl CancelFlag {
    /// Whether the job is asked to end.
    pub fn is_set(&self) -> bool {
        self.0.load(Ordering::SeqCst)
    }

    pub(crate) fn set(&self) {
        self.0.store(true, Ordering::SeqCst);
    }
}

enum State<T> {
    Open,
    Ended(Result<T, Failure>),
    Taken,
}

/// Where a job leaves its value.
pub(crate) struct Cell<T> {
    state: Mutex<State<T>>,
    changed: Condvar,
    flag: Option<CancelFlag>,
}

impl<T> Cell<T> {
    pub(crate) fn new(flag: Option<CancelFlag>) -> Arc<Cell<T>> {
        Arc::new(Cell { state: Mutex::new(State::Open), changed: Condvar::new(), flag })
    }

    fn lock(&self) -> MutexGuard<'_, State<T>> {
        sound(self.state.lock())
    }

    /// Ends it so, where it is open.
    pub(crate) fn end(&self, result: Result<T, Failure>) {
        let mut state = self.lock();
        if matches!(*state, State::Open) {
            *state = State::Ended(result);
            self.changed.notify_all();
        }
    }

    fn is_done(&self) -> bool {
        !matches!(*self.lock(), State::Open)
    }

    /// Waits for the end, and takes what it is.
    pub(crate) fn take(&self, deadline: Option<Instant>) -> Result<T, Failure> {
        let mut state = self.lock();
        while matches!(*state, State::Open) {
            state = wait_until(&self.changed, state, deadline).ok_or(Failure::TimedOut)?;
        }
        match std::mem::replace(&mut *state, State::Taken) {
            State::Ended(result) => result,
            State::Open | State::Taken => Err(Failure::Taken),
        }
    }

    pub(crate) fn set_flag(&self) {
        if let Some(flag) = &self.flag {
            flag.set();
        }
    }
}

/// The value that a job will have. Dropping it leaves the job as it is.
pub struct Future<T> {
    pub(crate) cell: Arc<Cell<T>>,
    pub(crate) task: u32,
    pub(crate) pool: Weak<Inner>,
}

impl<T> Future<T> {
    /// The number of its task.
    pub fn task(&self) -> u32 {
        self.task
    }

    /// Whether it has ended.
    pub fn is_done(&self) -> bool {
        self.cell.is_done()
    }

    /// Waits for the end, and gives the value or says why there is none, as `Future.get`.
    pub fn get(self) -> Result<T, Failure> {
        self.cell.take(None)
    }

    /// The same, for no longer than this. After [`Failure::TimedOut`] the future may be asked again. `Duration::MAX` has no end.
    ///
    /// ```
    /// use std::time::Duration;
    /// let pool = zellunkay::ThreadPool::fixed(1)?;
    /// let mut future = pool.submit(|| 6 * 7)?;
    /// let value = loop {
    ///     match future.get_timeout(Duration::from_millis(1)) {
    ///         Err(zellunkay::Failure::TimedOut) => println!("not yet"),
    ///         ended => break ended?,
    ///     }
    /// };
    /// assert_eq!(value, 42);
    /// # Ok::<(), Box<dyn std::error::Error>>(())
    /// ```
    pub fn get_timeout(&mut self, timeout: Duration) -> Result<T, Failure> {
        self.cell.take(deadline_in(timeout))
    }

    /// Cancels the task, as `Future.cancel`, and tells whether that had effect. A task that waits never begins. One that runs goes on, and
    /// is told by its [`CancelFlag`] where `flag` says so. [`Error::BookFull`], where the pool keeps a record that has no room.
    pub fn cancel(&self, flag: bool) -> Result<bool, Error> {
        match self.pool.upgrade() {
            Some(pool) => pool.cancel(self.task, flag, &self.cell),
            None => Ok(false),
        }
    }
}

impl<T> fmt::Debug for Future<T> {
    fn fmt(&self, f: &mut fmt::Formatter<'_>) -> fmt::Result {
        f.debug_struct("Future").field("task", &self.task).field("is_done", &self.is_done()).finish()
    }
}
