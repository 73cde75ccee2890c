//! A pool of threads over a machine: each decision is one step of it, made under the pool's lock.

mod builder;
mod ending;
mod futures;
mod groups;
mod inner;
mod jobs;
mod locks;
mod scopes;
mod seats;
mod settings;
mod submitting;
mod table;
mod working;

pub use builder::Builder;
pub use ending::{Closed, HandedBack};
pub use futures::{CancelFlag, Failure, Future};
pub use groups::{Done, Group};
pub use scopes::Scope;

use crate::machine::{Error, Kind, PoolView};
use futures::Cell;
use inner::Inner;
use jobs::{given_back, Bare, Body, Flagged, Plain, Promised};
use std::error;
use std::fmt;
use std::sync::Arc;

/// A pool of threads. Dropping it ends it: no more tasks are accepted, those that it has are run, and its threads are joined.
///
/// ```
/// let pool = zellunkay::ThreadPool::fixed(4)?;
/// let sums: Vec<_> = (1..=10u64).map(|number| pool.submit(move || (1..=number).sum::<u64>())).collect::<Result<_, _>>()?;
/// let total: u64 = sums.into_iter().map(|sum| sum.get().unwrap()).sum();
/// assert_eq!(total, 220);
/// # Ok::<(), Box<dyn std::error::Error>>(())
/// ```
pub struct ThreadPool {
    inner: Arc<Inner>,
}

/// A closure that the pool refused, which comes back.
///
/// ```
/// use zellunkay::{Builder, Error};
/// let pool = Builder::new(1).open()?;
/// pool.shutdown();
/// let refused = pool.submit(|| 5).unwrap_err();
/// assert_eq!(refused.error, Error::Rejected);
/// assert_eq!((refused.body)(), 5);
/// # Ok::<(), Error>(())
/// ```
#[non_exhaustive]
pub struct Refused<F> {
    /// Why. [`Error::Rejected`] by the policy, [`Error::NoThread`], or [`Error::NoMemory`] or [`Error::BookFull`] of the machine.
    pub error: Error,
    /// The closure, which has not been called.
    pub body: F,
}

impl<F> fmt::Debug for Refused<F> {
    fn fmt(&self, f: &mut fmt::Formatter<'_>) -> fmt::Result {
        f.debug_struct("Refused").field("error", &self.error).finish_non_exhaustive()
    }
}

impl<F> fmt::Display for Refused<F> {
    fn fmt(&self, f: &mut fmt::Formatter<'_>) -> fmt::Result {
        self.error.fmt(f)
    }
}

impl<F> error::Error for Refused<F> {}

impl<F> From<Refused<F>> for Error {
    fn from(refused: Refused<F>) -> Error {
        refused.error
    }
}

impl ThreadPool {
    /// A pool of so many workers, as [`Builder::new`].
    pub fn fixed(workers: u32) -> Result<ThreadPool, Error> {
        Builder::new(workers).open()
    }

    /// Runs a closure, as `execute`, and answers its task's number. A panic of it ends its worker, and another one is made.
    pub fn execute<F: FnOnce() + Send + 'static>(&self, body: F) -> Result<u32, Refused<F>> {
        self.execute_at(0, body)
    }

    /// The same, with a priority: the task with the least number leaves a priority queue first.
    pub fn execute_at<F: FnOnce() + Send + 'static>(&self, priority: u32, body: F) -> Result<u32, Refused<F>> {
        self.inner.submit(Kind::Plain, priority, Box::new(Plain(body)), |_| ()).map_err(|back| {
            // SAFETY: it is the box that was handed in.
            let Plain(body) = unsafe { given_back::<Plain<F>>(back.job) };
            Refused { error: back.error, body }
        })
    }

    /// Runs a closure, as `submit`; the future will have its value.
    pub fn submit<T: Send + 'static, F: FnOnce() -> T + Send + 'static>(&self, body: F) -> Result<Future<T>, Refused<F>> {
        self.submit_at(0, body)
    }

    /// The same, with a priority.
    pub fn submit_at<T, F>(&self, priority: u32, body: F) -> Result<Future<T>, Refused<F>>
    where
        T: Send + 'static,
        F: FnOnce() -> T + Send + 'static,
    {
        self.promise(priority, Cell::new(None), Bare(body)).map_err(|(error, Bare(body))| Refused { error, body })
    }

    /// As `submit`, of a closure that may look whether it is asked to end: somebody cancelled its task with `flag`, or stopped the pool.
    ///
    /// ```
    /// let pool = zellunkay::ThreadPool::fixed(1)?;
    /// let search = pool.submit_with_flag(|flag| (0..u64::MAX).take_while(|_| !flag.is_set()).count())?;
    /// search.cancel(true)?;
    /// # Ok::<(), Box<dyn std::error::Error>>(())
    /// ```
    pub fn submit_with_flag<T, F>(&self, body: F) -> Result<Future<T>, Refused<F>>
    where
        T: Send + 'static,
        F: FnOnce(&CancelFlag) -> T + Send + 'static,
    {
        let flag = CancelFlag::default();
        let flagged = Flagged(body, flag.clone());
        self.promise(0, Cell::new(Some(flag)), flagged).map_err(|(error, Flagged(body, _))| Refused { error, body })
    }

    fn promise<T, B>(&self, priority: u32, cell: Arc<Cell<T>>, body: B) -> Result<Future<T>, (Error, B)>
    where
        T: Send + 'static,
        B: Body<Value = T> + 'static,
    {
        let job = Box::new(Promised::new(cell.clone(), body));
        match self.inner.submit(Kind::Future, priority, job, |_| ()) {
            Ok(task) => Ok(Future { cell, task, pool: Arc::downgrade(&self.inner) }),
            Err(back) => {
                // SAFETY: it is the box that was handed in.
                let job = unsafe { given_back::<Promised<T, B, ()>>(back.job) };
                Err((back.error, job.into_body()))
            }
        }
    }

    /// What is seen of the pool now.
    pub fn view(&self) -> PoolView {
        self.inner.lock().machine.view()
    }

    /// The text of the record as it is now. A running pool's record is legal, too. [`Error::WrongKind`], where the pool keeps none;
    /// [`Error::NoMemory`].
    ///
    /// ```
    /// let pool = zellunkay::Builder::new(1).record(1000).open()?;
    /// pool.submit(|| 6 * 7)?.get()?;
    /// assert_eq!(zellunkay::audit(&pool.record()?).ending, Ok(()));
    /// # Ok::<(), Box<dyn std::error::Error>>(())
    /// ```
    pub fn record(&self) -> Result<Vec<u8>, Error> {
        self.inner.lock().machine.record()
    }
}

impl fmt::Debug for ThreadPool {
    fn fmt(&self, f: &mut fmt::Formatter<'_>) -> fmt::Result {
        f.debug_struct("ThreadPool").field("view", &self.view()).finish_non_exhaustive()
    }
}
