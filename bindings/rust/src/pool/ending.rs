//! A pool's end, as `shutdown`, `shutdownNow`, `awaitTermination` and `close`.

use crate::machine::{Ask, Error, Fate, PoolView};
use crate::pool::futures::Failure;
use crate::pool::inner::{Core, Inner, OUTSIDE};
use crate::pool::jobs::{Function, HeldJob};
use crate::pool::locks::deadline_in;
use crate::pool::working::join;
use crate::pool::ThreadPool;
use std::fmt;
use std::sync::Arc;
use std::thread;
use std::time::{Duration, Instant};

/// A job that came back from the pool's queue.
#[non_exhaustive]
pub struct HandedBack {
    /// Its task's number.
    pub task: u32,
    /// Runs it. Its future is not told of that.
    pub function: Function<'static>,
}

impl fmt::Debug for HandedBack {
    fn fmt(&self, f: &mut fmt::Formatter<'_>) -> fmt::Result {
        f.debug_struct("HandedBack").field("task", &self.task).finish_non_exhaustive()
    }
}

/// What is left of a pool that was closed.
#[derive(Clone, Debug, PartialEq, Eq)]
#[non_exhaustive]
pub struct Closed {
    /// The counters at the end.
    pub view: PoolView,
    /// The text of the record, where it was kept: [`audit`](crate::audit) judges it.
    pub record: Option<Vec<u8>>,
}

impl Core {
    /// Stops the machine. The jobs that its queue had come out, in its order.
    fn stop(&mut self) -> Result<Vec<(u32, HeldJob)>, Error> {
        self.step(OUTSIDE, Ask::Stop)?;
        self.rank = 2;
        self.seats.set_flags();
        self.seats.call_all();
        let tasks = self.machine.handed();
        Ok(tasks.into_iter().filter_map(|task| self.lost(task).map(|job| (task, job))).collect())
    }
}

impl Inner {
    pub(crate) fn shutdown(self: &Arc<Inner>) {
        let mut core = self.lock();
        if core.rank == 0 && core.step(OUTSIDE, Ask::Shutdown).is_ok() {
            core.rank = 1;
        }
        core.seats.call_all();
        self.settle(&mut core);
        drop(core);
        self.rescue();
    }

    pub(crate) fn stop(&self) -> Result<Vec<(u32, HeldJob)>, Error> {
        let mut core = self.lock();
        let jobs = core.stop()?;
        if core.waiting > 0 {
            self.dones.notify_all();
        }
        self.settle(&mut core);
        Ok(jobs)
    }

    /// Waits until the pool is terminated, for no longer than to the deadline. Whether it is.
    fn await_end(&self, deadline: Option<Instant>) -> bool {
        let mut core = self.lock();
        while !core.is_ended {
            core = match core.wait(&self.ends, deadline) {
                Some(core) => core,
                None => return false,
            };
        }
        true
    }

    /// Shuts the pool down, waits for its end and joins its threads. Jobs that no worker can be made for are dropped, and their futures told.
    pub(crate) fn finish(self: &Arc<Inner>) {
        self.shutdown();
        let mut core = self.lock();
        while !core.is_ended {
            if core.is_stranded() {
                drop(core);
                self.rescue();
                self.drop_stranded();
                core = self.lock();
            } else if let Some(held) = core.wait(&self.ends, None) {
                core = held;
            } else {
                core = self.lock();
            }
        }
        let threads = core.seats.take_threads();
        drop(core);
        join(threads);
    }

    /// Stops a pool whose tasks are left to nobody.
    fn drop_stranded(&self) {
        let mut core = self.lock();
        let jobs = if core.is_stranded() { core.stop() } else { Ok(Vec::new()) };
        self.settle(&mut core);
        drop(core);
        match jobs {
            Ok(jobs) => jobs.into_iter().for_each(|(_, job)| job.lose(Failure::Dropped)),
            // There is no memory now.
            Err(_) => thread::sleep(Duration::from_millis(1)),
        }
    }
}

impl ThreadPool {
    /// No more tasks are accepted; those that the pool has are run.
    pub fn shutdown(&self) {
        self.inner.shutdown();
    }

    /// The same, and the tasks that are queued are handed back, in the queue's order. Jobs that run go on, and are told by their
    /// [`CancelFlag`](crate::CancelFlag). A job of a scope isn't handed back, since it may borrow: it is dropped, and its future told.
    /// [`Error::NoMemory`], [`Error::BookFull`].
    pub fn shutdown_now(&self) -> Result<Vec<HandedBack>, Error> {
        let jobs = self.inner.stop()?;
        let handed = |(task, job): (u32, HeldJob)| job.into_function(Fate::HandedBack).map(|function| HandedBack { task, function });
        Ok(jobs.into_iter().filter_map(handed).collect())
    }

    /// Shuts the pool down and waits for its end for so long; then it is stopped as by [`shutdown_now`](ThreadPool::shutdown_now), whose jobs
    /// are answered. It doesn't wait for jobs that run then.
    ///
    /// ```
    /// use std::time::Duration;
    /// let pool = zellunkay::ThreadPool::fixed(1)?;
    /// pool.execute(|| println!("soon over"))?;
    /// assert!(pool.shutdown_within(Duration::from_secs(60))?.is_empty());
    /// assert!(pool.is_terminated());
    /// # Ok::<(), Box<dyn std::error::Error>>(())
    /// ```
    pub fn shutdown_within(&self, time: Duration) -> Result<Vec<HandedBack>, Error> {
        self.shutdown();
        if self.await_termination(time) { Ok(Vec::new()) } else { self.shutdown_now() }
    }

    /// Whether the pool takes no more tasks.
    pub fn is_shutdown(&self) -> bool {
        self.inner.lock().rank > 0
    }

    /// Whether the pool is at its end: it is shut down, each task is over, and no worker is left.
    pub fn is_terminated(&self) -> bool {
        self.inner.lock().is_ended
    }

    /// Waits until the pool is terminated, for no longer than this; `Duration::MAX` has no end. Whether it is.
    pub fn await_termination(&self, time: Duration) -> bool {
        self.inner.await_end(deadline_in(time))
    }

    /// Shuts the pool down, waits until its tasks are over, joins its threads and hands its record over, as `ExecutorService.close`.
    /// [`Error::OwnWorker`], where a job of the pool itself closes it: the pool then runs what it has, and ends without it.
    /// [`Error::NoMemory`], where there is none for the record's text.
    pub fn close(self) -> Result<Closed, Error> {
        if self.inner.employs() {
            return Err(Error::OwnWorker);
        }
        self.inner.finish();
        let mut core = self.inner.lock();
        let record = if core.keeps_record { Some(core.machine.record()?) } else { None };
        Ok(Closed { view: core.machine.view(), record })
    }
}

impl Drop for ThreadPool {
    /// Ends the pool as [`close`](ThreadPool::close) does: each task that it has is run. Where a job of the pool itself drops it, the pool
    /// is only shut down, and its workers run what it has.
    fn drop(&mut self) {
        if self.inner.employs() {
            self.inner.shutdown();
        } else {
            self.inner.finish();
        }
    }
}
