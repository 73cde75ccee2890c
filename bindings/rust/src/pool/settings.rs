//! Settings, and single tasks, while the pool is there.

use crate::machine::{Answer, Ask, Error, Fate};
use crate::pool::ending::HandedBack;
use crate::pool::futures::{Cell, Failure};
use crate::pool::inner::{Inner, OUTSIDE};
use crate::pool::jobs::HeldJob;
use crate::pool::ThreadPool;
use std::sync::Arc;
use std::time::Duration;

/// A time in the machine's ticks, which are milliseconds: one that is begun counts.
pub(crate) fn ticks(time: Duration) -> u64 {
    u64::try_from(time.as_nanos().div_ceil(1_000_000)).unwrap_or(u64::MAX)
}

impl Inner {
    pub(crate) fn cancel<T>(&self, task: u32, flag: bool, cell: &Cell<T>) -> Result<bool, Error> {
        let mut core = self.lock();
        match core.step(OUTSIDE, Ask::Cancel(task, flag)) {
            Ok(Answer::Yes(..)) => {}
            // The task is over, or even forgotten.
            Ok(_) | Err(Error::UnknownTask) => return Ok(false),
            Err(error) => return Err(error),
        }
        let held = core.jobs.remove(task);
        if held.is_some() && !core.keeps_record {
            core.cancelled.insert(task);
        }
        if core.waiting > 0 {
            self.dones.notify_all();
        }
        // In this hold, so that a value which comes behind it comes too late.
        cell.end(Err(Failure::Cancelled));
        drop(core);
        if flag {
            cell.set_flag();
        }
        if let Some(held) = held {
            held.job.lose(Failure::Cancelled);
        }
        Ok(true)
    }

    fn remove(&self, task: u32) -> Result<Option<HeldJob>, Error> {
        let mut core = self.lock();
        match core.step(OUTSIDE, Ask::Remove(task)) {
            Ok(Answer::Yes(..)) => {}
            Ok(_) | Err(Error::UnknownTask) => return Ok(None),
            Err(error) => return Err(error),
        }
        let job = core.lost(task);
        if core.waiting > 0 {
            self.dones.notify_all();
        }
        self.settle(&mut core);
        Ok(job)
    }

    /// Makes a step of the settings. Workers that sleep look whether they are to leave.
    fn set(self: &Arc<Inner>, ask: Ask) -> Result<Answer, Error> {
        let mut core = self.lock();
        let answer = core.step(OUTSIDE, ask)?;
        match ask {
            Ask::Keep(ticks) => core.keep = Duration::from_millis(ticks),
            Ask::CoreTimeout(on) => core.core_timeout = on,
            _ => {}
        }
        core.seats.call_all();
        Ok(answer)
    }

    pub(crate) fn prestart(self: &Arc<Inner>) -> Result<bool, Error> {
        let answer = self.lock().step(OUTSIDE, Ask::Prestart)?;
        match answer {
            Answer::Reserve(_, slot) => Ok(matches!(self.staff(OUTSIDE, slot)?, Answer::Live(_))),
            _ => Ok(false),
        }
    }
}

impl ThreadPool {
    /// Sets the core size, as `setCorePoolSize`. A larger one has a worker made for each queued task, at most as many as the size grew.
    /// [`Error::BadSizes`], where it is above the maximum; [`Error::BookFull`].
    pub fn set_core(&self, workers: u32) -> Result<(), Error> {
        if let Answer::Count(wanted) = self.inner.set(Ask::Core(workers))? {
            for _ in 0..wanted {
                if !self.inner.prestart()? {
                    break;
                }
            }
        }
        Ok(())
    }

    /// Sets the maximum size, as `setMaximumPoolSize`. Workers above it leave once their jobs are over. [`Error::BadSizes`],
    /// [`Error::NoMemory`], [`Error::BookFull`].
    pub fn set_maximum(&self, workers: u32) -> Result<(), Error> {
        self.inner.set(Ask::Maximum(workers)).map(drop)
    }

    /// Sets how long a worker above the core may be idle, as `setKeepAliveTime`, in milliseconds, rounded up. [`Error::KeepZero`],
    /// [`Error::BookFull`].
    pub fn set_keep_alive(&self, time: Duration) -> Result<(), Error> {
        self.inner.set(Ask::Keep(ticks(time))).map(drop)
    }

    /// Says whether core workers leave too when they were idle so long, as `allowCoreThreadTimeOut`. [`Error::KeepZero`],
    /// [`Error::BookFull`].
    pub fn set_core_timeout(&self, on: bool) -> Result<(), Error> {
        self.inner.set(Ask::CoreTimeout(on)).map(drop)
    }

    /// Takes a task out of the queue, as `remove`, and hands its job back. None where it is not in the queue, or was cancelled, or is one of
    /// a scope, which may borrow: its job is dropped then. A future is told. [`Error::BookFull`].
    ///
    /// ```
    /// # use std::sync::mpsc;
    /// let pool = zellunkay::ThreadPool::fixed(1)?;
    /// let (go, wait) = mpsc::channel::<()>();
    /// pool.execute(move || wait.recv().unwrap())?;
    /// let task = pool.execute(|| println!("at last"))?;
    /// let back = pool.remove(task)?.expect("it was queued behind the other");
    /// (back.function)();
    /// # go.send(())?;
    /// # Ok::<(), Box<dyn std::error::Error>>(())
    /// ```
    pub fn remove(&self, task: u32) -> Result<Option<HandedBack>, Error> {
        let job = self.inner.remove(task)?;
        Ok(job.and_then(|job| job.into_function(Fate::Removed)).map(|function| HandedBack { task, function }))
    }

    /// Takes the cancelled tasks out of the queue, as `purge`, and tells how many they were. [`Error::BookFull`].
    pub fn purge(&self) -> Result<u32, Error> {
        let mut core = self.inner.lock();
        let Answer::Count(gone) = core.step(OUTSIDE, Ask::Purge)? else {
            return Ok(0);
        };
        for task in std::mem::take(&mut core.cancelled) {
            if core.machine.release(task).is_err() {
                // A worker has it, or its group.
                core.cancelled.insert(task);
            }
        }
        self.inner.settle(&mut core);
        Ok(gone)
    }

    /// Has a worker made where there are fewer than the core size, as `prestartCoreThread`. Whether one was. [`Error::BookFull`].
    pub fn prestart(&self) -> Result<bool, Error> {
        self.inner.prestart()
    }
}

