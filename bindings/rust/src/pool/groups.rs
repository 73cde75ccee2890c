//! Groups: tasks whose values come in the order in which they are done, as `ExecutorCompletionService`.

use crate::machine::{Answer, Ask, Error, Kind};
use crate::pool::futures::{Cell, Failure};
use crate::pool::inner::{Core, Inner, OUTSIDE};
use crate::pool::jobs::{given_back, Bare, Promised};
use crate::pool::locks::{deadline_in, sound};
use crate::pool::{Refused, ThreadPool};
use std::collections::HashMap;
use std::fmt;
use std::sync::{Arc, Mutex};
use std::time::{Duration, Instant};

/// A task of a group that is done: its number, and its value or why there is none.
pub type Done<T> = (u32, Result<T, Failure>);

/// Tasks of one pool whose values are taken as they are done. Dropping it leaves its tasks as they are.
///
/// ```
/// let pool = zellunkay::ThreadPool::fixed(2)?;
/// let group = pool.group();
/// for number in 1..=10u64 {
///     group.submit(move || number * number)?;
/// }
/// let mut sum = 0;
/// while let Some((_, square)) = group.take()? {
///     sum += square?;
/// }
/// assert_eq!(sum, 385);
/// # Ok::<(), Box<dyn std::error::Error>>(())
/// ```
pub struct Group<T> {
    inner: Arc<Inner>,
    number: u32,
    /// Where the tasks that are not taken leave their values.
    cells: Mutex<HashMap<u32, Arc<Cell<T>>>>,
}

impl Core {
    /// The group's next task that is done or lost, if there is one.
    fn take_done(&mut self, group: u32) -> Result<Option<u32>, Error> {
        match self.step(OUTSIDE, Ask::TakeDone(group)) {
            Ok(Answer::Done(Some(task))) => {
                self.forget(task);
                if let Some(open) = self.groups.get_mut(&group) {
                    open.count -= 1;
                }
                Ok(Some(task))
            }
            Ok(_) | Err(Error::NotThere) => Ok(self.groups.get_mut(&group).and_then(|open| open.lost.pop_front())),
            Err(error) => Err(error),
        }
    }

    /// How many tasks of the group were neither taken nor lost.
    fn open_in(&self, group: u32) -> usize {
        self.groups.get(&group).map_or(0, |open| open.count)
    }

    /// Takes what nobody will ask for.
    pub(crate) fn clear_group(&mut self, group: u32) {
        while let Ok(Some(_)) = self.take_done(group) {}
    }
}

impl ThreadPool {
    /// A new group.
    pub fn group<T>(&self) -> Group<T> {
        let mut core = self.inner.lock();
        core.last_group = core.last_group.wrapping_add(1);
        let number = core.last_group;
        core.groups.entry(number).or_default();
        Group { inner: self.inner.clone(), number, cells: Mutex::default() }
    }
}

impl<T> Group<T> {
    /// Runs a closure. The answer is its task's number.
    pub fn submit<F: FnOnce() -> T + Send + 'static>(&self, body: F) -> Result<u32, Refused<F>>
    where
        T: Send + 'static,
    {
        self.submit_at(0, body)
    }

    /// The same, with a priority: the task with the least number leaves a priority queue first.
    pub fn submit_at<F: FnOnce() -> T + Send + 'static>(&self, priority: u32, body: F) -> Result<u32, Refused<F>>
    where
        T: Send + 'static,
    {
        let cell = Cell::new(None);
        let job = Box::new(Promised::new(cell.clone(), Bare(body)));
        let mut number = None;
        let numbered = |task| {
            number = Some(task);
            sound(self.cells.lock()).insert(task, cell);
        };
        self.inner.submit(Kind::Group(self.number), priority, job, numbered).map_err(|back| {
            if let Some(task) = number {
                sound(self.cells.lock()).remove(&task);
                self.inner.wake_takers();
            }
            // SAFETY: it is the box that was handed in.
            let job = unsafe { given_back::<Promised<T, Bare<F>, ()>>(back.job) };
            Refused { error: back.error, body: job.into_body().0 }
        })
    }

    /// Waits for the next task that is done, and takes it: with its value, or why there is none. None where no task of the group is open.
    /// A task that the pool lost, as one that it discarded, comes behind those that are done. [`Error::BookFull`], where the pool keeps a
    /// record that has no room.
    pub fn take(&self) -> Result<Option<Done<T>>, Error> {
        self.next(None)
    }

    /// The same, for no longer than this: None, too, where no task is done then.
    pub fn take_timeout(&self, time: Duration) -> Result<Option<Done<T>>, Error> {
        self.next(deadline_in(time))
    }

    fn next(&self, deadline: Option<Instant>) -> Result<Option<Done<T>>, Error> {
        let Some(task) = self.inner.await_done(self.number, deadline)? else {
            return Ok(None);
        };
        let cell = sound(self.cells.lock()).remove(&task);
        // The machine heard of the end before the cell, which hears of it next.
        Ok(cell.map(|cell| (task, cell.take(None))))
    }

    /// How many tasks were neither taken nor lost.
    pub fn open(&self) -> usize {
        self.inner.lock().open_in(self.number)
    }

    /// Cancels a task, as [`Future::cancel`](crate::Future::cancel). It is done then, and taken as [`Failure::Cancelled`].
    pub fn cancel(&self, task: u32, flag: bool) -> Result<bool, Error> {
        let cell = sound(self.cells.lock()).get(&task).cloned();
        match cell {
            Some(cell) => self.inner.cancel(task, flag, &cell),
            None => Ok(false),
        }
    }
}

impl Inner {
    /// Waits until a task of the group is done or lost. None where none is open, or the deadline is over.
    fn await_done(&self, group: u32, deadline: Option<Instant>) -> Result<Option<u32>, Error> {
        let mut core = self.lock();
        loop {
            if let Some(task) = core.take_done(group)? {
                // Who waits behind it may find that it was the last.
                if core.waiting > 0 {
                    self.dones.notify_all();
                }
                return Ok(Some(task));
            }
            if core.open_in(group) == 0 {
                return Ok(None);
            }
            core.waiting += 1;
            let woken = core.wait(&self.dones, deadline);
            let is_late = woken.is_none();
            core = woken.unwrap_or_else(|| self.lock());
            core.waiting -= 1;
            if is_late {
                return core.take_done(group);
            }
        }
    }

    fn wake_takers(&self) {
        let core = self.lock();
        if core.waiting > 0 {
            self.dones.notify_all();
        }
    }
}

impl<T> Drop for Group<T> {
    fn drop(&mut self) {
        let mut core = self.inner.lock();
        core.groups.remove(&self.number);
        core.clear_group(self.number);
    }
}

impl<T> fmt::Debug for Group<T> {
    fn fmt(&self, f: &mut fmt::Formatter<'_>) -> fmt::Result {
        f.debug_struct("Group").field("number", &self.number).field("open", &self.open()).finish_non_exhaustive()
    }
}
