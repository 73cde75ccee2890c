//! What a pool is: a machine, the jobs of its tasks and the places of its workers, under one lock.

use crate::machine::{Answer, Ask, Entered, Error, Kind, Machine, Outcome, Turned, Verdict};
use crate::pool::jobs::HeldJob;
use crate::pool::locks::{polite, wait_until};
use crate::pool::seats::Seats;
use crate::pool::table::Jobs;
use std::cell::Cell;
use std::collections::{BTreeSet, HashMap, VecDeque};
use std::ops::{Deref, DerefMut};
use std::ptr;
use std::sync::{Arc, Condvar, Mutex, MutexGuard};
use std::time::{Duration, Instant};

/// The pass of who submits, controls and ends: passes need only tell a pool's workers apart.
pub(crate) const OUTSIDE: u32 = 0;

/// A handler of refused tasks.
pub(crate) type Handler = Box<dyn Fn(u32) -> Verdict + Send + Sync>;

/// The tasks of a group, as far as they are not in its user's hands.
#[derive(Default)]
pub(crate) struct Open {
    /// How many are neither taken nor lost.
    pub(crate) count: usize,
    /// Those that left the pool without a body's end, which the machine doesn't tell.
    pub(crate) lost: VecDeque<u32>,
}

/// What the pool's lock keeps.
pub(crate) struct Core {
    pub(crate) machine: Machine,
    /// The jobs of tasks that have not begun.
    pub(crate) jobs: Jobs,
    pub(crate) seats: Seats,
    /// How many tasks are queued.
    pub(crate) queued: u32,
    /// The run state's rank: 0 running, 1 shutdown, 2 stop.
    pub(crate) rank: u32,
    /// The last number of a worker's pass.
    pub(crate) passes: u32,
    /// The pool is terminated.
    pub(crate) is_ended: bool,
    pub(crate) keeps_record: bool,
    pub(crate) keep: Duration,
    pub(crate) core_timeout: bool,
    /// The last moment that the machine was told, in ticks.
    pub(crate) ticked: u64,
    /// Tasks that were cancelled before they began, as far as the machine may still have them in its queue.
    pub(crate) cancelled: BTreeSet<u32>,
    /// The groups that are there.
    pub(crate) groups: HashMap<u32, Open>,
    pub(crate) last_group: u32,
    /// How many threads wait for a task of a group to be done.
    pub(crate) waiting: usize,
}

/// A pool, as its handle and its workers share it.
pub(crate) struct Inner {
    pub(crate) core: Mutex<Core>,
    /// The pool is terminated, or has tasks that nobody comes for.
    pub(crate) ends: Condvar,
    /// A task of a group is done or lost.
    pub(crate) dones: Condvar,
    pub(crate) opened: Instant,
    pub(crate) verdict: Verdict,
    pub(crate) handler: Option<Handler>,
    pub(crate) name: String,
    pub(crate) stack: Option<usize>,
}

/// A hold of a pool's lock. At its end the worker that was called in it is woken, so it finds the lock free.
pub(crate) struct Hold<'a>(Option<MutexGuard<'a, Core>>);

const HELD: &str = "a hold has the lock until it is dropped";

impl Deref for Hold<'_> {
    type Target = Core;

    fn deref(&self) -> &Core {
        self.0.as_ref().expect(HELD)
    }
}

impl DerefMut for Hold<'_> {
    fn deref_mut(&mut self) -> &mut Core {
        self.0.as_mut().expect(HELD)
    }
}

impl Drop for Hold<'_> {
    fn drop(&mut self) {
        if let Some(mut core) = self.0.take() {
            let called = core.seats.take_called();
            drop(core);
            if let Some(bed) = called {
                bed.call();
            }
        }
    }
}

impl<'a> Hold<'a> {
    /// Waits to be notified, for no longer than to the deadline. None where that is over.
    pub(crate) fn wait(mut self, changed: &Condvar, deadline: Option<Instant>) -> Option<Hold<'a>> {
        let mut core = self.0.take().expect(HELD);
        if let Some(bed) = core.seats.take_called() {
            bed.call();
        }
        wait_until(changed, core, deadline).map(|core| Hold(Some(core)))
    }
}

impl Core {
    /// One step, and what is counted by its answer.
    pub(crate) fn step(&mut self, by: u32, ask: Ask) -> Result<Answer, Error> {
        let answer = self.machine.step(by, ask)?;
        match (ask, answer) {
            (_, Answer::Queued(_)) => self.queued += 1,
            (_, Answer::Head(_) | Answer::Back(_) | Answer::RetryDrop(..)) => self.queued -= 1,
            (Ask::Remove(_), Answer::Yes(..)) => self.queued -= 1,
            (Ask::Purge, Answer::Count(gone)) => self.queued -= gone,
            (Ask::Stop, _) => self.queued = 0,
            _ => {}
        }
        Ok(answer)
    }

    /// A worker's turn, and what is counted by its answers.
    pub(crate) fn turn(&mut self, by: u32, slot: u64, over: Option<Outcome>) -> (Turned, Result<(), Error>) {
        let (turned, status) = self.machine.turn(by, slot, over);
        if let Some(Answer::Head(_)) = turned.took {
            self.queued -= 1;
        }
        (turned, status)
    }

    /// A submission's steps, what is counted by their answers, and whom they call.
    pub(crate) fn enter(&mut self, kind: Kind, priority: u32) -> (Option<Entered>, Result<(), Error>) {
        let (entered, status) = self.machine.enter(OUTSIDE, kind, priority);
        match entered.as_ref().map(|entered| (entered.offered, entered.last)) {
            // Back at once, since the pool is shut down.
            Some((Some(Answer::Queued(_)), Answer::Back(_))) => {}
            Some((Some(Answer::Queued(_)), _)) => {
                self.queued += 1;
                self.seats.call_one();
            }
            Some((Some(Answer::Hand(_, slot)), _)) => self.seats.call(slot),
            _ => {}
        }
        (entered, status)
    }

    /// Where no record is kept, the machine forgets a task that is gone and owes nothing. One that owes a second look is forgotten
    /// behind that, and one of a group once it is taken.
    pub(crate) fn forget(&mut self, task: u32) {
        if !self.keeps_record && self.machine.release(task).is_ok() && !self.cancelled.is_empty() {
            self.cancelled.remove(&task);
        }
    }

    /// The job of a task that left the pool without having run. One that was cancelled has none any more.
    pub(crate) fn lost(&mut self, task: u32) -> Option<HeldJob> {
        let held = self.jobs.remove(task);
        self.forget(task);
        let held = held?;
        if let Kind::Group(group) = held.kind {
            if let Some(open) = self.groups.get_mut(&group) {
                open.count -= 1;
                open.lost.push_back(task);
            }
        }
        Some(held.job)
    }

    /// Tasks are queued in a pool that is shut down and has no slot.
    pub(crate) fn is_stranded(&mut self) -> bool {
        self.rank == 1 && self.queued > 0 && self.machine.view().slots == 0
    }
}

thread_local! {
    /// The pool whose worker this thread is.
    static EMPLOYER: Cell<*const Inner> = const { Cell::new(ptr::null()) };
}

impl Inner {
    pub(crate) fn lock(&self) -> Hold<'_> {
        Hold(Some(polite(&self.core)))
    }

    /// This thread is a worker of the pool from now on.
    pub(crate) fn employ(self: &Arc<Inner>) {
        EMPLOYER.set(Arc::as_ptr(self));
    }

    /// Whether this thread is a worker of the pool, so that it can't wait for the pool's end.
    pub(crate) fn employs(&self) -> bool {
        ptr::eq(EMPLOYER.get(), self)
    }

    /// Ends the pool, where it can end now.
    pub(crate) fn settle(&self, core: &mut Core) {
        if core.rank > 0 && !core.is_ended && core.step(OUTSIDE, Ask::Tidy).is_ok() {
            core.is_ended = core.step(OUTSIDE, Ask::Ended).is_ok();
            self.ends.notify_all();
        }
    }

    /// A task of this kind is done or lost: who waits for one of its group looks again. One of a group that is gone is asked for by nobody.
    pub(crate) fn done(&self, core: &mut Core, kind: Kind) {
        if let Kind::Group(group) = kind {
            if !core.groups.contains_key(&group) {
                core.clear_group(group);
            }
            if core.waiting > 0 {
                self.dones.notify_all();
            }
        }
    }
}
