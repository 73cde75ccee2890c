//! A submission's path, as `ThreadPoolExecutor.execute`: each of its steps is one of the machine.

use crate::machine::{Answer, Ask, Error, Fate, Kind, Verdict};
use crate::pool::futures::Failure;
use crate::pool::inner::{Core, Inner, OUTSIDE};
use crate::pool::jobs::{HeldJob, Ran};
use crate::pool::table::Held;
use std::any::Any;
use std::panic::{catch_unwind, resume_unwind, AssertUnwindSafe};
use std::sync::Arc;

/// A job that the pool refused.
pub(crate) struct Back {
    pub(crate) error: Error,
    pub(crate) job: HeldJob,
}

/// What a submitter does next.
enum Next {
    Look,
    Offer,
    Second,
    Grow,
    Judge,
    RunHere,
    Staff(u64),
    Accepted,
    Refused(Back),
}

fn next_of(task: u32, answer: Answer) -> Next {
    match answer {
        Answer::Reserve(_, slot) | Answer::StayReserve(_, slot) => Next::Staff(slot),
        Answer::Queue(_) | Answer::Offer(_) => Next::Offer,
        Answer::Refuse(refused) if refused == task => Next::Judge,
        Answer::Back(_) => Next::Judge,
        Answer::Queued(_) | Answer::Hand(..) => Next::Second,
        Answer::Full(_) => Next::Grow,
        Answer::Retry(_) | Answer::RetryDrop(..) => Next::Look,
        Answer::Caller(..) => Next::RunHere,
        _ => Next::Accepted,
    }
}

impl Core {
    /// The job of a refused task, for its submitter.
    fn withdraw(&mut self, task: u32) -> Option<HeldJob> {
        let held = self.jobs.remove(task);
        self.forget(task);
        let held = held?;
        if let Kind::Group(group) = held.kind {
            if let Some(open) = self.groups.get_mut(&group) {
                open.count -= 1;
            }
        }
        Some(held.job)
    }

    fn refused(&mut self, task: u32, error: Error) -> Next {
        match self.withdraw(task) {
            Some(job) => Next::Refused(Back { error, job }),
            None => Next::Accepted,
        }
    }
}

impl Inner {
    /// Submits a task. `numbered` is called with its number before any other thread can know of it, under the pool's lock.
    pub(crate) fn submit(self: &Arc<Inner>, kind: Kind, priority: u32, job: HeldJob, numbered: impl FnOnce(u32)) -> Result<u32, Back> {
        let mut core = self.lock();
        let (entered, status) = core.enter(kind, priority);
        let Some(entered) = entered else {
            return Err(Back { error: status.err().unwrap_or(Error::NotThere), job });
        };
        let task = entered.task;
        numbered(task);
        if let Kind::Group(group) = kind {
            core.groups.entry(group).or_default().count += 1;
        }
        core.jobs.insert(task, Held { job, kind });
        self.settle(&mut core);
        drop(core);
        self.follow(task, kind, status.map(|()| next_of(task, entered.last)))
    }

    /// A submission's path from here to its end.
    fn follow(self: &Arc<Inner>, task: u32, kind: Kind, mut next: Result<Next, Error>) -> Result<u32, Back> {
        loop {
            next = match next {
                Ok(Next::Look) => self.lock().step(OUTSIDE, Ask::Look(task)).map(|answer| next_of(task, answer)),
                Ok(Next::Offer) => self.offer(&mut self.lock(), task),
                Ok(Next::Second) => self.second(&mut self.lock(), task),
                Ok(Next::Grow) => self.lock().step(OUTSIDE, Ask::Grow(task)).map(|answer| next_of(task, answer)),
                Ok(Next::Judge) => self.judge(task),
                Ok(Next::RunHere) => self.run_here(task, kind),
                Ok(Next::Staff(slot)) => self.staffed(task, slot),
                Ok(Next::Accepted) => return Ok(task),
                Ok(Next::Refused(back)) => return Err(back),
                // The machine owes an accepted task each step that it needs, so this is never reached; were it, the job comes back.
                Err(error) => Ok(self.lock().refused(task, error)),
            }
        }
    }

    fn offer(&self, core: &mut Core, task: u32) -> Result<Next, Error> {
        match core.step(OUTSIDE, Ask::Offer(task))? {
            Answer::Queued(_) => core.seats.call_one(),
            Answer::Hand(_, slot) => core.seats.call(slot),
            answer => return Ok(next_of(task, answer)),
        }
        self.second(core, task)
    }

    fn second(&self, core: &mut Core, task: u32) -> Result<Next, Error> {
        let answer = core.step(OUTSIDE, Ask::Second(task))?;
        self.settle(core);
        Ok(next_of(task, answer))
    }

    /// Has a worker made for the slot that was reserved for the task, or behind it.
    fn staffed(self: &Arc<Inner>, task: u32, slot: u64) -> Result<Next, Error> {
        let answer = self.staff(OUTSIDE, slot)?;
        self.rescue();
        if answer != Answer::Nothing {
            return Ok(next_of(task, answer));
        }
        // No thread was made. Where no other worker comes, the task is not left lying: its submitter hears of it.
        let mut core = self.lock();
        if core.machine.view().slots == 0 && matches!(core.step(OUTSIDE, Ask::Remove(task)), Ok(Answer::Yes(..))) {
            self.settle(&mut core);
            return Ok(core.refused(task, Error::NoThread));
        }
        Ok(Next::Accepted)
    }

    /// The verdict of the handler, which is to reject where it panics, and its panic.
    fn verdict(&self, task: u32) -> (Verdict, Option<Box<dyn Any + Send>>) {
        let Some(handler) = &self.handler else {
            return (self.verdict, None);
        };
        match catch_unwind(AssertUnwindSafe(|| handler(task))) {
            Ok(verdict) => (verdict, None),
            Err(panic) => (Verdict::Abort, Some(panic)),
        }
    }

    fn judge(self: &Arc<Inner>, task: u32) -> Result<Next, Error> {
        let (verdict, panic) = self.verdict(task);
        let mut core = self.lock();
        let answer = core.step(OUTSIDE, Ask::Verdict(task, verdict))?;
        let mut lost = None;
        let next = match answer {
            Answer::Rejected(..) => core.refused(task, Error::Rejected),
            Answer::Discarded(gone, _) | Answer::RetryDrop(gone, _) => {
                lost = core.lost(gone);
                if core.waiting > 0 {
                    self.dones.notify_all();
                }
                next_of(task, answer)
            }
            answer => next_of(task, answer),
        };
        self.settle(&mut core);
        drop(core);
        if let Some(job) = lost {
            job.lose(Failure::Lost(Fate::Discarded));
        }
        self.rescue();
        if let Some(panic) = panic {
            if let Next::Refused(back) = next {
                back.job.lose(Failure::Lost(Fate::Rejected));
            }
            resume_unwind(panic);
        }
        Ok(next)
    }

    fn run_here(&self, task: u32, kind: Kind) -> Result<Next, Error> {
        let held = self.lock().jobs.remove(task).expect("the pool holds the job of a task that begins");
        let Ran { is_fault, rest } = held.job.run();
        let mut core = self.lock();
        let ended = core.step(OUTSIDE, Ask::CallerEnd(task, outcome(is_fault)));
        core.forget(task);
        self.done(&mut core, kind);
        self.settle(&mut core);
        drop(core);
        if let Some(job) = rest {
            job.tell();
        }
        ended.map(|_| Next::Accepted)
    }
}

/// How a body ended, as the machine hears it.
pub(crate) fn outcome(is_fault: bool) -> Result<i64, u32> {
    if is_fault {
        Err(FAULT)
    } else {
        Ok(0)
    }
}

/// The code of a body that panicked.
const FAULT: u32 = 1;
