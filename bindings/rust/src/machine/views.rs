//! What is seen of a pool and of a task.

use crate::raw::{RawPoolView, RawTaskView};

/// How far a pool is on its way to its end.
#[derive(Clone, Copy, Debug, Default, PartialEq, Eq, PartialOrd, Ord)]
#[non_exhaustive]
pub enum RunState {
    /// It takes tasks.
    #[default]
    Running,
    /// It takes no more, and runs those that it has.
    Shutdown,
    /// It has handed back those that were queued.
    Stop,
    /// It has no worker any more.
    Tidying,
    /// It is at its end.
    Terminated,
}

const STATES: [RunState; 5] = [RunState::Running, RunState::Shutdown, RunState::Stop, RunState::Tidying, RunState::Terminated];

/// What is seen of a pool, all of one moment.
#[derive(Clone, Copy, Debug, Default, PartialEq, Eq)]
#[non_exhaustive]
pub struct PoolView {
    /// How far it is on its way to its end.
    pub state: RunState,
    /// Submissions that got a number.
    pub submitted: u32,
    /// Tasks that workers ran to their end.
    pub run: u32,
    /// Tasks that their submitters ran.
    pub caller: u32,
    /// Tasks that were rejected.
    pub rejected: u32,
    /// Tasks that were discarded.
    pub discarded: u32,
    /// Tasks that a `shutdown_now` handed back.
    pub handedback: u32,
    /// Tasks that were removed from the queue.
    pub removed: u32,
    /// Tasks that were cancelled.
    pub cancelled: u32,
    /// Bodies that workers ended, and cancelled tasks that they skipped.
    pub completed: u32,
    /// Tasks in the queue.
    pub queued: u32,
    /// Workers.
    pub live: u32,
    /// The most workers so far.
    pub largest: u32,
    /// The core size.
    pub core: u32,
    /// Slots, reserved and live.
    pub slots: u64,
    /// The moment, in ticks.
    pub now: u64,
    /// Entries of the record so far.
    pub steps: u64,
}

impl PoolView {
    pub(crate) fn of(raw: RawPoolView) -> PoolView {
        PoolView {
            state: STATES[(raw.state as usize).min(STATES.len() - 1)],
            submitted: raw.submitted,
            run: raw.run,
            caller: raw.caller,
            rejected: raw.rejected,
            discarded: raw.discarded,
            handedback: raw.handedback,
            removed: raw.removed,
            cancelled: raw.cancelled,
            completed: raw.completed,
            queued: raw.queued,
            live: raw.live,
            largest: raw.largest,
            core: raw.core,
            slots: raw.slots,
            now: raw.now,
            steps: raw.steps,
        }
    }
}

/// Where a task is.
#[derive(Clone, Copy, Debug, PartialEq, Eq)]
#[non_exhaustive]
pub enum Place {
    /// With its submitter, who is to look for a core slot.
    Looking,
    /// With its submitter, who is to offer it to the queue.
    ToOffer,
    /// With its submitter, who is to ask for a slot up to the maximum.
    ToGrow,
    /// With its submitter, who is to hear a verdict.
    Refused,
    /// In the queue.
    Queued,
    /// In this slot, whose worker has not taken it yet.
    Held(u64),
    /// In this slot, taken by its worker.
    Taken(u64),
    /// In this slot, running.
    Running(u64),
    /// At its submitter, who runs it.
    Caller,
    /// It is gone.
    Gone,
}

/// What became of a task.
#[derive(Clone, Copy, Debug, PartialEq, Eq)]
#[non_exhaustive]
pub enum Fate {
    /// A worker ran it.
    Run,
    /// Its submitter ran it.
    RunByCaller,
    /// The policy rejected it.
    Rejected,
    /// The policy dropped it.
    Discarded,
    /// A `shutdown_now` handed it back.
    HandedBack,
    /// It was taken out of the queue.
    Removed,
    /// It was cancelled.
    Cancelled,
}

/// What is seen of a task.
#[derive(Clone, Copy, Debug, PartialEq, Eq)]
#[non_exhaustive]
pub struct TaskView {
    /// Where it is.
    pub place: Place,
    /// What became of it, None while it is open.
    pub fate: Option<Fate>,
}

const FATES: [Fate; 7] =
    [Fate::Run, Fate::RunByCaller, Fate::Rejected, Fate::Discarded, Fate::HandedBack, Fate::Removed, Fate::Cancelled];

impl TaskView {
    pub(crate) fn of(raw: RawTaskView) -> TaskView {
        let place = match raw.place {
            0 => Place::Looking,
            1 => Place::ToOffer,
            2 => Place::ToGrow,
            3 => Place::Refused,
            4 => Place::Queued,
            5 => Place::Held(raw.slot),
            6 => Place::Taken(raw.slot),
            7 => Place::Running(raw.slot),
            8 => Place::Caller,
            _ => Place::Gone,
        };
        let fate = (raw.fate as usize).checked_sub(1).and_then(|at| FATES.get(at).copied());
        TaskView { place, fate }
    }
}
