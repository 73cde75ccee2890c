//! What a step answers.

use crate::raw::{RawAnswer, NO_TASK};

/// What a step answers. A task beside it is the one that the answer speaks of; `true` where its payload leaves the machine.
#[derive(Clone, Copy, Debug, PartialEq, Eq)]
#[non_exhaustive]
pub enum Answer {
    /// Nothing more is to be said; of [`Ask::TakeDone`](crate::Ask::TakeDone), the task.
    Done(Option<u32>),
    /// A slot is reserved: its worker is to be made.
    Reserve(Option<u32>, u64),
    /// The task is to be offered.
    Queue(u32),
    /// The task is refused: a verdict is to be asked.
    Refuse(u32),
    /// The task is in the queue.
    Queued(u32),
    /// The slot's worker has the task, and is to be woken.
    Hand(u32, u64),
    /// The queue has no room.
    Full(u32),
    /// The task stays.
    Stay(u32),
    /// The same, and a slot is reserved.
    StayReserve(u32, u64),
    /// The task is out of the queue again, and refused.
    Back(u32),
    /// The task is gone, rejected.
    Rejected(u32, bool),
    /// Its submitter runs it.
    Caller(u32, bool),
    /// The task was cancelled, and is gone.
    Skip(u32),
    /// The task is gone, discarded.
    Discarded(u32, bool),
    /// The task is to look again.
    Retry(u32),
    /// The same, and this task, the queue's head, is gone.
    RetryDrop(u32, bool),
    /// The slot is live.
    Live(u64),
    /// The slot is freed.
    GivenUp(u64),
    /// There was no task; no slot is reserved.
    Nothing,
    /// The slot's task is to be offered.
    Offer(u32),
    /// The worker has the task that its slot held.
    Held(u32),
    /// The worker has the queue's head.
    Head(u32),
    /// The worker leaves.
    Leave,
    /// The worker is idle.
    Idle,
    /// The task begins.
    Run(u32),
    /// The task ended.
    Ended(u32),
    /// It had effect.
    Yes(u32, bool),
    /// It had none.
    No(u32),
    /// So many.
    Count(u32),
}

impl Answer {
    pub(crate) fn of(raw: RawAnswer) -> Answer {
        let RawAnswer { what, left, task, number, slot } = raw;
        let left = left == 1;
        let named = if task == NO_TASK { None } else { Some(task) };
        match what {
            0 => Answer::Done(named),
            1 => Answer::Reserve(named, slot),
            2 => Answer::Queue(task),
            3 => Answer::Refuse(task),
            4 => Answer::Queued(task),
            5 => Answer::Hand(task, slot),
            6 => Answer::Full(task),
            7 => Answer::Stay(task),
            8 => Answer::StayReserve(task, slot),
            9 => Answer::Back(task),
            10 => Answer::Rejected(task, left),
            11 => Answer::Caller(task, left),
            12 => Answer::Skip(task),
            13 => Answer::Discarded(task, left),
            14 => Answer::Retry(task),
            15 => Answer::RetryDrop(task, left),
            16 => Answer::Live(slot),
            17 => Answer::GivenUp(slot),
            18 => Answer::Nothing,
            19 => Answer::Offer(task),
            20 => Answer::Held(task),
            21 => Answer::Head(task),
            22 => Answer::Leave,
            23 => Answer::Idle,
            24 => Answer::Run(task),
            25 => Answer::Ended(task),
            26 => Answer::Yes(task, left),
            27 => Answer::No(task),
            28 => Answer::Count(number),
            _ => unreachable!("the library answers 0 to 28"),
        }
    }
}
