//! What a step asks, and its numbers.

/// The kind of a task.
#[derive(Clone, Copy, Debug, PartialEq, Eq)]
pub enum Kind {
    /// Its outcome is not asked for.
    Plain,
    /// It can be cancelled, and its outcome is kept.
    Future,
    /// A future whose completion is queued for this group.
    Group(u32),
}

/// What a handler says of a refused task.
#[derive(Clone, Copy, Debug, PartialEq, Eq)]
pub enum Verdict {
    /// It is rejected.
    Abort,
    /// Its submitter runs it.
    CallerRuns,
    /// It is dropped.
    Discard,
    /// The queue's head is dropped, and it is offered again.
    DiscardOldest,
}

/// A body's end: a value, or a fault's code.
pub type Outcome = Result<i64, u32>;

/// What a step asks.
#[derive(Clone, Copy, Debug, PartialEq, Eq)]
pub enum Ask {
    /// A new task of this kind and priority.
    Submit(Kind, u32),
    /// Its submitter looks for a core slot again.
    Look(u32),
    /// Its submitter offers it to the queue.
    Offer(u32),
    /// Its submitter looks at the run state a second time.
    Second(u32),
    /// Its submitter asks for a slot up to the maximum.
    Grow(u32),
    /// What becomes of a refused task.
    Verdict(u32, Verdict),
    /// Its submitter has run it.
    CallerEnd(u32, Outcome),
    /// A worker was made for a reserved slot.
    Open(u64),
    /// None was made.
    Fail(u64),
    /// A worker asks for its next task.
    Take(u64),
    /// It begins the task that it took.
    Begin(u64),
    /// It has run its task.
    End(u64, Outcome),
    /// It leaves, since its plain task faulted.
    Leave(u64),
    /// No more tasks are accepted.
    Shutdown,
    /// The same, and queued tasks are handed back.
    Stop,
    /// The pool without slots goes on to its end.
    Tidy,
    /// The terminated hook has run.
    Ended,
    /// The task is taken out of the queue.
    Remove(u32),
    /// All cancelled tasks are.
    Purge,
    /// The task is cancelled; whether its cancel flag is to be set.
    Cancel(u32, bool),
    /// The group's next completed task.
    TakeDone(u32),
    /// The core size.
    Core(u32),
    /// The maximum size.
    Maximum(u32),
    /// The keep-alive, in ticks.
    Keep(u64),
    /// Whether core workers time out.
    CoreTimeout(bool),
    /// The moment, in ticks.
    Tick(u64),
    /// A slot is reserved for the core with no task.
    Prestart,
}

fn outcome(outcome: Outcome) -> (u64, i64) {
    match outcome {
        Ok(value) => (0, value),
        Err(code) => (1, i64::from(code)),
    }
}

impl Ask {
    pub(crate) fn numbers(self) -> (u32, u64, u64, i64) {
        let task = u64::from;
        match self {
            Ask::Submit(Kind::Plain, priority) => (1, 0, 0, i64::from(priority)),
            Ask::Submit(Kind::Future, priority) => (1, 1, 0, i64::from(priority)),
            Ask::Submit(Kind::Group(group), priority) => (1, 2, u64::from(group), i64::from(priority)),
            Ask::Look(t) => (2, task(t), 0, 0),
            Ask::Offer(t) => (3, task(t), 0, 0),
            Ask::Second(t) => (4, task(t), 0, 0),
            Ask::Grow(t) => (5, task(t), 0, 0),
            Ask::Verdict(t, verdict) => (6, task(t), verdict as u64, 0),
            Ask::CallerEnd(t, o) => (7, task(t), outcome(o).0, outcome(o).1),
            Ask::Open(w) => (8, w, 0, 0),
            Ask::Fail(w) => (9, w, 0, 0),
            Ask::Take(w) => (10, w, 0, 0),
            Ask::Begin(w) => (11, w, 0, 0),
            Ask::End(w, o) => (12, w, outcome(o).0, outcome(o).1),
            Ask::Leave(w) => (13, w, 0, 0),
            Ask::Shutdown => (14, 0, 0, 0),
            Ask::Stop => (15, 0, 0, 0),
            Ask::Tidy => (16, 0, 0, 0),
            Ask::Ended => (17, 0, 0, 0),
            Ask::Remove(t) => (18, task(t), 0, 0),
            Ask::Purge => (19, 0, 0, 0),
            Ask::Cancel(t, flag) => (20, task(t), u64::from(flag), 0),
            Ask::TakeDone(group) => (21, u64::from(group), 0, 0),
            Ask::Core(size) => (22, u64::from(size), 0, 0),
            Ask::Maximum(size) => (23, u64::from(size), 0, 0),
            Ask::Keep(ticks) => (24, ticks, 0, 0),
            Ask::CoreTimeout(on) => (25, u64::from(on), 0, 0),
            Ask::Tick(now) => (26, now, 0, 0),
            Ask::Prestart => (27, 0, 0, 0),
        }
    }
}
