//! Jobs, as a pool holds them: a closure, and whom its end is told.

use crate::machine::Fate;
use crate::pool::futures::{CancelFlag, Cell, Failure};
use std::any::Any;
use std::mem;
use std::panic::{catch_unwind, AssertUnwindSafe};
use std::sync::Arc;

/// What came of a body.
pub(crate) struct Ran<'a> {
    /// It panicked.
    pub(crate) is_fault: bool,
    /// What of the job is left to be told, once the pool has the outcome. A plain task has nothing.
    pub(crate) rest: Option<Box<dyn Job<'a> + 'a>>,
}

/// A function of a job that left the pool, for who gets it back.
pub type Function<'a> = Box<dyn FnOnce() + Send + 'a>;

/// A job whose borrows live as long as `'a`. None of its functions is called with a lock of the pool held.
pub(crate) trait Job<'a>: Send {
    /// Runs the body. No panic leaves it.
    fn run(self: Box<Self>) -> Ran<'a>;

    /// Tells the job's future what came of its body.
    fn tell(self: Box<Self>);

    /// Tells the job's future that there will be no value, and why.
    fn lose(self: Box<Self>, failure: Failure);

    /// A function that runs the body, where the job may outlive the call that handed it in. Its future is told of this fate.
    fn into_function(self: Box<Self>, fate: Fate) -> Option<Function<'a>>;

    /// The flag that the body reads, where it reads one.
    fn flag(&self) -> Option<CancelFlag>;
}

/// What a pool holds.
pub(crate) type HeldJob = Box<dyn Job<'static>>;

/// The job of this type that was handed in as this box, which came back.
///
/// # Safety
///
/// The box is one that was made of a `Box<J>`.
pub(crate) unsafe fn given_back<J>(job: HeldJob) -> J {
    // SAFETY: the caller says that a `J` lies there, so only the pointer's type is another.
    *unsafe { Box::from_raw(Box::into_raw(job).cast::<J>()) }
}

/// Drops it. A panic of its drop ends here, so it harms nobody who had no part in it.
pub(crate) fn let_go<T>(value: T) {
    quietly(move || drop(value));
}

/// Calls a function of which only the effect is wanted.
pub(crate) fn quietly(function: impl FnOnce()) {
    let mut ended = catch_unwind(AssertUnwindSafe(function));
    // What a panic says may have a drop that panics, too. A chain of these is let lie.
    for _ in 0..CHAIN {
        match ended {
            Ok(()) => return,
            Err(panic) => ended = catch_unwind(AssertUnwindSafe(|| drop(panic))),
        }
    }
    mem::forget(ended);
}

/// How many drops of panics may panic, one by the other.
const CHAIN: usize = 8;

/// A body, with what it is given.
pub(crate) trait Body: Send {
    /// What it answers.
    type Value;

    fn call(self) -> Self::Value;

    fn flag(&self) -> Option<CancelFlag> {
        None
    }
}

/// A closure that is given nothing.
pub(crate) struct Bare<F>(pub(crate) F);

impl<T, F: FnOnce() -> T + Send> Body for Bare<F> {
    type Value = T;

    fn call(self) -> T {
        (self.0)()
    }
}

/// A closure that is given its task's cancel flag.
pub(crate) struct Flagged<F>(pub(crate) F, pub(crate) CancelFlag);

impl<T, F: FnOnce(&CancelFlag) -> T + Send> Body for Flagged<F> {
    type Value = T;

    fn call(self) -> T {
        (self.0)(&self.1)
    }

    fn flag(&self) -> Option<CancelFlag> {
        Some(self.1.clone())
    }
}

/// A job without a future.
pub(crate) struct Plain<F>(pub(crate) F);

impl<'a, F: FnOnce() + Send + 'a> Job<'a> for Plain<F> {
    fn run(self: Box<Self>) -> Ran<'a> {
        let Plain(body) = *self;
        let is_fault = match catch_unwind(AssertUnwindSafe(body)) {
            Ok(()) => false,
            Err(panic) => {
                let_go(panic);
                true
            }
        };
        Ran { is_fault, rest: None }
    }

    fn tell(self: Box<Self>) {}

    fn lose(self: Box<Self>, _: Failure) {
        let_go(self);
    }

    fn into_function(self: Box<Self>, _: Fate) -> Option<Function<'a>> {
        Some(Box::new(self.0))
    }

    fn flag(&self) -> Option<CancelFlag> {
        None
    }
}

enum Stage<T, B> {
    Waits(B),
    Ended(Result<T, Box<dyn Any + Send>>),
    Spent,
}

/// A job with a future. The fields are dropped in their order, so the guard falls last: it is what a scope counts by.
pub(crate) struct Promised<T, B, G> {
    cell: Arc<Cell<T>>,
    stage: Stage<T, B>,
    may_leave: bool,
    _guard: G,
}

impl<T, B> Promised<T, B, ()> {
    pub(crate) fn new(cell: Arc<Cell<T>>, body: B) -> Promised<T, B, ()> {
        Promised { cell, stage: Stage::Waits(body), may_leave: true, _guard: () }
    }
}

impl<T, B, G> Promised<T, B, G> {
    /// A job that is over, and all of it dropped, before its guard is; so it is handed back to nobody.
    pub(crate) fn guarded(cell: Arc<Cell<T>>, body: B, guard: G) -> Promised<T, B, G> {
        Promised { cell, stage: Stage::Waits(body), may_leave: false, _guard: guard }
    }

    /// The body of one that was refused.
    pub(crate) fn into_body(mut self) -> B {
        match mem::replace(&mut self.stage, Stage::Spent) {
            Stage::Waits(body) => body,
            Stage::Ended(_) | Stage::Spent => unreachable!("a job that is refused has not run"),
        }
    }
}

impl<T, B, G> Drop for Promised<T, B, G> {
    fn drop(&mut self) {
        if matches!(self.stage, Stage::Waits(_)) {
            self.cell.end(Err(Failure::Dropped));
        }
    }
}

impl<'a, T: Send + 'a, B: Body<Value = T> + 'a, G: Send + 'a> Job<'a> for Promised<T, B, G> {
    fn run(mut self: Box<Self>) -> Ran<'a> {
        let Stage::Waits(body) = mem::replace(&mut self.stage, Stage::Spent) else {
            unreachable!("a job runs once");
        };
        let result = catch_unwind(AssertUnwindSafe(|| body.call()));
        let is_fault = result.is_err();
        self.stage = Stage::Ended(result);
        Ran { is_fault, rest: Some(self) }
    }

    fn tell(mut self: Box<Self>) {
        quietly(move || {
            if let Stage::Ended(result) = mem::replace(&mut self.stage, Stage::Spent) {
                self.cell.end(result.map_err(Failure::Panicked));
            }
        });
    }

    fn lose(mut self: Box<Self>, failure: Failure) {
        quietly(move || {
            let body = mem::replace(&mut self.stage, Stage::Spent);
            self.cell.end(Err(failure));
            drop(body);
        });
    }

    fn into_function(mut self: Box<Self>, fate: Fate) -> Option<Function<'a>> {
        if !self.may_leave {
            self.lose(Failure::Lost(fate));
            return None;
        }
        let Stage::Waits(body) = mem::replace(&mut self.stage, Stage::Spent) else {
            unreachable!("a job is handed back before it runs");
        };
        self.cell.end(Err(Failure::Lost(fate)));
        Some(Box::new(move || drop(body.call())))
    }

    fn flag(&self) -> Option<CancelFlag> {
        match &self.stage {
            Stage::Waits(body) => body.flag(),
            Stage::Ended(_) | Stage::Spent => None,
        }
    }
}
