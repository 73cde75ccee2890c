//! Jobs that borrow: a scope waits for the end of all its jobs.

use crate::machine::Kind;
use crate::pool::futures::{Cell, Future};
use crate::pool::jobs::{given_back, Bare, HeldJob, Job, Promised};
use crate::pool::locks::sound;
use crate::pool::{Refused, ThreadPool};
use std::fmt;
use std::marker::PhantomData;
use std::mem;
use std::sync::{Arc, Condvar, Mutex};

/// How many jobs of a scope are not over.
#[derive(Default)]
struct Open {
    count: Mutex<usize>,
    none: Condvar,
}

impl Open {
    fn wait(&self) {
        let mut count = sound(self.count.lock());
        while *count > 0 {
            count = sound(self.none.wait(count));
        }
    }
}

/// A job that is not over. Its drop is the last that happens of it.
struct Counted(Arc<Open>);

impl Counted {
    fn of(open: &Arc<Open>) -> Counted {
        *sound(open.count.lock()) += 1;
        Counted(open.clone())
    }
}

impl Drop for Counted {
    fn drop(&mut self) {
        let mut count = sound(self.0.count.lock());
        *count -= 1;
        if *count == 0 {
            self.0.none.notify_all();
        }
    }
}

/// Where jobs may borrow what lives as long as `'env`.
pub struct Scope<'scope, 'env: 'scope> {
    pool: &'scope ThreadPool,
    open: Arc<Open>,
    scope: PhantomData<&'scope mut &'scope ()>,
    env: PhantomData<&'env mut &'env ()>,
}

impl<'scope, 'env> Scope<'scope, 'env> {
    /// Runs a closure, whose value the future will have. A pool that is stopped drops it, and hands it back to nobody.
    pub fn submit<T: Send + 'scope, F: FnOnce() -> T + Send + 'scope>(&'scope self, body: F) -> Result<Future<T>, Refused<F>> {
        let cell = Cell::new(None);
        let job: Box<dyn Job<'scope> + 'scope> = Box::new(Promised::guarded(cell.clone(), Bare(body), Counted::of(&self.open)));
        // SAFETY: only the lifetime is another. The scope ends once each of its jobs is over, also where its closure panics, and a job
        // counts until all of it is dropped, what tells its future included. It is handed to nobody who may keep it.
        let held = unsafe { mem::transmute::<Box<dyn Job<'scope> + 'scope>, HeldJob>(job) };
        match self.pool.inner.submit(Kind::Future, 0, held, |_| ()) {
            Ok(task) => Ok(Future { cell, task, pool: Arc::downgrade(&self.pool.inner) }),
            Err(back) => {
                // SAFETY: it is the box that was handed in.
                let job = unsafe { given_back::<Promised<T, Bare<F>, Counted>>(back.job) };
                Err(Refused { error: back.error, body: job.into_body().0 })
            }
        }
    }
}

impl fmt::Debug for Scope<'_, '_> {
    fn fmt(&self, f: &mut fmt::Formatter<'_>) -> fmt::Result {
        f.debug_struct("Scope").field("pool", self.pool).finish_non_exhaustive()
    }
}

/// Waits for a scope's jobs when it is dropped.
struct Waits(Arc<Open>);

impl Drop for Waits {
    fn drop(&mut self) {
        self.0.wait();
    }
}

impl ThreadPool {
    /// Calls the function with a scope, whose jobs may borrow, and waits until all of them are over. A job that opens a scope on its own
    /// pool has its worker wait: with no other worker that waits for ever.
    ///
    /// ```
    /// let pool = zellunkay::ThreadPool::fixed(2)?;
    /// let words = ["one", "two", "three"];
    /// let letters: usize = pool.scope(|scope| {
    ///     let lengths: Vec<_> = words.iter().map(|word| scope.submit(|| word.len()).unwrap()).collect();
    ///     lengths.into_iter().map(|length| length.get().unwrap()).sum()
    /// });
    /// assert_eq!(letters, 11);
    /// # Ok::<(), Box<dyn std::error::Error>>(())
    /// ```
    pub fn scope<'env, T>(&'env self, function: impl for<'scope> FnOnce(&'scope Scope<'scope, 'env>) -> T) -> T {
        let open = Arc::new(Open::default());
        let _waits = Waits(open.clone());
        let scope = Scope { pool: self, open, scope: PhantomData, env: PhantomData };
        function(&scope)
    }
}
