//! Locks and waits. No job runs under a lock, so what a panic leaves there is sound.

use std::hint;
use std::sync::{Condvar, LockResult, Mutex, MutexGuard, PoisonError, TryLockError};
use std::thread;
use std::time::{Duration, Instant};

/// What is held, also where a thread panicked with it.
pub(crate) fn sound<T>(held: LockResult<T>) -> T {
    held.unwrap_or_else(PoisonError::into_inner)
}

/// How often who finds a lock taken looks again, and how often it gives way meanwhile.
const LOOKS: u32 = 16;
const WAYS: u32 = 2;

/// Takes a lock whose holds are short. Who finds it taken looks again after a pause, and now and then gives way, since the thread that has
/// the lock may want its processor. It sleeps only after many looks: a sleep costs two system calls, one of them by the thread that has the
/// lock.
pub(crate) fn polite<T>(lock: &Mutex<T>) -> MutexGuard<'_, T> {
    for look in 1..=LOOKS {
        match lock.try_lock() {
            Ok(held) => return held,
            Err(TryLockError::Poisoned(held)) => return held.into_inner(),
            Err(TryLockError::WouldBlock) if look % (LOOKS / WAYS) == 0 => thread::yield_now(),
            Err(TryLockError::WouldBlock) => (0..look.min(4)).for_each(|_| hint::spin_loop()),
        }
    }
    sound(lock.lock())
}

/// The moment so long from now: None, which is never, where it is beyond the clock.
pub(crate) fn deadline_in(time: Duration) -> Option<Instant> {
    Instant::now().checked_add(time)
}

/// Waits to be notified, for no longer than to the deadline where there is one. None where that is over.
pub(crate) fn wait_until<'a, T>(changed: &Condvar, held: MutexGuard<'a, T>, deadline: Option<Instant>) -> Option<MutexGuard<'a, T>> {
    let Some(deadline) = deadline else {
        return Some(sound(changed.wait(held)));
    };
    let left = deadline.checked_duration_since(Instant::now())?;
    if left.is_zero() {
        return None;
    }
    Some(sound(changed.wait_timeout(held, left)).0)
}
