//! The workers' places: who sleeps, who was called, and whose thread has ended.

use crate::pool::futures::CancelFlag;
use std::collections::VecDeque;
use std::sync::atomic::{AtomicBool, Ordering};
use std::sync::Arc;
use std::thread::{self, JoinHandle, Thread};
use std::time::Instant;

/// Where a worker sleeps.
pub(crate) struct Bed {
    is_called: AtomicBool,
    thread: Thread,
}

/// How often a worker looks whether it was called, before it parks.
const LOOKS: u32 = 100;

impl Bed {
    /// The bed of this thread.
    pub(crate) fn new() -> Arc<Bed> {
        Arc::new(Bed { is_called: AtomicBool::new(false), thread: thread::current() })
    }

    pub(crate) fn call(&self) {
        self.is_called.store(true, Ordering::Release);
        self.thread.unpark();
    }

    fn was_called(&self) -> bool {
        self.is_called.swap(false, Ordering::Acquire)
    }

    /// Sleeps until it is called, or until the deadline. It may wake for a call that was left over, so who wakes looks under the lock.
    pub(crate) fn sleep(&self, deadline: Option<Instant>) {
        for _ in 0..LOOKS {
            if self.was_called() {
                return;
            }
            std::hint::spin_loop();
        }
        while !self.was_called() {
            match deadline.map(|deadline| deadline.saturating_duration_since(Instant::now())) {
                None => thread::park(),
                Some(left) if left.is_zero() => return,
                Some(left) => thread::park_timeout(left),
            }
        }
    }
}

#[derive(Default)]
struct Seat {
    bed: Option<Arc<Bed>>,
    is_asleep: bool,
    thread: Option<JoinHandle<()>>,
    /// The flag of the job that runs, where that reads one.
    flag: Option<CancelFlag>,
}

/// The places, by slot. At the end of each hold of the pool's lock no task is queued, or no worker sleeps, or one is on its way.
#[derive(Default)]
pub(crate) struct Seats {
    seats: Vec<Seat>,
    /// Whose workers sleep, in the order in which they fell asleep.
    asleep: VecDeque<u64>,
    /// The slot whose worker was called for a queued task, and has not looked for it yet.
    coming: Option<u64>,
    /// Whom to call once the lock is free.
    called: Option<Arc<Bed>>,
    /// Threads of workers that have left.
    ended: Vec<JoinHandle<()>>,
}

impl Seats {
    fn seat(&mut self, slot: u64) -> &mut Seat {
        let at = slot as usize;
        if self.seats.len() <= at {
            self.seats.resize_with(at + 1, Seat::default);
        }
        &mut self.seats[at]
    }

    // ---- sleep

    pub(crate) fn settle_in(&mut self, slot: u64, bed: Arc<Bed>) {
        self.seat(slot).bed = Some(bed);
    }

    pub(crate) fn lie_down(&mut self, slot: u64) {
        self.seat(slot).is_asleep = true;
        self.asleep.push_back(slot);
    }

    pub(crate) fn is_asleep(&mut self, slot: u64) -> bool {
        self.seat(slot).is_asleep
    }

    /// The worker is awake, and takes its turn in this hold.
    pub(crate) fn get_up(&mut self, slot: u64) {
        if self.coming == Some(slot) {
            self.coming = None;
        }
        if std::mem::replace(&mut self.seat(slot).is_asleep, false) {
            self.forget(slot);
        }
    }

    fn forget(&mut self, slot: u64) {
        if let Some(at) = self.asleep.iter().position(|other| *other == slot) {
            self.asleep.remove(at);
        }
    }

    /// Calls this slot's worker, where it sleeps.
    pub(crate) fn call(&mut self, slot: u64) {
        if self.is_asleep(slot) {
            self.get_up(slot);
            let bed = self.seat(slot).bed.clone();
            if let Some(before) = std::mem::replace(&mut self.called, bed) {
                before.call();
            }
        }
    }

    /// Calls the worker that fell asleep last, for a queued task, unless one is on its way.
    pub(crate) fn call_one(&mut self) {
        if self.coming.is_none() {
            if let Some(slot) = self.asleep.back().copied() {
                self.call(slot);
                self.coming = Some(slot);
            }
        }
    }

    pub(crate) fn call_all(&mut self) {
        while let Some(slot) = self.asleep.front().copied() {
            self.call(slot);
        }
    }

    pub(crate) fn take_called(&mut self) -> Option<Arc<Bed>> {
        self.called.take()
    }

    // ---- flags

    pub(crate) fn set_flag_of(&mut self, slot: u64, flag: Option<CancelFlag>) {
        self.seat(slot).flag = flag;
    }

    /// Sets the flags of all jobs that run.
    pub(crate) fn set_flags(&self) {
        self.seats.iter().filter_map(|seat| seat.flag.as_ref()).for_each(CancelFlag::set);
    }

    // ---- threads

    pub(crate) fn sit(&mut self, slot: u64, thread: JoinHandle<()>) {
        self.seat(slot).thread = Some(thread);
    }

    /// The worker has left, and its thread is about to end. The threads that have ended are to be joined once the lock is free: so each is
    /// joined by one that leaves after it, or at the pool's end.
    pub(crate) fn rise(&mut self, slot: u64) -> Vec<JoinHandle<()>> {
        let (over, still): (Vec<_>, Vec<_>) = std::mem::take(&mut self.ended).into_iter().partition(JoinHandle::is_finished);
        self.ended = still;
        let seat = std::mem::take(self.seat(slot));
        self.ended.extend(seat.thread);
        over
    }

    /// All threads, which a pool that is at its end has for nothing more.
    pub(crate) fn take_threads(&mut self) -> Vec<JoinHandle<()>> {
        let ended = std::mem::take(&mut self.ended);
        ended.into_iter().chain(self.seats.iter_mut().filter_map(|seat| seat.thread.take())).collect()
    }
}
