//! What a worker does, as `runWorker`, `getTask` and `processWorkerExit`.

use crate::machine::{Answer, Ask, Error, Kind};
use crate::pool::inner::{Core, Hold, Inner, OUTSIDE};
use crate::pool::jobs::{HeldJob, Ran};
use crate::pool::seats::Bed;
use crate::pool::submitting::outcome;
use crate::pool::table::Held;
use std::sync::{mpsc, Arc};
use std::thread::{self, JoinHandle};
use std::time::{Duration, Instant};

/// A task whose body has ended.
struct Over {
    task: u32,
    kind: Kind,
    is_fault: bool,
}

/// What a worker does next.
enum Turn {
    Run(u32, Held),
    Sleep,
    /// It leaves, with a slot that is reserved for an heir of it.
    Leave(Option<u64>),
}

impl Core {
    /// Whether a worker that is idle for the keep-alive may leave then.
    fn may_time_out(&mut self) -> bool {
        if self.keep.is_zero() {
            return false;
        }
        let view = self.machine.view();
        self.core_timeout || view.slots > u64::from(view.core)
    }

    /// The next number of a worker's pass.
    fn next_pass(&mut self) -> u32 {
        self.passes = self.passes.checked_add(1).unwrap_or(OUTSIDE + 1);
        self.passes
    }
}

impl Inner {
    /// Has a thread made for the reserved slot, and tells the machine.
    pub(crate) fn staff(self: &Arc<Inner>, by: u32, slot: u64) -> Result<Answer, Error> {
        let (open, opened) = mpsc::channel();
        let pool = self.clone();
        let mut thread = thread::Builder::new().name(format!("{}-{slot}", self.name));
        if let Some(bytes) = self.stack {
            thread = thread.stack_size(bytes);
        }
        let made = thread.spawn(move || {
            if opened.recv() == Ok(true) {
                pool.employ();
                pool.work(slot);
            }
        });
        let mut core = self.lock();
        let answer = match made {
            Ok(thread) => {
                core.seats.sit(slot, thread);
                core.step(by, Ask::Open(slot))
            }
            Err(_) => core.step(by, Ask::Fail(slot)),
        };
        let is_live = matches!(answer, Ok(Answer::Live(_)));
        let over = if is_live { Vec::new() } else { core.seats.rise(slot) };
        self.settle(&mut core);
        drop(core);
        join(over);
        let _ = open.send(is_live);
        answer
    }

    /// What a worker's thread does from its first `take` to its end.
    fn work(self: &Arc<Inner>, slot: u64) {
        let bed = Bed::new();
        let mut core = self.lock();
        let by = core.next_pass();
        core.seats.settle_in(slot, bed.clone());
        let (mut over, mut untold): (Option<Over>, Option<HeldJob>) = (None, None);
        loop {
            match self.turn(&mut core, by, slot, over.take()) {
                Turn::Run(task, Held { job, kind }) => {
                    drop(core);
                    tell(untold.take());
                    let Ran { is_fault, rest } = job.run();
                    (over, untold) = (Some(Over { task, kind, is_fault }), rest);
                    core = self.lock();
                }
                Turn::Sleep => {
                    let deadline = self.lie_down(&mut core, slot);
                    drop(core);
                    tell(untold.take());
                    core = self.sleep(&bed, by, slot, deadline);
                }
                Turn::Leave(heir) => {
                    let over = core.seats.rise(slot);
                    self.settle(&mut core);
                    drop(core);
                    tell(untold);
                    join(over);
                    return self.inherit(by, heir);
                }
            }
        }
    }

    /// Tells the machine how the last body ended, and asks it what to do: in one hold, behind which no task is left lying.
    fn turn(&self, core: &mut Core, by: u32, slot: u64, over: Option<Over>) -> Turn {
        let turn = match over {
            Some(Over { task, kind: Kind::Plain, is_fault: true }) => self.die(core, by, slot, task),
            over => self.next(core, by, slot, over),
        };
        if core.queued > 0 {
            core.seats.call_one();
        }
        turn
    }

    /// The worker of a plain task that panicked leaves.
    fn die(&self, core: &mut Core, by: u32, slot: u64, task: u32) -> Turn {
        let ended = core.step(by, Ask::End(slot, outcome(true)));
        debug_assert!(ended.is_ok(), "a body that began ends");
        core.forget(task);
        match core.step(by, Ask::Leave(slot)) {
            Ok(Answer::Reserve(_, heir)) => Turn::Leave(Some(heir)),
            _ => Turn::Leave(None),
        }
    }

    /// The worker ends its task, takes its next one and begins it.
    fn next(&self, core: &mut Core, by: u32, slot: u64, mut over: Option<Over>) -> Turn {
        loop {
            if core.queued == 0 && core.may_time_out() {
                self.tick(core, by);
            }
            let (turned, status) = core.turn(by, slot, over.as_ref().map(|over| outcome(over.is_fault)));
            if let Some(Over { kind: kind @ (Kind::Future | Kind::Group(_)), .. }) = over.take() {
                core.seats.set_flag_of(slot, None);
                self.done(core, kind);
            }
            return match (turned.took, turned.begun) {
                (_, Some(Answer::Run(task))) => self.begin(core, slot, task),
                (_, Some(Answer::Skip(task))) => {
                    core.forget(task);
                    continue;
                }
                (Some(Answer::Idle), _) => Turn::Sleep,
                // It was idle, and would be idle again.
                (None, _) if status == Err(Error::NotThere) => Turn::Sleep,
                _ => Turn::Leave(None),
            };
        }
    }

    fn begin(&self, core: &mut Core, slot: u64, task: u32) -> Turn {
        let held = core.jobs.remove(task).expect("the pool holds the job of a task that begins");
        if held.kind != Kind::Plain {
            core.seats.set_flag_of(slot, held.job.flag());
        }
        Turn::Run(task, held)
    }

    /// Lies down to sleep. The answer is when it may leave.
    fn lie_down(&self, core: &mut Core, slot: u64) -> Option<Instant> {
        core.seats.lie_down(slot);
        let keep = core.keep.saturating_add(Duration::from_millis(1));
        if core.may_time_out() { Instant::now().checked_add(keep) } else { None }
    }

    /// Sleeps until it is called, or until it may leave.
    fn sleep(&self, bed: &Bed, by: u32, slot: u64, deadline: Option<Instant>) -> Hold<'_> {
        loop {
            bed.sleep(deadline);
            let mut core = self.lock();
            let is_late = deadline.is_some_and(|deadline| deadline <= Instant::now());
            // A call that was left over of a sleep before this one wakes it, too: it sleeps on.
            if is_late || !core.seats.is_asleep(slot) {
                core.seats.get_up(slot);
                if is_late {
                    self.tick(&mut core, by);
                }
                return core;
            }
        }
    }

    /// Tells the machine the time, where it is another one.
    fn tick(&self, core: &mut Core, by: u32) {
        let now = self.opened.elapsed().as_millis() as u64;
        if now > core.ticked && core.step(by, Ask::Tick(now)).is_ok() {
            core.ticked = now;
        }
    }

    /// What is left to do behind a worker that has left: its heir is made, and who is left to nobody is served.
    fn inherit(self: &Arc<Inner>, by: u32, heir: Option<u64>) {
        if let Some(heir) = heir {
            // Where no thread is made, the machine has heard of it.
            let _ = self.staff(by, heir);
        }
        self.rescue();
    }

    /// Where tasks are queued in a pool that is shut down and has no slot, a worker is made for them. Who waits for the pool's end is
    /// told where that can't be done.
    pub(crate) fn rescue(self: &Arc<Inner>) {
        loop {
            let mut core = self.lock();
            if !core.is_stranded() {
                return;
            }
            let Ok(Answer::Reserve(_, slot)) = core.step(OUTSIDE, Ask::Prestart) else {
                return self.ends.notify_all();
            };
            drop(core);
            if !matches!(self.staff(OUTSIDE, slot), Ok(Answer::Live(_))) {
                return self.ends.notify_all();
            }
        }
    }
}

fn tell(untold: Option<HeldJob>) {
    if let Some(job) = untold {
        job.tell();
    }
}

/// Joins threads that are over. None of them panics, since no panic leaves a job.
pub(crate) fn join(threads: Vec<JoinHandle<()>>) {
    for thread in threads {
        let _ = thread.join();
    }
}
