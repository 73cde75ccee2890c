//! The machine: a pool's rules as one value.

mod answers;
mod asks;
mod errors;
mod turns;
mod views;

pub use answers::Answer;
pub(crate) use turns::{Entered, Turned};
pub use asks::{Ask, Kind, Outcome, Verdict};
pub use errors::Error;
pub use views::{Fate, Place, PoolView, RunState, TaskView};

use crate::raw::{self, RawAnswer, RawPoolView, RawTaskView};
use crate::texts::with_room;
use std::alloc::{self, Layout};
use std::ptr::NonNull;

/// What keeps a machine's record.
#[derive(Clone, Copy, Debug, PartialEq, Eq)]
pub enum Recorder {
    /// The whole record is kept.
    Full,
    /// Its length alone.
    Tally,
}

/// A pool's rules as one value: each step adds the one entry that the model gives, or is refused and changes nothing.
///
/// ```
/// use zellunkay::{Answer, Ask, Error, Fate, Kind, Machine, Recorder};
/// let mut machine = Machine::open("pool 1 1 unbounded keep 0 abort", Recorder::Full)?;
/// assert_eq!(machine.step(0, Ask::Submit(Kind::Plain, 0))?, Answer::Reserve(Some(0), 0));
/// assert_eq!(machine.step(0, Ask::Take(0)), Err(Error::NotThere));
/// for ask in [Ask::Open(0), Ask::Take(0), Ask::Begin(0), Ask::End(0, Ok(5))] {
///     machine.step(0, ask)?;
/// }
/// assert_eq!(machine.task(0)?.fate, Some(Fate::Run));
/// # Ok::<(), Error>(())
/// ```
#[derive(Debug)]
pub struct Machine {
    home: Home,
}

/// The memory in which a machine lies: the library's own, from its making to its drop.
#[derive(Debug)]
struct Home {
    at: NonNull<u8>,
    layout: Layout,
}

// SAFETY: a machine may go to another thread, since what it is made of is plain data and memory of its own, and no call is made on it but by
// its owner. It is not `Sync`.
unsafe impl Send for Home {}

/// No line of a record is longer, its line feed included, and its head has room in a page: so the library writes the text once. Room that is
/// not written to takes no memory.
const LONGEST_LINE: usize = 201;
const PAGE: usize = 4096;

/// As `malloc` aligns.
const ALIGN: usize = 16;

impl Home {
    fn new() -> Result<Home, Error> {
        // SAFETY: it only tells a number.
        let size = unsafe { raw::zk_core_size() };
        let layout = Layout::from_size_align(size, ALIGN).map_err(|_| Error::NoMemory)?;
        // SAFETY: a machine has fields, so the layout is not empty.
        let at = NonNull::new(unsafe { alloc::alloc(layout) }).ok_or(Error::NoMemory)?;
        // SAFETY: so many bytes lie there, aligned as they have to be.
        unsafe { raw::zk_core_init(at.as_ptr()) };
        Ok(Home { at, layout })
    }
}

impl Drop for Home {
    fn drop(&mut self) {
        // SAFETY: `new` made it, and nobody has it any more.
        unsafe {
            raw::zk_core_close(self.at.as_ptr());
            alloc::dealloc(self.at.as_ptr(), self.layout);
        }
    }
}

fn done(status: u32) -> Result<(), Error> {
    match status {
        0 => Ok(()),
        status => Err(Error::from_number(status)),
    }
}

impl Machine {
    /// Where it lies.
    fn at(&self) -> *mut u8 {
        self.home.at.as_ptr()
    }

    /// A pool of this pool line, such as `pool 2 4 bounded 8 keep 5 abort`.
    pub fn open(line: &str, recorder: Recorder) -> Result<Machine, Error> {
        let home = Home::new()?;
        // SAFETY: the pointers are those of the home, and of a `&str` with its length.
        done(unsafe { raw::zk_core_open(home.at.as_ptr(), line.as_ptr(), line.len(), recorder as u32) })?;
        Ok(Machine { home })
    }

    /// Makes one step, with the number of the pass that asks.
    pub fn step(&mut self, by: u32, ask: Ask) -> Result<Answer, Error> {
        let (what, first, second, value) = ask.numbers();
        let mut answer = RawAnswer::default();
        // SAFETY: the handle is that of a machine that is open, and `&mut self` gives each call alone.
        done(unsafe { raw::zk_core_step(self.at(), by, what, first, second, value, &mut answer) })?;
        Ok(Answer::of(answer))
    }

    /// What is seen of the pool now.
    pub fn view(&mut self) -> PoolView {
        let mut view = RawPoolView::default();
        // SAFETY: as in `step`.
        let status = unsafe { raw::zk_core_view(self.at(), &mut view) };
        debug_assert_eq!(status, 0);
        PoolView::of(view)
    }

    /// What is seen of a task now. [`Error::UnknownTask`].
    pub fn task(&mut self, task: u32) -> Result<TaskView, Error> {
        let mut view = RawTaskView::default();
        // SAFETY: as in `step`.
        done(unsafe { raw::zk_core_task(self.at(), task, &mut view) })?;
        Ok(TaskView::of(view))
    }

    /// The tasks that the last stop handed back, in the queue's order.
    pub fn handed(&mut self) -> Vec<u32> {
        let mut tasks = Vec::new();
        let mut task = 0;
        // SAFETY: as in `step`.
        while unsafe { raw::zk_core_handed(self.at(), tasks.len(), &mut task) } == 0 {
            tasks.push(task);
        }
        tasks
    }

    /// The text of the record. [`Error::WrongKind`] where none is kept.
    pub fn record(&mut self) -> Result<Vec<u8>, Error> {
        let most = PAGE + LONGEST_LINE * self.view().steps as usize;
        // SAFETY: as in `step`; the room is memory of so many bytes.
        let (text, status) = with_room(most, |room, size, needed| unsafe { raw::zk_core_record(self.at(), room, size, needed) });
        done(status)?;
        Ok(text)
    }

    /// Forgets a task that is gone and owes nothing, where no record is kept.
    pub fn release(&mut self, task: u32) -> Result<(), Error> {
        // SAFETY: as in `step`.
        done(unsafe { raw::zk_core_release(self.at(), task) })
    }
}
