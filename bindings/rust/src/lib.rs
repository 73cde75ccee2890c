//! A thread pool whose every decision is made by a proved machine.
//!
//! [`Machine`] is the machine itself: each call is one step of the model, or a refusal that changes nothing. [`ThreadPool`] runs
//! closures over it: its lock, its threads and its wakes are Rust's, and what becomes of a task is the machine's answer. [`audit`] judges a
//! record, [`steps`] plays a scenario, [`explore`] tells all ends of some callers' interleavings, and [`now`] the pool after an entry.
//!
//! What is proved, and what this crate keeps so that it holds, stands in `docs/bindings/RUST.md`.

#![warn(missing_docs)]

mod machine;
mod pool;
mod raw;
mod texts;

pub use machine::{Answer, Ask, Error, Fate, Kind, Machine, Outcome, Place, PoolView, Recorder, RunState, TaskView, Verdict};
pub use pool::{Builder, CancelFlag, Closed, Done, Failure, Future, Group, HandedBack, Refused, Scope, ThreadPool};
pub use texts::{audit, explore, now, steps, Told};
