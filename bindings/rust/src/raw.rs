//! The library's functions, as `bindings/include/zellunkay.h` declares them.

#[repr(C)]
#[derive(Clone, Copy, Debug, Default, PartialEq, Eq)]
pub(crate) struct RawAnswer {
    pub what: u32,
    pub left: u32,
    pub task: u32,
    pub number: u32,
    pub slot: u64,
}

#[repr(C)]
#[derive(Clone, Copy, Debug, Default, PartialEq, Eq)]
pub(crate) struct RawTaskView {
    pub place: u32,
    pub fate: u32,
    pub slot: u64,
}

#[repr(C)]
#[derive(Clone, Copy, Debug, Default, PartialEq, Eq)]
pub(crate) struct RawPoolView {
    pub state: u32,
    pub submitted: u32,
    pub run: u32,
    pub caller: u32,
    pub rejected: u32,
    pub discarded: u32,
    pub handedback: u32,
    pub removed: u32,
    pub cancelled: u32,
    pub completed: u32,
    pub queued: u32,
    pub live: u32,
    pub largest: u32,
    pub core: u32,
    pub slots: u64,
    pub now: u64,
    pub steps: u64,
}

/// No task has this number.
pub(crate) const NO_TASK: u32 = u32::MAX;

extern "C" {
    pub(crate) fn zk_core_audit(text: *const u8, length: usize, room: *mut u8, size: usize, needed: *mut usize) -> u32;
    pub(crate) fn zk_core_steps(text: *const u8, length: usize, room: *mut u8, size: usize, needed: *mut usize) -> u32;
    pub(crate) fn zk_core_explore(text: *const u8, length: usize, most: usize, room: *mut u8, size: usize, needed: *mut usize) -> u32;
    pub(crate) fn zk_core_now(text: *const u8, length: usize, entry: u64, room: *mut u8, size: usize, needed: *mut usize) -> u32;
    pub(crate) fn zk_core_size() -> usize;
    pub(crate) fn zk_core_init(home: *mut u8);
    pub(crate) fn zk_core_open(home: *mut u8, line: *const u8, length: usize, recorder: u32) -> u32;
    pub(crate) fn zk_core_step(home: *mut u8, by: u32, ask: u32, first: u64, second: u64, value: i64, answer: *mut RawAnswer) -> u32;
    pub(crate) fn zk_core_view(home: *mut u8, view: *mut RawPoolView) -> u32;
    pub(crate) fn zk_core_task(home: *mut u8, task: u32, view: *mut RawTaskView) -> u32;
    pub(crate) fn zk_core_handed(home: *mut u8, index: usize, task: *mut u32) -> u32;
    pub(crate) fn zk_core_record(home: *mut u8, room: *mut u8, size: usize, needed: *mut usize) -> u32;
    pub(crate) fn zk_core_release(home: *mut u8, task: u32) -> u32;
    pub(crate) fn zk_core_close(home: *mut u8) -> u32;
}
