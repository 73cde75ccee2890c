//! Bytes in, bytes out.

use crate::machine::Error;
use crate::raw;

/// What came of a text.
#[derive(Clone, Debug, PartialEq, Eq)]
pub struct Told {
    /// What `poolrun` writes of it, the line of a refusal too.
    pub output: Vec<u8>,
    /// Whether it was played to its end, or is a legal record; or why not.
    pub ending: Result<(), Error>,
}

const NO_MEMORY: u32 = 4;
const TOO_SMALL: u32 = 33;

/// Calls with so much room, and again with what it needs where that is too small. An answer's bytes, and the status.
pub(crate) fn with_room(guess: usize, mut call: impl FnMut(*mut u8, usize, &mut usize) -> u32) -> (Vec<u8>, u32) {
    let mut room: Vec<u8> = Vec::new();
    let mut wanted = guess;
    loop {
        match room.try_reserve_exact(wanted) {
            Ok(()) => {}
            Err(_) if wanted > USUAL && room.capacity() == 0 => {
                wanted = USUAL;
                continue;
            }
            Err(_) => return (Vec::new(), NO_MEMORY),
        }
        let mut needed = 0;
        let status = call(room.as_mut_ptr(), room.capacity(), &mut needed);
        if status != TOO_SMALL {
            // SAFETY: the library has written so many bytes at the room's head, since they have room there.
            unsafe { room.set_len(needed.min(room.capacity())) };
            room.shrink_to_fit();
            return (room, status);
        }
        wanted = needed;
    }
}

/// The room that most answers need.
const USUAL: usize = 4096;

fn told((output, status): (Vec<u8>, u32)) -> Told {
    let ending = if status == 0 { Ok(()) } else { Err(Error::from_number(status)) };
    Told { output, ending }
}

/// Judges the text of a record, as `poolrun audit` does.
pub fn audit(text: &[u8]) -> Told {
    // SAFETY: the text is a slice with its length, the room is memory of so many bytes, and `needed` is a reference: all are there for the call.
    told(with_room(USUAL, |room, size, needed| unsafe {
        raw::zk_core_audit(text.as_ptr(), text.len(), room, size, needed)
    }))
}

/// Plays a scenario, as `poolrun steps` does.
pub fn steps(text: &[u8]) -> Told {
    // A line of a scenario makes a longer one of a record, and one of its end.
    // SAFETY: as above.
    told(with_room(USUAL + 8 * text.len(), |room, size, needed| unsafe {
        raw::zk_core_steps(text.as_ptr(), text.len(), room, size, needed)
    }))
}

/// To what all interleavings of the callers lead that a text says: a line of numbers, and a line for each distinct end.
/// [`Error::TooMany`] where more than `most` states are reached.
pub fn explore(text: &[u8], most: usize) -> Told {
    // SAFETY: as above.
    told(with_room(USUAL, |room, size, needed| unsafe {
        raw::zk_core_explore(text.as_ptr(), text.len(), most, room, size, needed)
    }))
}

/// What the pool was like after the entry of this number of its record, 0 for the new pool, or after the last. [`Error::NotThere`] where the
/// record has no such entry, [`Error::Flaw`] where it has a flaw up to there.
pub fn now(text: &[u8], entry: Option<u64>) -> Told {
    // SAFETY: as above.
    told(with_room(USUAL, |room, size, needed| unsafe {
        raw::zk_core_now(text.as_ptr(), text.len(), entry.unwrap_or(u64::MAX), room, size, needed)
    }))
}
