//! Why a call was refused.

use std::error;
use std::fmt;

/// Why a call was refused. Its text tells what to do.
#[derive(Clone, Copy, Debug, PartialEq, Eq, Hash)]
#[non_exhaustive]
pub enum Error {
    /// 1: the maximum size is 0, above 1,024 or below the core size.
    BadSizes,
    /// 2: a bounded queue's capacity is 0 or above 65,536.
    BadCapacity,
    /// 3: the record limit is below 64 or above 1,048,576.
    BadLimit,
    /// 4: there was no memory.
    NoMemory,
    /// 5: the record has no room, or the last task number is given.
    BookFull,
    /// 6: no task has this number, or it is forgotten.
    UnknownTask,
    /// 7: no slot has this number now.
    UnknownSlot,
    /// 8: the step does not fit now.
    NotThere,
    /// 9: a plain task cannot be cancelled.
    NotFuture,
    /// 10: the moment is below now.
    ClockBack,
    /// 11: the keep-alive would be 0 while core workers time out.
    KeepZero,
    /// 23: the pool line is none, or a line of a scenario is bad.
    BadLine,
    /// 24: a line of a record is wrong.
    BadEntry,
    /// 25: the text is too long.
    ReadFailed,
    /// 32: the record has a flaw.
    Flaw,
    /// 34: a record was asked of a machine that keeps none, or the other way round.
    WrongKind,
    /// 35: the ask's numbers are those of none.
    WrongAsk,
    /// 37: more states are reached than may be kept.
    TooMany,
    /// Another status, of a library that is newer than this crate.
    Other(u32),
    /// The policy rejected the task.
    Rejected,
    /// No thread could be made for a worker, and the pool has none that would run the task.
    NoThread,
    /// A worker can't wait for the end of its own pool.
    OwnWorker,
}

/// The statuses of the library, with what is told of each.
const NUMBERED: [(u32, Error, &str); 18] = [
    (1, Error::BadSizes, "the maximum size has to be from 1 to 1,024, and no smaller than the core size"),
    (2, Error::BadCapacity, "a bounded queue has from 1 to 65,536 places"),
    (3, Error::BadLimit, "a record has from 64 to 1,048,576 entries"),
    (4, Error::NoMemory, "there is no memory; nothing has changed, so the call may be made again"),
    (5, Error::BookFull, "the record has no room; open the pool with a larger record, or with none"),
    (6, Error::UnknownTask, "no task has this number, or the pool has forgotten it"),
    (7, Error::UnknownSlot, "no slot has this number now"),
    (8, Error::NotThere, "the step does not fit now"),
    (9, Error::NotFuture, "a plain task can't be cancelled; submit it with a future"),
    (10, Error::ClockBack, "the moment is before now"),
    (11, Error::KeepZero, "core workers can time out only after a keep-alive above 0"),
    (23, Error::BadLine, "a line is none that is known, or the pool line is missing"),
    (24, Error::BadEntry, "a line of the record is wrong"),
    (25, Error::ReadFailed, "the text has more than 1,048,576 bytes"),
    (32, Error::Flaw, "the record has a flaw"),
    (34, Error::WrongKind, "the pool keeps no record; open it with one. Or it keeps one, and forgets no task"),
    (35, Error::WrongAsk, "these numbers are those of no ask"),
    (37, Error::TooMany, "more states are reached than may be kept"),
];

impl Error {
    pub(crate) fn from_number(status: u32) -> Error {
        NUMBERED.iter().find(|(number, ..)| *number == status).map_or(Error::Other(status), |(_, error, _)| *error)
    }

    fn numbered(self) -> Option<(u32, &'static str)> {
        NUMBERED.iter().find(|(_, named, _)| *named == self).map(|(number, _, text)| (*number, *text))
    }

    /// The status's number, 0 for those that are this crate's own.
    pub fn number(self) -> u32 {
        match self {
            Error::Other(status) => status,
            error => error.numbered().map_or(0, |(number, _)| number),
        }
    }
}

impl fmt::Display for Error {
    fn fmt(&self, f: &mut fmt::Formatter<'_>) -> fmt::Result {
        match self {
            Error::Rejected => f.write_str("the pool can't take the task, and its policy is to reject it"),
            Error::NoThread => f.write_str("no thread could be made for a worker, and the pool has none that would run the task"),
            Error::OwnWorker => f.write_str("a worker can't wait for the end of its own pool; end the pool in another thread"),
            Error::Other(status) => write!(f, "the library answered {status}, which this crate doesn't know; use the two of one version"),
            error => match error.numbered() {
                Some((number, text)) => write!(f, "{text} ({number})"),
                None => write!(f, "{error:?}"),
            },
        }
    }
}

impl error::Error for Error {}
