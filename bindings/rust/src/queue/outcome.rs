//! How a list has ended, and the results of its operations.

use std::fmt;
use std::ptr::NonNull;
use std::string::String;

use super::raw;

/// How a list has ended otherwise than by success. Each has a sentence that says what happened and what to do.
#[derive(Clone, Debug, PartialEq, Eq)]
#[non_exhaustive]
pub enum Error {
    /// An operation has failed, and nothing after the next barrier was begun.
    Failed {
        /// The number of the operation, the first one if there are several; none if the queue itself has failed.
        operation: Option<usize>,
        /// What happened.
        why: String,
    },
    /// Nothing was begun.
    Refused(String),
    /// Nothing was begun: a list that it comes after has not succeeded, or is lost.
    LeftOut(String),
    /// The queue has not answered in time. The device may still read and write the bytes of the list: they are leaked,
    /// and the list is empty. It is refused until the device has answered; other lists can be used.
    Lost(String),
}

impl fmt::Display for Error {
    fn fmt(&self, f: &mut fmt::Formatter<'_>) -> fmt::Result {
        match self {
            Error::Failed { why, .. }
            | Error::Refused(why)
            | Error::LeftOut(why)
            | Error::Lost(why) => f.write_str(why),
        }
    }
}

impl std::error::Error for Error {}

/// The result of an operation.
#[derive(Clone, Copy, Debug, Default, PartialEq, Eq, Hash)]
pub struct Outcome {
    /// As in `linux/idxd.h`, without bit 7: 1 for success; 0: not begun, or not known.
    pub status: u8,
    /// Of a compare that finds a difference: the offset of the first one.
    pub difference: Option<u64>,
    /// Of a checksum that has succeeded: the checksum.
    pub checksum: Option<u32>,
    /// Of a page fault (status 3 or 4).
    pub fault: Option<Fault>,
}

/// Where an operation has met a page fault.
#[derive(Clone, Copy, Debug, PartialEq, Eq, Hash)]
pub struct Fault {
    /// The address.
    pub address: u64,
    /// Whether it was a write.
    pub is_write: bool,
}

/// Which list of a queue it is: [`Queue::poll`](super::Queue::poll) names lists so.
#[derive(Clone, Copy, Debug, PartialEq, Eq, Hash)]
pub struct ListId(usize);

impl ListId {
    pub(super) fn of(list: NonNull<raw::List>) -> ListId {
        ListId(list.as_ptr() as usize)
    }
}
