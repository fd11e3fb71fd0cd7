//! A list: its operations, how it is run, and how it has ended.

use std::convert::TryFrom;
use std::fmt;
use std::ops::{Index, IndexMut};
use std::os::raw::c_int;
use std::ptr::NonNull;
use std::string::String;
use std::vec::Vec;

use super::outcome::{Error, Fault, ListId, Outcome};
use super::parts::{Buffer, Buffers};
use super::{raw, Queue, Why};
use crate::Descriptor;

/// Operations on bytes that the list owns, and their results. Each method that adds returns the number of the
/// operation, from 0. Sources come before targets. A list that is in flight is waited for before it is changed.
///
/// Dropped, it waits until it has ended, and frees its bytes; it leaks them if it is lost.
pub struct List {
    at: NonNull<raw::List>,
    queue: Queue,
    pub(super) buffers: Buffers,
    is_in_flight: bool, // it was started, and no call has answered that it has ended
    has_predecessors: bool, // a start that was refused has left them
}

// SAFETY: a list belongs to one thread at a time (dsa_queue.h, "Threads"), which may be another one each time.
unsafe impl Send for List {}
// SAFETY: what a shared reference gives are reads of a list that is not in flight, which no other thread writes then.
unsafe impl Sync for List {}

impl List {
    pub(super) fn new(at: NonNull<raw::List>, queue: Queue) -> List {
        List {
            at,
            queue,
            buffers: Buffers::default(),
            is_in_flight: false,
            has_predecessors: false,
        }
    }

    /// Takes bytes, for operations to read and write; they stay where they are.
    pub fn own(&mut self, bytes: Vec<u8>) -> Buffer {
        self.buffers.add(bytes)
    }

    /// The bytes of a buffer; none while the list is in flight, or if it was lost or has given them back.
    #[must_use]
    pub fn get(&self, buffer: Buffer) -> Option<&[u8]> {
        self.buffers.get(buffer).filter(|_| !self.is_in_flight)
    }

    /// The bytes of a buffer, to write to; none as of [`List::get`].
    #[must_use]
    pub fn get_mut(&mut self, buffer: Buffer) -> Option<&mut [u8]> {
        let is_in_flight = self.is_in_flight;
        self.buffers.get_mut(buffer).filter(|_| !is_in_flight)
    }

    /// Takes all operations off, and keeps the bytes.
    pub fn clear(&mut self) {
        self.settle();
        // SAFETY: the list is this one's.
        unsafe { raw::dsa_list_clear(self.at.as_ptr()) }
        self.has_predecessors = false;
    }

    /// Takes all operations off, and gives the bytes back, in the order in which they came; none of a list that is
    /// lost.
    pub fn take_buffers(&mut self) -> Vec<Vec<u8>> {
        self.clear();
        self.buffers.take()
    }

    /// Adds an operation by its descriptor, on any memory. The queue fills in the completion record; the flag 0x0001
    /// ([`Descriptor::after_barrier`]) is a barrier before it. `size` is its transfer size.
    ///
    /// # Safety
    /// The device reads and writes what the descriptor names until the list has ended, each time it is run, and perhaps
    /// for ever if it is lost. Until then the memory stays mapped, and nothing else writes what is read, or reads or
    /// writes what is written.
    ///
    /// # Errors
    /// The list can't have it.
    pub unsafe fn add(&mut self, descriptor: &Descriptor, size: u64) -> Result<usize, Error> {
        self.settle();
        // SAFETY: the list is this one's, and the descriptor has 64 bytes.
        let number = unsafe { raw::dsa_list_add(self.at.as_ptr(), descriptor.0.as_ptr(), size) };
        if let Ok(number) = usize::try_from(number) {
            return Ok(number);
        }
        // SAFETY: as above. A list with such an operation is refused, and says why; nothing is begun.
        let end = unsafe { raw::dsa_list_run(self.at.as_ptr()) };
        self.ended(end).map(|()| 0)
    }

    /// What is added next begins only if all before it has succeeded.
    pub fn barrier(&mut self) {
        self.settle();
        // SAFETY: the list is this one's.
        unsafe { raw::dsa_list_barrier(self.at.as_ptr()) }
    }

    /// Plans the list, submits it, and waits until it has ended. A list may be run again; if nothing was added since,
    /// it is not planned again. One that is in flight is waited for first.
    ///
    /// # Errors
    /// How it has ended, if not by success.
    pub fn run(&mut self) -> Result<(), Error> {
        self.prepare()?;
        // SAFETY: the list is this one's, and what its operations name stays as `add` asks.
        let end = unsafe { raw::dsa_list_run(self.at.as_ptr()) };
        self.ended(end)
    }

    /// Starts the list, on a queue with [`Options::in_flight`](super::Options::in_flight); [`List::test`] and
    /// [`List::wait`] say how it has ended. One that is in flight is waited for first.
    ///
    /// # Errors
    /// [`Error::Refused`].
    pub fn start(&mut self) -> Result<(), Error> {
        self.start_after(&[])
    }

    /// Starts the list after others of its queue, as they were started last: it is left out unless they succeed.
    ///
    /// # Errors
    /// [`Error::Refused`].
    pub fn start_after(&mut self, others: &[&List]) -> Result<(), Error> {
        if others
            .iter()
            .any(|other| other.queue.0.at != self.queue.0.at)
        {
            return Err(Error::Refused(
                "a list can come after lists of its own queue alone".into(),
            ));
        }
        self.prepare()?;
        for other in others {
            // SAFETY: both are lists of one queue. Nobody changes the other while it is borrowed.
            unsafe { raw::dsa_list_after(self.at.as_ptr(), other.at.as_ptr()) }
        }
        // SAFETY: the list is this one's, and what its operations name stays as `add` asks.
        self.is_in_flight = unsafe { raw::dsa_list_start(self.at.as_ptr()) } == raw::RUNNING;
        self.has_predecessors = !self.is_in_flight && !others.is_empty();
        if self.is_in_flight {
            Ok(())
        } else {
            Err(Error::Refused(self.why()))
        }
    }

    /// Moves all lists on, and answers whether this one has ended.
    ///
    /// # Errors
    /// How it has ended, if not by success.
    pub fn test(&mut self) -> Result<bool, Error> {
        // SAFETY: the list is this one's.
        let end = unsafe { raw::dsa_list_test(self.at.as_ptr()) };
        if end == raw::RUNNING {
            return Ok(false);
        }
        self.ended(end).map(|()| true)
    }

    /// Waits until the list has ended.
    ///
    /// # Errors
    /// How it has ended, if not by success.
    pub fn wait(&mut self) -> Result<(), Error> {
        // SAFETY: the list is this one's.
        let end = unsafe { raw::dsa_list_wait(self.at.as_ptr()) };
        self.ended(end)
    }

    /// Which list of its queue it is.
    #[must_use]
    pub fn id(&self) -> ListId {
        ListId::of(self.at)
    }

    /// The result of an operation, by its number; of a list that has not ended, or has no such operation, status 0.
    #[must_use]
    pub fn outcome(&self, operation: usize) -> Outcome {
        let number = match c_int::try_from(operation) {
            Ok(number) if !self.is_in_flight => number,
            _ => return Outcome::default(),
        };
        // SAFETY: the list is this one's, and not in flight.
        let said = unsafe { raw::dsa_list_result(self.at.as_ptr(), number) };
        let fault = Fault {
            address: said.fault,
            is_write: said.is_write != 0,
        };
        Outcome {
            status: said.status,
            difference: (said.result == 1).then_some(said.offset),
            checksum: (said.has_checksum != 0).then_some(said.checksum),
            fault: matches!(said.status, 3 | 4).then_some(fault),
        }
    }

    /// Waits for the list if it is in flight, and refuses one that a start has left with lists that it comes after:
    /// those are not borrowed any more.
    fn prepare(&mut self) -> Result<(), Error> {
        self.settle();
        if self.has_predecessors {
            return Err(Error::Refused(
                "its last start was refused; clear the list, and add its operations again".into(),
            ));
        }
        Ok(())
    }

    /// Waits for the list if it is in flight: C would forget that it was lost.
    pub(super) fn settle(&mut self) {
        if self.is_in_flight {
            let _ = self.wait(); // how it has ended is nobody's concern any more, but for its bytes
        }
    }

    /// The answer of a list that has ended. If it is lost, its bytes stay, and its operations go.
    fn ended(&mut self, end: c_int) -> Result<(), Error> {
        self.is_in_flight = false;
        match end {
            raw::DONE => Ok(()),
            raw::FAILED => {
                // SAFETY: the list is this one's, and not in flight.
                let failed = unsafe { raw::dsa_list_failed(self.at.as_ptr()) };
                Err(Error::Failed {
                    operation: usize::try_from(failed).ok(),
                    why: self.why(),
                })
            }
            raw::LOST => {
                let why = self.why();
                self.buffers.leak();
                self.clear();
                Err(Error::Lost(why))
            }
            raw::LEFT_OUT => Err(Error::LeftOut(self.why())),
            _ => Err(Error::Refused(self.why())),
        }
    }

    fn why(&self) -> String {
        let mut why = Why::new();
        // SAFETY: the list is this one's, and not in flight; the sentence has its room.
        unsafe { raw::dsa_list_why(self.at.as_ptr(), why.room()) };
        why.said()
    }
}

impl Index<Buffer> for List {
    type Output = [u8];

    /// The bytes of a buffer.
    ///
    /// # Panics
    /// If [`List::get`] has none.
    fn index(&self, buffer: Buffer) -> &[u8] {
        self.get(buffer)
            .expect("the list is in flight, or was lost, or has given the buffer back")
    }
}

impl IndexMut<Buffer> for List {
    fn index_mut(&mut self, buffer: Buffer) -> &mut [u8] {
        self.get_mut(buffer)
            .expect("the list is in flight, or was lost, or has given the buffer back")
    }
}

impl fmt::Debug for List {
    fn fmt(&self, f: &mut fmt::Formatter<'_>) -> fmt::Result {
        let is_in_flight = &self.is_in_flight;
        f.debug_struct("List")
            .field("queue", &self.queue)
            .field("is_in_flight", is_in_flight)
            .finish_non_exhaustive()
    }
}

impl Drop for List {
    fn drop(&mut self) {
        self.settle();
        drop(self.buffers.take());
        // SAFETY: the list is this one's, and is not used any more.
        unsafe { raw::dsa_list_drop(self.at.as_ptr()) }
    }
}
