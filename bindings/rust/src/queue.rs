//! Runs lists of operations on a work queue. Experimental: it is not proved, no device has run it yet, and it may
//! change in any version.
//!
//! A [`Queue`] is opened once, and shared. A [`List`] owns the bytes that its operations read and write; it plans,
//! submits and waits, makes absent pages present, and says in a sentence why it has failed. What the calls promise is
//! in `dsa_queue.h` (`man dsa_queue`).
//!
//! ```
//! use dsa_planner::queue::{Options, Queue};
//!
//! # fn main() -> Result<(), Box<dyn std::error::Error>> {
//! let options = Options { or_software: true, ..Options::default() }; // the processor, if there is no device
//! let queue = Queue::open(None, &options)?;
//! let mut list = queue.list().ok_or("all lists are in use")?;
//! let (a, b, c) = (list.own(vec![7; 4096]), list.own(vec![0; 4096]), list.own(vec![0; 4096]));
//! list.memory_move(a, b)?;
//! list.memory_move(b, c)?; // it waits for the first: nobody has to say so
//! list.check(c.part(0..64), a.part(0..64))?; // equal, or nothing that comes later is begun
//! list.run()?;
//! assert_eq!(list[c], [7; 4096]);
//! # Ok(())
//! # }
//! ```
//!
//! **Memory.** While a list is in flight, the device uses its bytes and Rust does not: [`List::get`] has none then.
//! A list that is dropped in flight is waited for; one that is forgotten leaks its bytes. If the queue does not
//! answer in time, the list is lost: the device may still write to its bytes, so they are leaked, too
//! ([`Error::Lost`]). Bytes elsewhere, as those of a mapping, are for [`List::add`], which is unsafe.
//!
//! **Threads.** A queue may be shared, and a list be sent to another thread.
//!
//! **Software.** With [`Options::software`] the processor does the lists, with the same results. In a test,
//! `dsa_trace -- PROGRAM` is a device.

mod list;
mod operations;
mod outcome;
mod parts;
#[allow(clippy::missing_safety_doc, missing_docs)]
mod raw;

use std::ffi::{CStr, CString};
use std::fmt;
use std::os::raw::c_char;
use std::os::unix::ffi::OsStrExt;
use std::path::Path;
use std::ptr::{self, NonNull};
use std::string::String;
use std::sync::Arc;

pub use list::List;
pub use outcome::{Error, Fault, ListId, Outcome};
pub use parts::{Buffer, Part};

/// How a queue is opened. The default is a device, and lists that are run one at a time in each thread.
#[derive(Clone, Copy, Debug, Default, PartialEq, Eq)]
pub struct Options {
    /// A page fault fails its operation, and no page is made present.
    pub keep_faults: bool,
    /// The device waits for absent pages itself, if the queue allows that.
    pub block_on_fault: bool,
    /// Without a device the processor does the lists, and [`Queue::missing`] says why. A queue that is named and
    /// can't be opened is an error if there is a device.
    pub or_software: bool,
    /// The processor does the lists, even if there is a device.
    pub software: bool,
    /// Lists may be started, and several be in flight; then all lists of the queue are ordered.
    pub in_flight: bool,
    /// How many lists there are at a time, at most 64; 0: 16.
    pub lists: u32,
    /// The most pieces of one list, at most 65,536; 0: 64. An operation that is longer than the queue's greatest
    /// transfer has several.
    pub pieces: u32,
    /// Milliseconds after which an entry counts as lost; 0: 10,000.
    pub wait_ms: u32,
    /// The price of a lone descriptor, of a batch and of a fence; all 0: 10, 14, 3, and else only that of a fence may
    /// be 0. `dsa_prices` measures them.
    pub prices: (u64, u64, u64),
}

impl Options {
    fn raw(&self) -> raw::Options {
        let flag = |is_set: bool, flag: u32| if is_set { flag } else { 0 };
        let (lone, batch, fence) = self.prices;
        raw::Options {
            flags: flag(self.keep_faults, raw::KEEP_FAULTS)
                | flag(self.block_on_fault, raw::BLOCK_ON_FAULT)
                | flag(self.or_software, raw::OR_SOFTWARE)
                | flag(self.software, raw::SOFTWARE)
                | flag(self.in_flight, raw::IN_FLIGHT),
            lists: self.lists,
            pieces: self.pieces,
            wait_ms: self.wait_ms,
            lone,
            batch,
            fence,
        }
    }
}

/// Why a queue could not be opened: a sentence that says what is missing and what to do.
#[derive(Clone, Debug, PartialEq, Eq)]
pub struct OpenError(pub String);

impl fmt::Display for OpenError {
    fn fmt(&self, f: &mut fmt::Formatter<'_>) -> fmt::Result {
        f.write_str(&self.0)
    }
}

impl std::error::Error for OpenError {}

/// A sentence that C writes.
struct Why([u8; raw::WHY_ROOM]);

impl Why {
    fn new() -> Why {
        Why([0; raw::WHY_ROOM])
    }

    fn room(&mut self) -> *mut c_char {
        self.0.as_mut_ptr().cast()
    }

    fn said(&self) -> String {
        let end = self.0.iter().position(|&byte| byte == 0);
        String::from_utf8_lossy(&self.0[..end.unwrap_or(0)]).into_owned()
    }
}

/// A queue that is open; it is closed with its last handle.
struct Opened {
    at: NonNull<raw::Queue>,
    missing: String,
}

// SAFETY: a queue may be shared by threads (dsa_queue.h, "Threads"), and closed by any.
unsafe impl Send for Opened {}
// SAFETY: as above.
unsafe impl Sync for Opened {}

impl Drop for Opened {
    fn drop(&mut self) {
        // SAFETY: this is the last handle, and each list has one: no other call of the queue runs.
        unsafe { raw::dsa_queue_close(self.at.as_ptr()) }
    }
}

/// A work queue that runs lists. A clone is another handle of the same queue, which is closed with the last handle and
/// the last list.
#[derive(Clone)]
pub struct Queue(Arc<Opened>);

impl Queue {
    /// Opens a queue by its file, as `/dev/dsa/wq0.0`, or without one the first queue that is enabled, is of type user,
    /// and can be opened.
    ///
    /// # Errors
    /// What is missing, and what to do.
    pub fn open(file: Option<&Path>, options: &Options) -> Result<Queue, OpenError> {
        let name = file.map(|path| CString::new(path.as_os_str().as_bytes()));
        let name = name
            .transpose()
            .map_err(|_| OpenError("the name of the queue's file has a zero byte in it".into()))?;
        let at = name.as_ref().map_or(ptr::null(), |name| name.as_ptr());
        let mut why = Why::new();
        // SAFETY: the name ends with a zero byte, or is null, and the sentence has its room.
        let opened = unsafe { raw::dsa_queue_open(at, &options.raw(), why.room()) };
        match NonNull::new(opened) {
            Some(at) => Ok(Queue(Arc::new(Opened {
                at,
                missing: why.said(),
            }))),
            None => Err(OpenError(why.said())),
        }
    }

    /// The name of the queue's file, or `software`.
    #[must_use]
    pub fn name(&self) -> String {
        // SAFETY: the queue is open, and has its name for as long.
        let name = unsafe { CStr::from_ptr(raw::dsa_queue_name(self.0.at.as_ptr())) };
        name.to_string_lossy().into_owned()
    }

    /// Why the processor does the lists in the place of a device ([`Options::or_software`]); empty otherwise.
    #[must_use]
    pub fn missing(&self) -> &str {
        &self.0.missing
    }

    /// An empty list; none if all are in use.
    #[must_use]
    pub fn list(&self) -> Option<List> {
        // SAFETY: the queue is open.
        let list = unsafe { raw::dsa_list_get(self.0.at.as_ptr()) };
        NonNull::new(list).map(|at| List::new(at, self.clone()))
    }

    /// Moves all lists in flight on, and names one that has ended, whoever started it, and that no call has answered.
    /// Its owner finds it by [`List::id`], and learns by [`List::test`] how it has ended.
    #[must_use]
    pub fn poll(&self) -> Option<ListId> {
        // SAFETY: the queue is open. Nothing is read of the list, which another thread may have.
        let list = unsafe { raw::dsa_queue_poll(self.0.at.as_ptr()) };
        NonNull::new(list).map(ListId::of)
    }
}

impl fmt::Debug for Queue {
    fn fmt(&self, f: &mut fmt::Formatter<'_>) -> fmt::Result {
        f.debug_tuple("Queue").field(&self.name()).finish()
    }
}
