//! Plans lists of descriptors of Intel's Data Streaming Accelerator: slices in, vectors or errors out.
//!
//! A list of operations goes in, 64 bytes for each; out come the bytes that submit it, as batches and lone descriptors
//! with fences, at least cost. The flag 0x0001 of an operation ([`Descriptor::after_barrier`]) is a barrier before it,
//! which each plan keeps. This is a safe wrapper of the proved library of the package dsa-planner, which has to be
//! installed: `build.rs` finds it by `DSA_PLANNER_PREFIX` or by pkg-config, and says what to do if it doesn't. What
//! the calls promise is proved of the library; this wrapper is tested.
//!
//! ```
//! use dsa_planner::{plan_list, BatchPrice, Settings};
//!
//! # fn main() -> Result<(), dsa_planner::Refusal> {
//! let mut list = [0u8; 64]; // a move of 64 bytes from 0x1000 to 0x2000, with its completion record at 0x8000
//! (list[4], list[7], list[9], list[17], list[25], list[32]) = (0x0c, 0x03, 0x80, 0x10, 0x20, 64);
//! let (lone, batch, fence) = (10, BatchPrice::Flat(14), 3);
//! let settings = Settings { greatest_batch: 4, greatest_transfer: 4096, lone, batch, fence, staging: 0x10000 };
//! assert_eq!(plan_list(&settings, &list)?.cost, 10);
//! # Ok(())
//! # }
//! ```
//!
//! **Threads.** No call keeps state, takes a lock or starts a thread; calls may run at the same time. All types are
//! plain data: they are `Send` and `Sync`. [`check`], [`check_list`] and [`judge`] need 256 KiB of stack, the other
//! calls 64 KiB; a thread that `std` starts has 2 MiB.
//!
//! **Memory.** The library takes its memory from the program's global allocator and has given it back when a call returns.
//! If the allocator fails within the library, the answer is [`Cause::Memory`].
//!
//! **Features.** `std`, which is on unless turned off: [`Refusal`] implements `std::error::Error`. Without it the crate
//! needs `core` and `alloc` alone. `queue`, which is off unless turned on: the module `queue` runs lists on a work
//! queue; it is experimental.

#![no_std]
#![deny(missing_docs, unsafe_op_in_unsafe_fn)]

extern crate alloc;
#[cfg(feature = "std")]
extern crate std;

mod cause;
mod descriptor;
mod memory;
mod prepared;
#[cfg(feature = "queue")]
pub mod queue;
mod raw;
mod reasons;
mod tracker;
mod warnings;

use alloc::vec;
use alloc::vec::Vec;
use core::fmt;

pub use cause::Cause;
pub use descriptor::{groups_of, list_of, Descriptor, Group, BLOCK_ON_FAULT};
pub use prepared::{prepare, Prepared, Region, Row};
pub use reasons::{explain_list, Conflict, Hazard, Reason};
pub use tracker::{Retired, Slots, Span, Submitted, Tracker};
pub use warnings::{warn_list, Concern, Warning};

/// The most pieces of a planned list. An operation longer than `greatest_transfer` is several pieces.
pub const MOST_PIECES: usize = 65_536;

/// The mark of a piece that begins a group.
pub const BEGINS: u8 = 1;

/// The mark of a piece that is fenced; it is added to [`BEGINS`].
pub const FENCED: u8 = 2;

/// What a batch costs, without its fences.
///
/// ```
/// # use dsa_planner::BatchPrice;
/// let flat = BatchPrice::Flat(14); // each batch costs 14
/// let by_size = BatchPrice::BySize(&[14, 16, 30]); // of two, three and four pieces, if `greatest_batch` is 4
/// # assert_ne!(flat, by_size);
/// ```
#[derive(Clone, Copy, Debug, PartialEq, Eq)]
pub enum BatchPrice<'a> {
    /// One price for all sizes, at most 1,000,000,000.
    Flat(u64),
    /// The price of a batch of 2, 3, .. `greatest_batch` pieces, each at most 1,000,000,000.
    BySize(&'a [u64]),
}

/// The limits of the device, and what submissions cost, in a unit of the caller's choice.
#[derive(Clone, Copy, Debug, PartialEq, Eq)]
pub struct Settings<'a> {
    /// The most pieces of a batch, 2 to 1,024.
    pub greatest_batch: u64,
    /// The most bytes of a piece, 8 to 2^31, a multiple of 8.
    pub greatest_transfer: u64,
    /// The price of a descriptor by itself, at most 1,000,000,000.
    pub lone: u64,
    /// The price of a batch, without its fences.
    pub batch: BatchPrice<'a>,
    /// The price of each fence, at most 1,000,000,000.
    pub fence: u64,
    /// The address of the staging area, a multiple of 64, at most 2^63.
    pub staging: u64,
}

impl<'a> Settings<'a> {
    // The settings as C lays them out, and the table of prices by size.
    fn raw(&self) -> (raw::Settings, &'a [u64]) {
        let (version, batch, table) = match self.batch {
            BatchPrice::Flat(price) => (1, price, &[][..]),
            BatchPrice::BySize(table) => (2, 0, table),
        };
        let settings = raw::Settings {
            version,
            greatest_batch: self.greatest_batch,
            greatest_transfer: self.greatest_transfer,
            lone: self.lone,
            batch,
            fence: self.fence,
            staging: self.staging,
        };
        (settings, table)
    }
}

/// Why a call refuses, and the places that the cause names.
///
/// ```
/// use dsa_planner::{judge, BatchPrice, Cause, Settings};
///
/// let (lone, batch, fence) = (10, BatchPrice::Flat(14), 3);
/// let settings = Settings { greatest_batch: 4, greatest_transfer: 4096, lone, batch, fence, staging: 0x10000 };
/// let refusal = judge(&settings, &[0; 65], &[]).unwrap_err();
/// assert_eq!(refusal.cause, Cause::Length);
/// assert_eq!(refusal.to_string(), "refused 1 Length: the list's length is no multiple of 64");
/// ```
#[derive(Clone, Copy, Debug, PartialEq, Eq, Hash)]
pub struct Refusal {
    /// The cause.
    pub cause: Cause,
    /// The cause within: of [`Cause::Plan`] that of the plan's fault, of [`Cause::Entry`] that of the piece's.
    pub inner: Option<Cause>,
    /// The first index that the cause names, else 0; of [`Cause::Settings`] the number of a setting that is outside its limits
    /// (2 to 7 are the members of [`Settings`] in their order, 8 is a table of prices by size), of [`Cause::NoRoom`] the bytes that `portal` needs, of
    /// [`Cause::NoRoomForCertificate`] the number of pieces, of [`Cause::NoRoomForRows`] that of rows.
    pub first: u64,
    /// The second, else 0; of [`Cause::NoRoom`] the bytes that `staging` needs.
    pub second: u64,
}

impl Refusal {
    // The refusal that the library wrote.
    fn of(raw: &raw::Refusal) -> Refusal {
        Refusal {
            cause: Cause::of(raw.number),
            inner: (raw.inner != 0).then(|| Cause::of(raw.inner)),
            first: raw.first,
            second: raw.second,
        }
    }

    // Writes what a cause means, with the numbers that the refusal names.
    fn write_sentence(&self, f: &mut fmt::Formatter<'_>, cause: Cause) -> fmt::Result {
        let (number, first, second) = (cause.number(), self.first, self.second);
        let raw = raw::Refusal {
            number,
            inner: 0,
            first,
            second,
        };
        let mut text = [0; 512];
        // SAFETY: both are the caller's own, and the length is the buffer's.
        let length = unsafe { raw::dsa_refusal_text(&raw, text.as_mut_ptr(), text.len()) };
        match core::str::from_utf8(&text[..length as usize]) {
            Ok(said) if !said.is_empty() => f.write_str(said),
            Ok(_) | Err(_) => f.write_str("a cause of a later version of the library"),
        }
    }
}

impl fmt::Display for Refusal {
    fn fmt(&self, f: &mut fmt::Formatter<'_>) -> fmt::Result {
        write!(f, "refused {}: ", self.cause)?;
        self.write_sentence(f, self.cause)?;
        if let Some(inner) = self.inner {
            write!(f, ": {inner}: ")?;
            self.write_sentence(f, inner)?;
        }
        Ok(())
    }
}

#[cfg(feature = "std")]
impl std::error::Error for Refusal {}

/// What was written of a planned list, and what it costs.
#[repr(C)]
#[derive(Clone, Copy, Debug, Default, PartialEq, Eq)]
pub struct Summary {
    /// What the plan costs. No legal plan of these pieces costs less.
    pub cost: u64,
    /// The number of pieces.
    pub pieces: u64,
    /// The bytes that were written for the portal, 64 for each group.
    pub portal_len: u64,
    /// The bytes that were written for the staging area.
    pub staging_len: u64,
}

/// What shows that no legal plan costs less than a plan does.
#[derive(Clone, Debug, PartialEq, Eq)]
pub struct Certificate {
    /// The version of the settings that it was written for.
    pub version: u64,
    /// The least cost of the first 0, 1, .. pieces.
    pub prices: Vec<u64>,
    /// For each piece the pair of conflicting pieces that its chain goes on with, if any. [`check`] reads a pair of two
    /// times `u32::MAX` as none.
    pub pairs: Vec<Option<(u32, u32)>>,
}

/// A planned list.
#[derive(Clone, Debug, PartialEq, Eq)]
pub struct Planned {
    /// What the plan costs. No legal plan of these pieces costs less.
    pub cost: u64,
    /// The bytes for the work queue's portal, 64 for each group.
    pub portal: Vec<u8>,
    /// The bytes for the staging area.
    pub staging: Vec<u8>,
    /// The mark of each piece: [`BEGINS`], [`FENCED`] or their sum.
    pub marks: Vec<u8>,
    /// The certificate of the plan.
    pub certificate: Certificate,
}

impl Planned {
    /// The groups of the plan, in their order.
    #[must_use]
    pub fn groups(&self) -> Vec<Group> {
        groups_of(&self.marks)
    }
}

const NONE: raw::Pair = raw::Pair {
    first: u32::MAX,
    second: u32::MAX,
};

/// The version of the library: major, minor and patch.
///
/// ```
/// assert_eq!(dsa_planner::library_version().0, 1);
/// ```
#[must_use]
pub fn library_version() -> (u32, u32, u32) {
    // SAFETY: the function has no arguments and only returns a number.
    let number = unsafe { raw::dsa_planner_version() };
    (number / 10_000, number / 100 % 100, number % 100)
}

/// How many pieces a list has: 64 bytes for each are enough for `portal`, and 80 for `staging`. It is 65,537 for more
/// pieces than may be planned, and 0 for settings that are refused (and for an empty list).
///
/// ```
/// # use dsa_planner::{count_pieces, BatchPrice, Settings};
/// # let (lone, batch, fence) = (10, BatchPrice::Flat(14), 3);
/// # let settings = Settings { greatest_batch: 4, greatest_transfer: 4096, lone, batch, fence, staging: 0x10000 };
/// # let mut list = [0u8; 64];
/// # (list[4], list[7], list[9], list[17], list[25], list[32]) = (0x0c, 0x03, 0x80, 0x10, 0x20, 64);
/// // `list` has one move of 64 bytes, and `settings` allow 4,096 in a piece
/// assert_eq!(count_pieces(&settings, &list), 1);
/// ```
#[must_use]
pub fn count_pieces(settings: &Settings, list: &[u8]) -> u64 {
    let (raw, table) = settings.raw();
    // SAFETY: each pointer and length are those of one slice, or of one struct.
    unsafe { raw::dsa_count_pieces(&raw, table.as_ptr(), table.len(), list.as_ptr(), list.len()) }
}

/// Plans a list into buffers of the caller: 64 bytes for each operation, in their order. [`plan_list`] says what is
/// promised of the order in which they take effect.
///
/// # Errors
/// The first fault of the list or the settings; [`Cause::NoRoom`] if a buffer is too small; [`Cause::Memory`]. The
/// buffers are then as before.
///
/// ```
/// # use dsa_planner::{plan_into, BatchPrice, Settings};
/// # let (lone, batch, fence) = (10, BatchPrice::Flat(14), 3);
/// # let settings = Settings { greatest_batch: 4, greatest_transfer: 4096, lone, batch, fence, staging: 0x10000 };
/// # let mut list = [0u8; 64];
/// # (list[4], list[7], list[9], list[17], list[25], list[32]) = (0x0c, 0x03, 0x80, 0x10, 0x20, 64);
/// let (mut portal, mut staging) = ([0; 64], [0; 80]);
/// let summary = plan_into(&settings, &list, &mut portal, &mut staging)?;
/// assert_eq!((summary.portal_len, portal), (64, list));
/// # Ok::<(), dsa_planner::Refusal>(())
/// ```
pub fn plan_into(
    settings: &Settings,
    list: &[u8],
    portal: &mut [u8],
    staging: &mut [u8],
) -> Result<Summary, Refusal> {
    let (raw, table) = settings.raw();
    let (mut summary, mut refusal) = (Summary::default(), raw::Refusal::default());
    // SAFETY: each pointer and length are those of one slice, or of one struct, and no output overlaps another
    // argument.
    let code = unsafe {
        raw::dsa_plan_list(
            &raw,
            table.as_ptr(),
            table.len(),
            list.as_ptr(),
            list.len(),
            portal.as_mut_ptr(),
            portal.len(),
            staging.as_mut_ptr(),
            staging.len(),
            &mut summary,
            &mut refusal,
        )
    };
    answer(code, summary, refusal)
}

/// Plans a list: 64 bytes for each operation, in their order.
///
/// If all operations succeed, the final memory is that of the list in order. Nothing is promised of what another
/// thread, an interrupt or the device's other queues see in between, nor that a later operation waits for an earlier
/// one to succeed, if no barrier is between them.
///
/// An operation with the flag 0x0001 ([`Descriptor::after_barrier`]) begins after a barrier. If each entry is awaited,
/// and none is submitted after one that failed, the device starts nothing of it, nor of what comes after it, before
/// all operations before it have ended with status 1. No legal plan that keeps each barrier costs less. The
/// certificate is for [`check_list`], and without barriers for [`check`], too.
///
/// Of a list with a checksum ([`Descriptor::crc`], [`Descriptor::copy_crc`]) no operation is split: one that is longer
/// than the greatest transfer is refused.
///
/// # Errors
/// The first fault of the list or the settings; [`Cause::Memory`].
///
/// ```
/// # use dsa_planner::{check_list, list_of, plan_list, BatchPrice, Descriptor, Settings};
/// # let (lone, batch, fence) = (10, BatchPrice::Flat(14), 3);
/// # let settings = Settings { greatest_batch: 4, greatest_transfer: 4096, lone, batch, fence, staging: 0x10000 };
/// let checked = Descriptor::compare(0x1000, 0x2000, 64, 0x8000).expecting(false);
/// let list = list_of(&[checked, Descriptor::memory_move(0x3000, 0x4000, 64, 0x8020).after_barrier()]);
/// let planned = plan_list(&settings, &list)?;
/// let cost = check_list(&settings, &list, &planned.portal, &planned.staging, &planned.certificate)?;
/// assert_eq!((cost, planned.cost), (17, 17)); // one batch, with a fence before the move
/// # Ok::<(), dsa_planner::Refusal>(())
/// ```
pub fn plan_list(settings: &Settings, list: &[u8]) -> Result<Planned, Refusal> {
    let (raw, table) = settings.raw();
    let pieces = usize::try_from(count_pieces(settings, list)).map_or(0, |n| n.min(MOST_PIECES));
    let (mut portal, mut staging) = (vec![0; 64 * pieces], vec![0; 80 * pieces]);
    let (mut prices, mut pairs, mut marks) =
        (vec![0; pieces + 1], vec![NONE; pieces], vec![0; pieces]);
    let (mut summary, mut refusal) = (Summary::default(), raw::Refusal::default());
    // SAFETY: each pointer and length are those of one slice, or of one struct, and no output overlaps another argument.
    let code = unsafe {
        raw::dsa_plan_list_certified(
            &raw,
            table.as_ptr(),
            table.len(),
            list.as_ptr(),
            list.len(),
            portal.as_mut_ptr(),
            portal.len(),
            staging.as_mut_ptr(),
            staging.len(),
            prices.as_mut_ptr(),
            prices.len(),
            pairs.as_mut_ptr(),
            pairs.len(),
            marks.as_mut_ptr(),
            marks.len(),
            &mut summary,
            &mut refusal,
        )
    };
    let summary = answer(code, summary, refusal)?;
    portal.truncate(summary.portal_len as usize);
    staging.truncate(summary.staging_len as usize);
    let pairs = pairs
        .into_iter()
        .map(|pair| (pair != NONE).then_some((pair.first, pair.second)));
    let certificate = Certificate {
        version: raw.version,
        prices,
        pairs: pairs.collect(),
    };
    Ok(Planned {
        cost: summary.cost,
        portal,
        staging,
        marks,
        certificate,
    })
}

/// What the bytes of a portal and a staging area cost, if each conflict within a batch has its fence and the
/// certificate proves that no legal plan of their pieces costs less. It needs 256 KiB of stack.
///
/// # Errors
/// The first fault of the settings, the bytes or the certificate.
///
/// ```
/// # use dsa_planner::{check, plan_list, BatchPrice, Settings};
/// # let (lone, batch, fence) = (10, BatchPrice::Flat(14), 3);
/// # let settings = Settings { greatest_batch: 4, greatest_transfer: 4096, lone, batch, fence, staging: 0x10000 };
/// # let mut list = [0u8; 64];
/// # (list[4], list[7], list[9], list[17], list[25], list[32]) = (0x0c, 0x03, 0x80, 0x10, 0x20, 64);
/// let planned = plan_list(&settings, &list)?;
/// assert_eq!(check(&settings, &planned.portal, &planned.staging, &planned.certificate)?, planned.cost);
/// # Ok::<(), dsa_planner::Refusal>(())
/// ```
pub fn check(
    settings: &Settings,
    portal: &[u8],
    staging: &[u8],
    certificate: &Certificate,
) -> Result<u64, Refusal> {
    let (raw, table) = settings.raw();
    let pairs = raw_pairs(certificate);
    let (mut cost, mut refusal) = (0, raw::Refusal::default());
    // SAFETY: each pointer and length are those of one slice, or of one struct, and no output overlaps another argument.
    let code = unsafe {
        raw::dsa_check(
            &raw,
            table.as_ptr(),
            table.len(),
            portal.as_ptr(),
            portal.len(),
            staging.as_ptr(),
            staging.len(),
            certificate.version,
            certificate.prices.as_ptr(),
            certificate.prices.len(),
            pairs.as_ptr(),
            pairs.len(),
            &mut cost,
            &mut refusal,
        )
    };
    answer(code, cost, refusal)
}

// The pairs of a certificate, as C lays them out.
fn raw_pairs(certificate: &Certificate) -> Vec<raw::Pair> {
    let pair_of = |pair: &Option<(u32, u32)>| {
        pair.map_or(NONE, |(first, second)| raw::Pair { first, second })
    };
    certificate.pairs.iter().map(pair_of).collect()
}

/// The same for a list, which says where the barriers are: the bytes submit the pieces of the list, the plan keeps each
/// barrier, and the certificate proves that no legal plan that does costs less. It needs 256 KiB of stack.
///
/// # Errors
/// The first fault of the settings, the list and its pieces, or the bytes; [`Cause::OtherPiece`]; then that of the plan
/// or the certificate. A barrier that is not kept is an inner [`Cause::Unfenced`].
///
/// ```
/// # use dsa_planner::{check_list, list_of, plan_into, BatchPrice, Certificate, Descriptor, Settings};
/// # let (lone, batch, fence) = (10, BatchPrice::Flat(14), 3);
/// # let settings = Settings { greatest_batch: 4, greatest_transfer: 4096, lone, batch, fence, staging: 0x10000 };
/// let checked = Descriptor::compare(0x1000, 0x2000, 64, 0x8000).expecting(false);
/// let list = list_of(&[checked, Descriptor::memory_move(0x3000, 0x4000, 64, 0x8020).after_barrier()]);
/// let (mut portal, mut staging) = ([0; 64], [0; 160]);
/// let summary = plan_into(&settings, &list, &mut portal, &mut staging)?;
/// let certificate = Certificate { version: 1, prices: vec![0, 10, 17], pairs: vec![Some((0, 1)), None] };
/// assert_eq!(check_list(&settings, &list, &portal, &staging, &certificate)?, summary.cost);
/// # Ok::<(), dsa_planner::Refusal>(())
/// ```
pub fn check_list(
    settings: &Settings,
    list: &[u8],
    portal: &[u8],
    staging: &[u8],
    certificate: &Certificate,
) -> Result<u64, Refusal> {
    let (raw, table) = settings.raw();
    let pairs = raw_pairs(certificate);
    let (mut cost, mut refusal) = (0, raw::Refusal::default());
    // SAFETY: each pointer and length are those of one slice, or of one struct, and no output overlaps an argument.
    let code = unsafe {
        raw::dsa_check_list(
            &raw,
            table.as_ptr(),
            table.len(),
            list.as_ptr(),
            list.len(),
            portal.as_ptr(),
            portal.len(),
            staging.as_ptr(),
            staging.len(),
            certificate.version,
            certificate.prices.as_ptr(),
            certificate.prices.len(),
            pairs.as_ptr(),
            pairs.len(),
            &mut cost,
            &mut refusal,
        )
    };
    answer(code, cost, refusal)
}

/// In which order [`resume`] lists what is left.
#[derive(Clone, Copy, Debug, PartialEq, Eq)]
pub enum LeftOrder {
    /// As it was listed.
    AsListed,
    /// The pieces that failed, and after them those that wait.
    FailedFirst,
}

/// What is left of a list that has stopped.
#[derive(Clone, Debug, PartialEq, Eq)]
pub struct Resumed {
    /// The list of the pieces that may be done, with the flag 0x0001 after each barrier between them.
    pub rest: Vec<u8>,
    /// The pieces after a barrier that may not be done any more, if there are some.
    pub left_out: Option<LeftOut>,
}

/// The pieces after a barrier that are left out, because one before it will not succeed.
#[derive(Clone, Copy, Debug, PartialEq, Eq)]
pub struct LeftOut {
    /// How many they are: all from the barrier on.
    pub pieces: u64,
    /// The first piece that stops them: a compare that found another result than expected, or one that is given up.
    pub stopped_by: u64,
}

/// What is left to submit of a list that was planned with these settings, once a submission has stopped: the list of
/// the pieces that have not finished, by their completion records, 32 bytes for each piece in their order, whose first
/// byte is 0 of a piece that waits, and 1 or 2 of one that has finished. The pieces of a move to a higher address
/// within its own range run from the end: the record at its record address is that of its last piece. Clear the
/// records of what is left, and plan it; docs/USING.md says when that leaves what the whole list leaves.
///
/// A piece that failed is not done again if its place in `given_up` is true; `&[]` gives up none. If a piece before a
/// barrier is given up, or has ended with status 2, all pieces after the barrier are left out; a later call does not
/// count them.
///
/// # Errors
/// The first fault of the settings or the list; [`Cause::Records`]; [`Cause::SharedRecord`] if a piece writes into the
/// record of another, which then does not say how its own piece has ended; [`Cause::NotFailed`];
/// [`Cause::PassedBarrier`] if a piece has begun though another has not succeeded and a barrier is between them;
/// [`Cause::Memory`]. Of a list with shared records give the pieces from the first entry on whose status is not 1, if
/// only pieces of groups share them that have completed by the records of their batches; else restore the memory, and
/// run the whole list with a record for each piece.
///
/// ```
/// # use dsa_planner::{list_of, resume, BatchPrice, Descriptor, LeftOrder, Settings};
/// # let (lone, batch, fence) = (10, BatchPrice::Flat(14), 3);
/// # let settings = Settings { greatest_batch: 4, greatest_transfer: 4096, lone, batch, fence, staging: 0x10000 };
/// let first = Descriptor::memory_move(0x1000, 0x2000, 64, 0x8000);
/// let second = Descriptor::memory_move(0x3000, 0x4000, 64, 0x8020);
/// let mut records = [0; 64];
/// (records[0], records[32]) = (1, 3); // success, and a page fault
/// let left = resume(&settings, &list_of(&[first, second]), &records, &[], LeftOrder::AsListed)?;
/// assert_eq!(left.rest, list_of(&[second]));
/// # Ok::<(), dsa_planner::Refusal>(())
/// ```
pub fn resume(
    settings: &Settings,
    list: &[u8],
    records: &[u8],
    given_up: &[bool],
    order: LeftOrder,
) -> Result<Resumed, Refusal> {
    let (raw, table) = settings.raw();
    let pieces = usize::try_from(count_pieces(settings, list)).map_or(0, |n| n.min(MOST_PIECES));
    let mut rest = vec![0; 64 * pieces];
    let (mut resumed, mut refusal) = (raw::Resumed::default(), raw::Refusal::default());
    // SAFETY: each pointer and length are those of one slice or one struct, and no output overlaps another argument; a
    // bool is a byte.
    let code = unsafe {
        raw::dsa_resume(
            &raw,
            table.as_ptr(),
            table.len(),
            list.as_ptr(),
            list.len(),
            records.as_ptr(),
            records.len(),
            given_up.as_ptr().cast(),
            given_up.len(),
            u32::from(order == LeftOrder::FailedFirst),
            rest.as_mut_ptr(),
            rest.len(),
            &mut resumed,
            &mut refusal,
        )
    };
    let resumed = answer(code, resumed, refusal)?;
    rest.truncate(resumed.rest_len as usize);
    let left_out = LeftOut {
        pieces: resumed.left_out,
        stopped_by: resumed.stopped_by,
    };
    Ok(Resumed {
        rest,
        left_out: (left_out.pieces > 0).then_some(left_out),
    })
}

/// What a plan of the caller's costs, a mark for each descriptor of the list, if it is within the limits, each conflict
/// within a batch has its fence, and each barrier is kept. No descriptor is split. It needs 256 KiB of stack.
///
/// # Errors
/// The first fault of the settings, the list or the plan, as [`Cause::Unfenced`], with two pieces that conflict, or
/// those just before and just after a barrier.
///
/// ```
/// # use dsa_planner::{judge, list_of, BatchPrice, Cause, Descriptor, Settings, BEGINS, FENCED};
/// # let (lone, batch, fence) = (10, BatchPrice::Flat(14), 3);
/// # let settings = Settings { greatest_batch: 4, greatest_transfer: 4096, lone, batch, fence, staging: 0x10000 };
/// let checked = Descriptor::compare(0x1000, 0x2000, 64, 0x8000).expecting(false);
/// let list = list_of(&[checked, Descriptor::memory_move(0x3000, 0x4000, 64, 0x8020).after_barrier()]);
/// assert_eq!(judge(&settings, &list, &[BEGINS, FENCED])?, 17);
/// let refusal = judge(&settings, &list, &[BEGINS, 0]).unwrap_err();
/// assert_eq!((refusal.cause, refusal.first, refusal.second), (Cause::Unfenced, 0, 1));
/// # Ok::<(), dsa_planner::Refusal>(())
/// ```
pub fn judge(settings: &Settings, list: &[u8], marks: &[u8]) -> Result<u64, Refusal> {
    let (raw, table) = settings.raw();
    let (mut cost, mut refusal) = (0, raw::Refusal::default());
    // SAFETY: each pointer and length are those of one slice, or of one struct, and no output overlaps another argument.
    let code = unsafe {
        raw::dsa_judge(
            &raw,
            table.as_ptr(),
            table.len(),
            list.as_ptr(),
            list.len(),
            marks.as_ptr(),
            marks.len(),
            &mut cost,
            &mut refusal,
        )
    };
    answer(code, cost, refusal)
}

// What a call answers, by its number.
fn answer<T>(code: u32, value: T, refusal: raw::Refusal) -> Result<T, Refusal> {
    if code == 0 {
        Ok(value)
    } else {
        Err(Refusal::of(&refusal))
    }
}

// All types may go to other threads and be shared among them.
const _: fn() = || {
    fn is_send_and_sync<T: Send + Sync>() {}
    is_send_and_sync::<(BatchPrice, Settings, Cause, Refusal)>();
    is_send_and_sync::<(Summary, Certificate, Planned)>();
    is_send_and_sync::<(Descriptor, Group)>();
    is_send_and_sync::<(Conflict, Hazard, Reason)>();
    is_send_and_sync::<(Concern, Warning)>();
    is_send_and_sync::<(Prepared, Region, Row)>();
    is_send_and_sync::<(Tracker, Span, Slots, Submitted, Retired)>();
};
