//! Which submissions in flight a further one has to wait for.

use alloc::vec;
use alloc::vec::Vec;

use crate::{answer, raw, Refusal, Settings};

/// Addresses that a submission reads or writes.
#[repr(C)]
#[derive(Clone, Copy, Debug, PartialEq, Eq, Hash)]
pub struct Span {
    /// The first address.
    pub first: u64,
    /// How many there are.
    pub len: u64,
}

/// A set of slots: bit `s` of the word is for slot `s`, from 0 to 63.
#[derive(Clone, Copy, Debug, Default, PartialEq, Eq, Hash)]
pub struct Slots(pub u64);

impl Slots {
    /// The set of no slots.
    pub const EMPTY: Slots = Slots(0);

    /// Whether the slot is in the set.
    #[must_use]
    pub fn contains(self, slot: u32) -> bool {
        slot < 64 && self.0 >> slot & 1 == 1
    }

    /// Whether no slot is in the set.
    #[must_use]
    pub fn is_empty(self) -> bool {
        self.0 == 0
    }
}

/// A submission that a tracker has taken.
#[derive(Clone, Copy, Debug, PartialEq, Eq, Hash)]
pub struct Submitted {
    /// Its slot.
    pub slot: u32,
    /// The slots of those that it waits for; with none it is ready.
    pub waits: Slots,
}

/// What follows from taking a submission off.
#[derive(Clone, Copy, Debug, PartialEq, Eq, Hash)]
pub struct Retired {
    /// The slots of those that waited for it.
    pub waited: Slots,
    /// Those of them that wait for none any more.
    pub ready: Slots,
}

/// Says which submissions in flight a further one has to wait for: those of which one writes what the other reads
/// or writes. A submission has a slot until it is taken off.
///
/// Its caller rings each submission once and only when it is ready, completes only what was rung and has ended, and
/// withdraws only what was not rung. It fills a list's staging area and clears its records only when it is ready, too,
/// and reads its records and results before it completes it: another may be rung over them then. Then what it rings
/// leaves what it leaves one after another. A call that fails has changed nothing.
///
/// ```
/// use dsa_planner::{Slots, Span, Tracker};
///
/// let (buffer, copy) = (Span { first: 0x1000, len: 64 }, Span { first: 0x2000, len: 64 });
/// let mut tracker = Tracker::new(8, 16, 13, 12)?;
/// let writes = tracker.submit_spans(&[], &[buffer], Slots::EMPTY)?;
/// let reads = tracker.submit_spans(&[buffer], &[copy], Slots::EMPTY)?;
/// assert!(writes.waits.is_empty() && reads.waits.contains(writes.slot));
/// assert!(tracker.complete(writes.slot)?.ready.contains(reads.slot));
/// # Ok::<(), dsa_planner::Refusal>(())
/// ```
#[derive(Clone, Debug, PartialEq, Eq)]
pub struct Tracker {
    words: Vec<u64>,
}

impl Tracker {
    /// A tracker with at most 64 slots, for submissions that read at most so many spans and write at most so many;
    /// a list of n pieces takes 3 n + 1. The other two change no answer: there are 2^`log2_rows` rows of bits for a
    /// first look, 1 to 32 (13 does for most, 14 for more than 4,096 units in flight), and addresses are looked up in
    /// units of 2^`log2_unit` bytes, 1 to 63, best near the length of an operation.
    ///
    /// # Errors
    /// [`Cause::NotATracker`](crate::Cause::NotATracker): a measure is outside its limits; `first` says which: 1 for
    /// `slots`, 3 for `log2_rows`, 4 for `log2_unit`.
    pub fn new(slots: u32, spans: u32, log2_rows: u32, log2_unit: u32) -> Result<Tracker, Refusal> {
        let len = if slots <= 64 && log2_rows <= 32 {
            16 + slots as usize * (3 + 4 * spans as usize) + (2 << log2_rows)
        } else {
            0
        };
        let (mut words, mut refusal) = (vec![0; len], raw::Refusal::default());
        // SAFETY: the pointer and the length are those of one vector, and no output overlaps another argument.
        let code = unsafe {
            raw::dsa_track_begin(
                words.as_mut_ptr(),
                words.len(),
                slots,
                spans,
                log2_rows,
                log2_unit,
                &mut refusal,
            )
        };
        answer(code, Tracker { words }, refusal)
    }

    /// Takes a list as a submission: the pieces into which these settings split it, and the staging area, which counts
    /// as written. The address of the settings' own staging area does not count. It waits for the outstanding ones
    /// that conflict with it, and for those of `also` that are outstanding. A barrier orders nothing between
    /// submissions.
    ///
    /// # Errors
    /// What [`plan_list`](crate::plan_list) refuses of the list with this staging address; then the first of
    /// [`Cause::NoSlot`](crate::Cause::NoSlot), `TooManySpans`, `SpanWrap` and `OtherOwner`.
    pub fn submit(
        &mut self,
        settings: &Settings,
        list: &[u8],
        staging: Span,
        also: Slots,
    ) -> Result<Submitted, Refusal> {
        let (raw, table) = settings.raw();
        self.take(|words, slot, waits, refusal| {
            // SAFETY: each pointer and length are those of one slice, and no output overlaps another argument.
            unsafe {
                raw::dsa_track_list(
                    words.as_mut_ptr(),
                    words.len(),
                    &raw,
                    table.as_ptr(),
                    table.len(),
                    list.as_ptr(),
                    list.len(),
                    staging.first,
                    staging.len,
                    also.0,
                    slot,
                    waits,
                    refusal,
                )
            }
        })
    }

    /// The same of a submission that reads and writes these spans, whoever owns them.
    ///
    /// # Errors
    /// The first of [`Cause::NoSlot`](crate::Cause::NoSlot), `TooManySpans` and `SpanWrap`.
    pub fn submit_spans(
        &mut self,
        reads: &[Span],
        writes: &[Span],
        also: Slots,
    ) -> Result<Submitted, Refusal> {
        self.take(|words, slot, waits, refusal| {
            // SAFETY: each pointer and length are those of one slice, and no output overlaps another argument.
            unsafe {
                raw::dsa_track_spans(
                    words.as_mut_ptr(),
                    words.len(),
                    reads.as_ptr(),
                    reads.len(),
                    writes.as_ptr(),
                    writes.len(),
                    also.0,
                    slot,
                    waits,
                    refusal,
                )
            }
        })
    }

    /// Takes each entry of a portal as a submission of its own, in their order, and answers their slots: groups of
    /// one plan that do not conflict need not wait for each other. The bytes are those that planning or filling
    /// answered, under these settings. An entry's submission has its pieces and, as written, what the entry names of
    /// the staging area. It waits for the outstanding ones that conflict with it, those of earlier entries among
    /// them, and for those of `also` that are outstanding by then: all slots in `also` keep the plan's own stop
    /// point. A group of n pieces takes 3 n + 2 spans.
    ///
    /// # Errors
    /// [`Cause::Settings`](crate::Cause::Settings); what [`check`](crate::check) refuses of the bytes; then the first
    /// of `FewSlots`, `TooManySpans`, `SpanWrap` and `OtherOwner`.
    pub fn submit_groups(
        &mut self,
        settings: &Settings,
        portal: &[u8],
        staging: &[u8],
        also: Slots,
    ) -> Result<Vec<u32>, Refusal> {
        let (raw, table) = settings.raw();
        let (mut slots, mut refusal) = (vec![0; portal.len() / 64], raw::Refusal::default());
        // SAFETY: each pointer and length are those of one slice or vector, and no output overlaps another argument.
        let code = unsafe {
            raw::dsa_track_groups(
                self.words.as_mut_ptr(),
                self.words.len(),
                &raw,
                table.as_ptr(),
                table.len(),
                portal.as_ptr(),
                portal.len(),
                staging.as_ptr(),
                staging.len(),
                also.0,
                slots.as_mut_ptr(),
                slots.len(),
                &mut refusal,
            )
        };
        answer(code, slots, refusal)
    }

    /// The outstanding submissions that conflict with accesses to these spans: with none, the host may do them at
    /// once.
    ///
    /// # Errors
    /// None: it takes no memory, and the words are a tracker's.
    pub fn ask(&self, reads: &[Span], writes: &[Span]) -> Result<Slots, Refusal> {
        let (mut waits, mut refusal) = (0, raw::Refusal::default());
        // SAFETY: each pointer and length are those of one slice or vector, and no output overlaps another argument.
        let code = unsafe {
            raw::dsa_track_ask(
                self.words.as_ptr(),
                self.words.len(),
                reads.as_ptr(),
                reads.len(),
                writes.as_ptr(),
                writes.len(),
                &mut waits,
                &mut refusal,
            )
        };
        answer(code, Slots(waits), refusal)
    }

    /// The slots that the submission of this slot still waits for: with none it is ready.
    ///
    /// # Errors
    /// [`Cause::NotOutstanding`](crate::Cause::NotOutstanding).
    pub fn waits(&self, slot: u32) -> Result<Slots, Refusal> {
        let (mut waits, mut refusal) = (0, raw::Refusal::default());
        // SAFETY: the pointer and the length are those of one vector, and no output overlaps another argument.
        let code = unsafe {
            raw::dsa_track_waits(
                self.words.as_ptr(),
                self.words.len(),
                slot,
                &mut waits,
                &mut refusal,
            )
        };
        answer(code, Slots(waits), refusal)
    }

    /// Takes the submission of this slot off, which was ready and has ended.
    ///
    /// # Errors
    /// [`Cause::NotOutstanding`](crate::Cause::NotOutstanding), or `Held` for one that still waits.
    pub fn complete(&mut self, slot: u32) -> Result<Retired, Refusal> {
        self.retire(raw::dsa_track_complete, slot)
    }

    /// Takes the submission of this slot off, which was not rung.
    ///
    /// # Errors
    /// [`Cause::NotOutstanding`](crate::Cause::NotOutstanding).
    pub fn withdraw(&mut self, slot: u32) -> Result<Retired, Refusal> {
        self.retire(raw::dsa_track_withdraw, slot)
    }

    fn take(
        &mut self,
        call: impl FnOnce(&mut [u64], &mut u32, &mut u64, &mut raw::Refusal) -> u32,
    ) -> Result<Submitted, Refusal> {
        let (mut slot, mut waits, mut refusal) = (0, 0, raw::Refusal::default());
        let code = call(&mut self.words, &mut slot, &mut waits, &mut refusal);
        let waits = Slots(waits);
        answer(code, Submitted { slot, waits }, refusal)
    }

    fn retire(&mut self, call: raw::Retire, slot: u32) -> Result<Retired, Refusal> {
        let (mut waited, mut ready, mut refusal) = (0, 0, raw::Refusal::default());
        // SAFETY: the pointer and the length are those of one vector, and no output overlaps another argument.
        let code = unsafe {
            call(
                self.words.as_mut_ptr(),
                self.words.len(),
                slot,
                &mut waited,
                &mut ready,
                &mut refusal,
            )
        };
        let (waited, ready) = (Slots(waited), Slots(ready));
        answer(code, Retired { waited, ready }, refusal)
    }
}
