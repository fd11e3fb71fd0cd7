//! Why a plan has its fences and its groups.

use crate::{answer, count_pieces, raw, Refusal, Settings, MOST_PIECES};
use crate::{BEGINS, FENCED};
use alloc::vec;
use alloc::vec::Vec;
use core::fmt;

/// Why the later of two conflicting pieces waits.
#[derive(Clone, Copy, Debug, PartialEq, Eq, Hash)]
pub enum Hazard {
    /// It reads what the earlier one writes.
    ReadAfterWrite,
    /// It writes what the earlier one reads.
    WriteAfterRead,
    /// It writes what the earlier one writes.
    WriteAfterWrite,
}

/// Two conflicting pieces, by their numbers.
#[derive(Clone, Copy, Debug, PartialEq, Eq, Hash)]
pub struct Conflict {
    /// The earlier piece.
    pub earlier: u64,
    /// The later piece, which waits.
    pub later: u64,
    /// Why it does.
    pub hazard: Hazard,
    /// An address where the two conflict.
    pub address: u64,
    /// The piece in whose completion record the address is, if it is in one; the earlier one if it is in both.
    pub record_of: Option<u64>,
}

/// Why a piece carries a fence, or begins a group. `Display` gives the sentence that `dsa_text explain` has for the
/// fence.
#[derive(Clone, Copy, Debug, PartialEq, Eq, Hash)]
pub struct Reason {
    /// The piece.
    pub piece: u64,
    /// The number of its group.
    pub group: u64,
    /// Whether the piece is fenced; else a group begins with it.
    pub is_fence: bool,
    /// Whether a barrier is before the piece.
    pub is_barrier: bool,
    /// Of the conflicts that this fence or beginning alone separates, the one with the least later piece, and for that
    /// the greatest earlier piece; without one a barrier asks for a fence, and for a beginning that or the limit of a
    /// batch or the prices.
    pub conflict: Option<Conflict>,
    /// How many more conflicts it alone separates.
    pub more: u64,
}

// The hazard of a number of the header.
fn hazard_of(number: u32) -> Option<Hazard> {
    match number {
        1 => Some(Hazard::ReadAfterWrite),
        2 => Some(Hazard::WriteAfterRead),
        3 => Some(Hazard::WriteAfterWrite),
        _ => None,
    }
}

impl Conflict {
    // The conflict of a reason that the library wrote.
    fn of(raw: &raw::Reason) -> Option<Conflict> {
        Some(Conflict {
            earlier: raw.earlier,
            later: raw.later,
            hazard: hazard_of(raw.hazard)?,
            address: raw.address,
            record_of: match raw.in_record {
                1 => Some(raw.earlier),
                2 => Some(raw.later),
                _ => None,
            },
        })
    }
}

impl Reason {
    // The reason that the library wrote.
    fn of(raw: &raw::Reason) -> Reason {
        Reason {
            piece: raw.piece,
            group: raw.group,
            is_fence: raw.mark & u32::from(FENCED) != 0,
            is_barrier: raw.barrier != 0,
            conflict: Conflict::of(raw),
            more: raw.more,
        }
    }

    // The same as the library lays it out.
    fn raw(&self) -> raw::Reason {
        let bare = raw::Reason {
            piece: self.piece,
            group: self.group,
            more: self.more,
            mark: u32::from(if self.is_fence { FENCED } else { BEGINS }),
            barrier: u32::from(self.is_barrier),
            ..raw::Reason::default()
        };
        let Some(conflict) = self.conflict else {
            return bare;
        };
        raw::Reason {
            earlier: conflict.earlier,
            later: conflict.later,
            address: conflict.address,
            hazard: match conflict.hazard {
                Hazard::ReadAfterWrite => 1,
                Hazard::WriteAfterRead => 2,
                Hazard::WriteAfterWrite => 3,
            },
            in_record: match conflict.record_of {
                Some(piece) if piece == conflict.earlier => 1,
                Some(_) => 2,
                None => 0,
            },
            ..bare
        }
    }
}

impl fmt::Display for Reason {
    fn fmt(&self, f: &mut fmt::Formatter<'_>) -> fmt::Result {
        let (raw, mut text) = (self.raw(), [0; 256]);
        // SAFETY: both are the caller's own, and the length is the buffer's.
        let length = unsafe { raw::dsa_reason_text(&raw, text.as_mut_ptr(), text.len()) };
        match core::str::from_utf8(&text[..text.len().min(length as usize)]) {
            Ok(said) if !said.is_empty() => f.write_str(said),
            Ok(_) | Err(_) => f.write_str("there was not enough memory for the sentence"),
        }
    }
}

/// Why the plan of a list, that of [`plan_list`](crate::plan_list), has its fences and its groups: a reason for each
/// fenced piece and for each that a group after the first begins with, in the order of the pieces.
///
/// # Errors
/// The first fault of the list or the settings; [`Cause::Memory`](crate::Cause::Memory).
///
/// ```
/// # use dsa_planner::{explain_list, list_of, BatchPrice, Descriptor, Hazard, Settings};
/// # let (lone, batch, fence) = (10, BatchPrice::Flat(14), 3);
/// # let settings = Settings { greatest_batch: 4, greatest_transfer: 4096, lone, batch, fence, staging: 0x10000 };
/// let first = Descriptor::memory_move(0x1000, 0x2000, 64, 0x8000);
/// let second = Descriptor::memory_move(0x2000, 0x4000, 64, 0x8020);
/// let reasons = explain_list(&settings, &list_of(&[first, second]))?;
/// assert_eq!((reasons.len(), reasons[0].piece, reasons[0].is_fence), (1, 1, true));
/// assert_eq!(reasons[0].conflict.map(|conflict| conflict.hazard), Some(Hazard::ReadAfterWrite));
/// assert_eq!(reasons[0].to_string(), "1 after 0, read after write at 0x2000");
/// # Ok::<(), dsa_planner::Refusal>(())
/// ```
pub fn explain_list(settings: &Settings, list: &[u8]) -> Result<Vec<Reason>, Refusal> {
    let (raw, table) = settings.raw();
    let pieces = usize::try_from(count_pieces(settings, list)).map_or(0, |n| n.min(MOST_PIECES));
    let mut reasons = vec![raw::Reason::default(); pieces];
    let (mut count, mut refusal) = (0, raw::Refusal::default());
    // SAFETY: each pointer and length are those of one slice or one struct, and no output overlaps another argument.
    let code = unsafe {
        raw::dsa_explain_list(
            &raw,
            table.as_ptr(),
            table.len(),
            list.as_ptr(),
            list.len(),
            reasons.as_mut_ptr(),
            reasons.len(),
            &mut count,
            &mut refusal,
        )
    };
    let count = answer(code, count, refusal)?;
    reasons.truncate(count as usize);
    Ok(reasons.iter().map(Reason::of).collect())
}
