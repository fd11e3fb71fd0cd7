//! What is worth a warning about the plan of a list.

use crate::{answer, count_pieces, raw, Refusal, Settings, MOST_PIECES};
use alloc::vec;
use alloc::vec::Vec;
use core::fmt;

/// What is worth a warning about a piece.
#[derive(Clone, Copy, Debug, PartialEq, Eq, Hash)]
#[non_exhaustive]
pub enum Concern {
    /// One of it and this earlier piece writes into the completion record of the other, so that a record may not say
    /// how its piece has ended; of such pieces it is the last.
    SharedRecord(u64),
    /// It is a compare without check, and a barrier is after it, which its result does not stop.
    Unchecked,
    /// It is a compare with check, and the next piece, of a compare that is split perhaps its own, may begin before it
    /// has ended.
    Unguarded,
    /// It is a move whose source and destination overlap, which only devices with overlapping copy support take (GENCAP
    /// bit 1).
    Overlap,
}

/// A warning about a piece. `Display` gives its sentence.
#[derive(Clone, Copy, Debug, PartialEq, Eq, Hash)]
pub struct Warning {
    /// The piece.
    pub piece: u64,
    /// What it is.
    pub concern: Concern,
}

impl Warning {
    // The warning that the library wrote; none of a kind of a later version.
    fn of(raw: &raw::Warning) -> Option<Warning> {
        let concern = match raw.kind {
            1 => Concern::SharedRecord(raw.other),
            2 => Concern::Unchecked,
            3 => Concern::Unguarded,
            4 => Concern::Overlap,
            _ => return None,
        };
        let piece = raw.piece;
        Some(Warning { piece, concern })
    }

    // The same as the library lays it out.
    fn raw(&self) -> raw::Warning {
        let (kind, other) = match self.concern {
            Concern::SharedRecord(earlier) => (1, earlier),
            Concern::Unchecked => (2, 0),
            Concern::Unguarded => (3, 0),
            Concern::Overlap => (4, 0),
        };
        let piece = self.piece;
        raw::Warning { kind, piece, other }
    }
}

impl fmt::Display for Warning {
    fn fmt(&self, f: &mut fmt::Formatter<'_>) -> fmt::Result {
        let (raw, mut text) = (self.raw(), [0; 256]);
        // SAFETY: both are the caller's own, and the length is the buffer's.
        let length = unsafe { raw::dsa_warning_text(&raw, text.as_mut_ptr(), text.len()) };
        match core::str::from_utf8(&text[..text.len().min(length as usize)]) {
            Ok(said) if !said.is_empty() => f.write_str(said),
            Ok(_) | Err(_) => f.write_str("there was not enough memory for the sentence"),
        }
    }
}

/// What is worth a warning about the pieces of a list and their plan, that of [`plan_list`](crate::plan_list), in the
/// order of the pieces.
///
/// # Errors
/// The first fault of the list or the settings; [`Cause::Memory`](crate::Cause::Memory).
///
/// ```
/// # use dsa_planner::{list_of, warn_list, BatchPrice, Concern, Descriptor, Settings};
/// # let (lone, batch, fence) = (10, BatchPrice::Flat(14), 3);
/// # let settings = Settings { greatest_batch: 4, greatest_transfer: 4096, lone, batch, fence, staging: 0x10000 };
/// let first = Descriptor::memory_move(0x1000, 0x2000, 64, 0x8000);
/// let second = Descriptor::memory_move(0x3000, 0x4000, 64, 0x8000); // with the record of the first
/// let warnings = warn_list(&settings, &list_of(&[first, second]))?;
/// assert_eq!((warnings[0].piece, warnings[0].concern), (1, Concern::SharedRecord(0)));
/// # Ok::<(), dsa_planner::Refusal>(())
/// ```
pub fn warn_list(settings: &Settings, list: &[u8]) -> Result<Vec<Warning>, Refusal> {
    let (raw, table) = settings.raw();
    let pieces = usize::try_from(count_pieces(settings, list)).map_or(0, |n| n.min(MOST_PIECES));
    let mut warnings = vec![raw::Warning::default(); 2 * pieces];
    let (mut count, mut refusal) = (0, raw::Refusal::default());
    // SAFETY: each pointer and length are those of one slice or one struct, and no output overlaps another argument.
    let code = unsafe {
        raw::dsa_warn_list(
            &raw,
            table.as_ptr(),
            table.len(),
            list.as_ptr(),
            list.len(),
            warnings.as_mut_ptr(),
            warnings.len(),
            &mut count,
            &mut refusal,
        )
    };
    let count = answer(code, count, refusal)?;
    warnings.truncate(count as usize);
    Ok(warnings.iter().filter_map(Warning::of).collect())
}
