//! Descriptors for lists, and the groups of a plan.

use alloc::vec::Vec;
use core::ops::Range;

use crate::{BEGINS, FENCED};

/// The flag that has the device wait for pages that are absent, if its queue allows that.
pub const BLOCK_ON_FAULT: u16 = 0x0002;

/// The 64 bytes of an operation, which writes a completion record. Nothing is checked here:
/// [`plan_list`](crate::plan_list) refuses what a list may not have, and says why.
///
/// ```
/// use dsa_planner::{list_of, plan_list, BatchPrice, Descriptor, Settings};
///
/// let list = list_of(&[
///     Descriptor::memory_move(0x1000, 0x2000, 64, 0x8000),
///     Descriptor::memory_move(0x2000, 0x4000, 64, 0x8020),
/// ]);
/// let (lone, batch, fence) = (10, BatchPrice::Flat(14), 3);
/// let settings = Settings { greatest_batch: 4, greatest_transfer: 4096, lone, batch, fence, staging: 0x10000 };
/// let groups = plan_list(&settings, &list)?.groups();
/// assert_eq!((groups[0].pieces.clone(), groups[0].fenced.clone()), (0..2, vec![1]));
/// # Ok::<(), dsa_planner::Refusal>(())
/// ```
#[derive(Clone, Copy, Debug, PartialEq, Eq, Hash)]
pub struct Descriptor(pub [u8; 64]);

impl Descriptor {
    // What is in bytes 16 to 23, 24 to 31 and 40 to 47 goes by the operation code.
    fn of(code: u32, first: u64, second: u64, size: u32, own: u64, record: u64) -> Descriptor {
        let mut bytes = [0; 64];
        bytes[4..8].copy_from_slice(&(code << 24 | 0x0c).to_le_bytes());
        bytes[8..16].copy_from_slice(&record.to_le_bytes());
        bytes[16..24].copy_from_slice(&first.to_le_bytes());
        bytes[24..32].copy_from_slice(&second.to_le_bytes());
        bytes[32..36].copy_from_slice(&size.to_le_bytes());
        bytes[40..48].copy_from_slice(&own.to_le_bytes());
        Descriptor(bytes)
    }

    /// A move of `size` bytes, with its completion record at `record`, a multiple of 32.
    #[must_use]
    pub fn memory_move(source: u64, target: u64, size: u32, record: u64) -> Descriptor {
        Descriptor::of(0x03, source, target, size, 0, record)
    }

    /// A fill with the 8 bytes of `pattern`, the lowest first, over and over.
    #[must_use]
    pub fn fill(target: u64, size: u32, pattern: u64, record: u64) -> Descriptor {
        Descriptor::of(0x04, pattern, target, size, 0, record)
    }

    /// A compare of two ranges: the result is 0 if they are equal, else 1.
    #[must_use]
    pub fn compare(first: u64, second: u64, size: u32, record: u64) -> Descriptor {
        Descriptor::of(0x05, first, second, size, 0, record)
    }

    /// A compare of a range with the 8 bytes of `pattern`, over and over.
    #[must_use]
    pub fn compare_pattern(source: u64, size: u32, pattern: u64, record: u64) -> Descriptor {
        Descriptor::of(0x06, source, pattern, size, 0, record)
    }

    /// An apply delta: the record of `delta_size` bytes at `delta` is applied to `size` bytes at `target`.
    #[must_use]
    pub fn apply_delta(
        delta: u64,
        delta_size: u32,
        target: u64,
        size: u32,
        record: u64,
    ) -> Descriptor {
        let own = u64::from(delta_size);
        Descriptor::of(0x08, delta, target, size, own, record)
    }

    /// A move to two places, whose low 12 bits are equal.
    #[must_use]
    pub fn dualcast(source: u64, first: u64, second: u64, size: u32, record: u64) -> Descriptor {
        Descriptor::of(0x09, source, first, size, second, record)
    }

    /// The checksum (CRC-32C) of a range, the number in bytes 16 to 19 of the record, as one checksum of what `seed` is
    /// that of and of the range; 0 for that of the range alone.
    #[must_use]
    pub fn crc(source: u64, size: u32, seed: u32, record: u64) -> Descriptor {
        Descriptor::of(0x10, source, 0, size, u64::from(seed), record)
    }

    /// The same, and the range is moved to `target`, which may not meet it.
    #[must_use]
    pub fn copy_crc(source: u64, target: u64, size: u32, seed: u32, record: u64) -> Descriptor {
        Descriptor::of(0x11, source, target, size, u64::from(seed), record)
    }

    /// Of a checksum, the same whose seed is read from the four bytes at `seed` when it is made. At `record + 16` of an
    /// earlier checksum, the two make one checksum of both ranges.
    #[must_use]
    pub fn seeded_from(mut self, seed: u64) -> Descriptor {
        self.0[6] |= 0x01;
        self.0[40..48].fill(0);
        self.0[48..56].copy_from_slice(&seed.to_le_bytes());
        self
    }

    /// The same with further flags of the lower 16, as [`BLOCK_ON_FAULT`].
    #[must_use]
    pub fn with_flags(mut self, flags: u16) -> Descriptor {
        let [low, high] = flags.to_le_bytes();
        self.0[4] |= low;
        self.0[5] |= high;
        self
    }

    /// The same after a barrier.
    #[must_use]
    pub fn after_barrier(self) -> Descriptor {
        self.with_flags(0x0001)
    }

    /// Of a compare, the same that fails (status 2) unless the ranges differ as is expected.
    #[must_use]
    pub fn expecting(mut self, is_different: bool) -> Descriptor {
        self.0[40] = u8::from(is_different);
        self.with_flags(0x0080)
    }

    /// The same under this PASID, of 20 bits, and privilege; with shared virtual memory both stay 0.
    #[must_use]
    pub fn owned_by(mut self, pasid: u32, is_privileged: bool) -> Descriptor {
        let within = pasid.min(1 << 20); // bit 20 is reserved: a larger number is refused
        let word = within | u32::from(is_privileged) << 31;
        self.0[..4].copy_from_slice(&word.to_le_bytes());
        self
    }
}

/// The bytes of a list of these operations.
#[must_use]
pub fn list_of(operations: &[Descriptor]) -> Vec<u8> {
    operations.iter().flat_map(|operation| operation.0).collect()
}

/// What one entry of the portal submits: a batch, or a descriptor by itself.
#[derive(Clone, Debug, PartialEq, Eq)]
pub struct Group {
    /// The indices of its pieces.
    pub pieces: Range<usize>,
    /// Those of its pieces that begin after a fence.
    pub fenced: Vec<usize>,
}

/// The groups of a plan, by the marks of its pieces. The first piece begins a group, whatever its mark.
#[must_use]
pub fn groups_of(marks: &[u8]) -> Vec<Group> {
    let mut groups: Vec<Group> = Vec::new();
    for (k, mark) in marks.iter().enumerate() {
        if k == 0 || mark & BEGINS != 0 {
            let (pieces, fenced) = (k..k, Vec::new());
            groups.push(Group { pieces, fenced });
        }
        if let Some(group) = groups.last_mut() {
            group.pieces.end = k + 1;
            if mark & FENCED != 0 {
                group.fenced.push(k);
            }
        }
    }
    groups
}
