//! Lists that are planned once and submitted on any buffers.

use alloc::vec;
use alloc::vec::Vec;

use crate::{answer, count_pieces, raw, Refusal, Settings, MOST_PIECES};

/// A buffer with which a list was made.
#[repr(C)]
#[derive(Clone, Copy, Debug, PartialEq, Eq, Hash)]
pub struct Region {
    /// Its first address.
    pub first: u64,
    /// Its length in bytes.
    pub len: u64,
}

/// A row of a prepared list; `docs/FORMATS.md` has the layout of all rows.
#[repr(C)]
#[derive(Clone, Copy, Debug, Default, PartialEq, Eq, Hash)]
pub struct Row {
    /// Ten numbers.
    pub words: [u64; 10],
}

/// A planned list that [`Prepared::fill`] writes for other buffers, without planning it anew. It is an array of rows
/// without pointers, which threads can share.
///
/// ```
/// use dsa_planner::{prepare, plan_list, BatchPrice, Region, Settings};
///
/// # let mut list = [0u8; 64];
/// # (list[4], list[7], list[9], list[17], list[25], list[32]) = (0x0c, 0x03, 0x80, 0x10, 0x20, 64);
/// // `list` has one move of 64 bytes from 0x1000 to 0x2000, with its completion record at 0x8000
/// let (lone, batch, fence) = (10, BatchPrice::Flat(14), 3);
/// let settings = Settings { greatest_batch: 4, greatest_transfer: 4096, lone, batch, fence, staging: 0x10000 };
/// let regions = [(0x1000, 64), (0x2000, 64), (0x8000, 32)].map(|(first, len)| Region { first, len });
/// let prepared = prepare(&settings, &list, &regions)?;
///
/// let (mut portal, mut staging) = (vec![0; prepared.portal_len()], vec![0; prepared.staging_len()]);
/// prepared.fill(&[0x5000, 0x6000, 0x7000], 0x10000, &mut portal, &mut staging)?;
/// (list[9], list[17], list[25]) = (0x70, 0x50, 0x60);
/// assert_eq!(portal, plan_list(&settings, &list)?.portal);
/// # Ok::<(), dsa_planner::Refusal>(())
/// ```
#[derive(Clone, Debug, PartialEq, Eq)]
pub struct Prepared {
    rows: Vec<Row>,
}

/// Plans a list once, for buffers at any addresses: 64 bytes for each operation, in their order, of which
/// [`plan_list`](crate::plan_list) says what is promised; [`Prepared::fill`] keeps its barriers. The regions are the
/// buffers at whose addresses the list was made, in the order of their addresses; each range of each operation, a seed
/// in memory among them, and the row of its pieces' completion records, lies in one of them.
///
/// # Errors
/// What [`plan_list`](crate::plan_list) refuses; then [`Cause::RegionWrap`](crate::Cause::RegionWrap), `RegionOrder`
/// and `Outside`.
pub fn prepare(settings: &Settings, list: &[u8], regions: &[Region]) -> Result<Prepared, Refusal> {
    let (raw, table) = settings.raw();
    let pieces = usize::try_from(count_pieces(settings, list)).map_or(0, |n| n.min(MOST_PIECES));
    let mut rows = vec![Row::default(); 1 + regions.len() + 3 * pieces];
    let (mut info, mut refusal) = (raw::Info::default(), raw::Refusal::default());
    // SAFETY: each pointer and length are those of one slice, or of one struct, and no output overlaps another argument.
    let code = unsafe {
        raw::dsa_prepare(
            &raw,
            table.as_ptr(),
            table.len(),
            list.as_ptr(),
            list.len(),
            regions.as_ptr(),
            regions.len(),
            rows.as_mut_ptr(),
            rows.len(),
            &mut info,
            &mut refusal,
        )
    };
    let info = answer(code, info, refusal)?;
    rows.truncate(info.rows as usize);
    Ok(Prepared { rows })
}

impl Prepared {
    /// The list of these rows, which another one's [`as_rows`](Prepared::as_rows) were. [`fill`](Prepared::fill) refuses
    /// rows that do not have the form of a prepared list. Rows that were damaged and keep it are filled, and may name any
    /// address: rows from a file want a checksum.
    #[must_use]
    pub fn from_rows(rows: Vec<Row>) -> Prepared {
        Prepared { rows }
    }

    /// Its rows, to keep or to share.
    #[must_use]
    pub fn as_rows(&self) -> &[Row] {
        &self.rows
    }

    // The header's word of this number.
    fn header(&self, word: usize) -> usize {
        self.rows
            .first()
            .map_or(0, |row| row.words[word].min(MOST_PIECES as u64) as usize)
    }

    /// The bytes that [`fill`](Prepared::fill) writes to the portal.
    #[must_use]
    pub fn portal_len(&self) -> usize {
        64 * self.header(3)
    }

    /// The bytes that [`fill`](Prepared::fill) writes to the staging area.
    #[must_use]
    pub fn staging_len(&self) -> usize {
        64 * self.header(4) + 32 * self.header(5)
    }

    /// Writes what submits the list if its regions begin at these bases, one for each in their order, and the staging
    /// area is at this address: to the front of `portal` and of `area` the bytes that planning the list at its new addresses
    /// answers. Nothing is allocated.
    ///
    /// # Errors
    /// The first of [`Cause::NotPrepared`](crate::Cause::NotPrepared), `Bases`, `Room`, `BaseWrap`, `Misaligned`,
    /// `BaseDualcastBits`, `RegionsMeet`, `BaseStagingMeets` and `Staging`. The buffers are then as before.
    pub fn fill(
        &self,
        bases: &[u64],
        staging: u64,
        portal: &mut [u8],
        area: &mut [u8],
    ) -> Result<(), Refusal> {
        let mut refusal = raw::Refusal::default();
        // SAFETY: each pointer and length are those of one slice, and no output overlaps another argument.
        let code = unsafe {
            raw::dsa_fill(
                self.rows.as_ptr(),
                self.rows.len(),
                bases.as_ptr(),
                bases.len(),
                staging,
                portal.as_mut_ptr(),
                portal.len(),
                area.as_mut_ptr(),
                area.len(),
                &mut refusal,
            )
        };
        answer(code, (), refusal)
    }
}
