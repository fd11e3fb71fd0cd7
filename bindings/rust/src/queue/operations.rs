//! The operations that a list can have on bytes of its own.

use std::convert::TryFrom;
use std::format;

use super::parts::Part;
use super::{Error, List};
use crate::Descriptor;

impl List {
    /// Adds what `of` makes of the addresses of parts that all have one size.
    fn add_parts<const N: usize>(
        &mut self,
        parts: [Part; N],
        of: impl FnOnce([u64; N], u32) -> Descriptor,
    ) -> Result<usize, Error> {
        self.settle();
        let (mut addresses, mut size) = ([0; N], None);
        for (address, part) in addresses.iter_mut().zip(parts) {
            let (first, len) = self.place(part)?;
            *address = first;
            if *size.get_or_insert(len) != len {
                let sizes = (size.unwrap_or(0), len);
                return Err(Error::Refused(format!(
                    "one part has {} bytes, and another {}; give them one size",
                    sizes.0, sizes.1
                )));
            }
        }
        let size = size.unwrap_or(0);
        // SAFETY: all bytes are this list's, which keeps them until it has ended, or for ever.
        unsafe { self.add(&of(addresses, size as u32), size) }
    }

    fn place(&mut self, part: Part) -> Result<(u64, u64), Error> {
        let place = self.buffers.place(part);
        place.ok_or_else(|| Error::Refused("the list owns no such part".into()))
    }

    /// Moves bytes. The two parts may overlap if the device can do that.
    ///
    /// # Errors
    /// The list can't have it: parts that it does not own, or of several sizes, or too many pieces.
    pub fn memory_move(
        &mut self,
        source: impl Into<Part>,
        target: impl Into<Part>,
    ) -> Result<usize, Error> {
        self.add_parts([source.into(), target.into()], |[source, target], size| {
            Descriptor::memory_move(source, target, size, 0)
        })
    }

    /// Fills a part with the 8 bytes of the pattern, the lowest first, over and over.
    ///
    /// # Errors
    /// As of [`List::memory_move`].
    pub fn fill(&mut self, target: impl Into<Part>, pattern: u64) -> Result<usize, Error> {
        self.add_parts([target.into()], |[target], size| {
            Descriptor::fill(target, size, pattern, 0)
        })
    }

    /// Compares two parts: [`Outcome::difference`].
    ///
    /// # Errors
    /// As of [`List::memory_move`].
    pub fn compare(
        &mut self,
        first: impl Into<Part>,
        second: impl Into<Part>,
    ) -> Result<usize, Error> {
        self.add_parts([first.into(), second.into()], |[first, second], size| {
            Descriptor::compare(first, second, size, 0)
        })
    }

    /// Compares a part with the 8 bytes of the pattern, over and over.
    ///
    /// # Errors
    /// As of [`List::memory_move`].
    pub fn compare_pattern(
        &mut self,
        source: impl Into<Part>,
        pattern: u64,
    ) -> Result<usize, Error> {
        self.add_parts([source.into()], |[source], size| {
            Descriptor::compare_pattern(source, size, pattern, 0)
        })
    }

    /// Moves bytes to two places, whose addresses have equal low 12 bits.
    ///
    /// # Errors
    /// As of [`List::memory_move`].
    pub fn dualcast(
        &mut self,
        source: impl Into<Part>,
        first: impl Into<Part>,
        second: impl Into<Part>,
    ) -> Result<usize, Error> {
        let parts = [source.into(), first.into(), second.into()];
        self.add_parts(parts, |[source, first, second], size| {
            Descriptor::dualcast(source, first, second, size, 0)
        })
    }

    /// The checksum (CRC-32C) of a part, [`Outcome::checksum`]: as one checksum of what `seed` is that of and of the
    /// part; 0 for that of the part alone. A list with a checksum is planned as it is, so none of its operations may be
    /// longer than the queue's greatest transfer.
    ///
    /// # Errors
    /// As of [`List::memory_move`].
    pub fn crc(&mut self, source: impl Into<Part>, seed: u32) -> Result<usize, Error> {
        self.add_parts([source.into()], |[source], size| {
            Descriptor::crc(source, size, seed, 0)
        })
    }

    /// The same, and the part is moved to `target`, which may not meet it.
    ///
    /// # Errors
    /// As of [`List::memory_move`].
    pub fn copy_crc(
        &mut self,
        source: impl Into<Part>,
        target: impl Into<Part>,
        seed: u32,
    ) -> Result<usize, Error> {
        self.add_parts([source.into(), target.into()], |[source, target], size| {
            Descriptor::copy_crc(source, target, size, seed, 0)
        })
    }

    /// Applies a delta record, which has a size of its own, to a part.
    ///
    /// # Errors
    /// As of [`List::memory_move`].
    pub fn apply_delta(
        &mut self,
        delta: impl Into<Part>,
        target: impl Into<Part>,
    ) -> Result<usize, Error> {
        self.settle();
        let (delta, delta_len) = self.place(delta.into())?;
        let delta_size = u32::try_from(delta_len)
            .map_err(|_| Error::Refused(format!("a delta of {delta_len} bytes is too long")))?;
        self.add_parts([target.into()], |[target], size| {
            Descriptor::apply_delta(delta, delta_size, target, size, 0)
        })
    }

    /// The two parts have to be equal, else the list fails and nothing that is added later is begun: a compare that
    /// checks its result, and a barrier after it.
    ///
    /// # Errors
    /// As of [`List::memory_move`].
    pub fn check(
        &mut self,
        first: impl Into<Part>,
        second: impl Into<Part>,
    ) -> Result<usize, Error> {
        let parts = [first.into(), second.into()];
        let number = self.add_parts(parts, |[first, second], size| {
            Descriptor::compare(first, second, size, 0).expecting(false)
        })?;
        self.barrier();
        Ok(number)
    }
}
