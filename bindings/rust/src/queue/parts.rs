//! The bytes of a list: which it owns, and parts of them that operations name.

use std::mem::ManuallyDrop;
use std::ops::Range;
use std::vec::Vec;

/// Bytes that a list owns: [`List::own`](super::List::own) takes them, and gives this handle. It is of that list alone.
#[derive(Clone, Copy, Debug, PartialEq, Eq, Hash)]
pub struct Buffer {
    pub(super) index: usize,
    pub(super) len: usize,
}

impl Buffer {
    /// Some bytes of the buffer. An operation refuses a range that the buffer does not have.
    #[must_use]
    pub fn part(self, range: Range<usize>) -> Part {
        let Range { start, end } = range;
        Part {
            index: self.index,
            first: start,
            end,
        }
    }
}

/// Bytes of a buffer that an operation names: [`Buffer::part`], or a whole [`Buffer`].
#[derive(Clone, Copy, Debug, PartialEq, Eq, Hash)]
pub struct Part {
    index: usize,
    first: usize,
    end: usize,
}

impl From<Buffer> for Part {
    fn from(buffer: Buffer) -> Part {
        buffer.part(0..buffer.len)
    }
}

/// The buffers of a list. They are given back or leaked, and not freed by themselves: only the list knows whether the
/// device may still use them. No reference to their bytes is made while it may.
#[derive(Default)]
pub(super) struct Buffers(Vec<ManuallyDrop<Vec<u8>>>);

impl Buffers {
    pub fn add(&mut self, bytes: Vec<u8>) -> Buffer {
        let (index, len) = (self.0.len(), bytes.len());
        self.0.push(ManuallyDrop::new(bytes));
        Buffer { index, len }
    }

    pub fn get(&self, buffer: Buffer) -> Option<&[u8]> {
        self.0.get(buffer.index).map(|bytes| &bytes[..])
    }

    pub fn get_mut(&mut self, buffer: Buffer) -> Option<&mut [u8]> {
        self.0.get_mut(buffer.index).map(|bytes| &mut bytes[..])
    }

    /// The address of a part and its length; none if the buffers don't have it.
    pub fn place(&mut self, part: Part) -> Option<(u64, u64)> {
        let bytes = self.0.get_mut(part.index)?;
        if part.first > part.end || part.end > bytes.len() {
            return None;
        }
        let address = bytes.as_mut_ptr() as usize + part.first;
        Some((address as u64, (part.end - part.first) as u64))
    }

    /// Gives all bytes back, in the order in which they came.
    pub fn take(&mut self) -> Vec<Vec<u8>> {
        let all = std::mem::take(&mut self.0);
        all.into_iter().map(ManuallyDrop::into_inner).collect()
    }

    /// Keeps all bytes where they are for as long as the process lives.
    pub fn leak(&mut self) {
        self.0.clear(); // drops no vector
    }
}
