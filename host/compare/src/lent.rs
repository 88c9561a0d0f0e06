//! Slices to lend to a call, with bytes around them that nobody may change.

use std::hint::black_box;

/// The bytes watched on each side of a lent slice, at the least.
const AROUND: usize = 32;

/// A slice to lend.
pub struct Lent {
    bytes: Vec<u8>,
    start: usize,
}

/// What a lent slice has become.
pub struct Back {
    /// Its bytes.
    pub bytes: Vec<u8>,
    /// Whether those around it are as they were.
    pub around_kept: bool,
}

impl Lent {
    /// Lends a copy of these bytes, so many further from where they would be aligned.
    pub fn copy(bytes: &[u8], further: usize) -> Self {
        let mut lent = Lent::pattern(bytes.len(), further);
        lent.slice().copy_from_slice(bytes);
        lent
    }

    /// Lends so many bytes of a pattern without zeros, so many further from where they would be aligned.
    pub fn pattern(length: usize, further: usize) -> Self {
        let start = AROUND + further;
        Lent { bytes: (0..start + length + AROUND).map(pattern).collect(), start }
    }

    /// The slice.
    pub fn slice(&mut self) -> &mut [u8] {
        let end = self.bytes.len() - AROUND;
        &mut self.bytes[self.start..end]
    }

    /// What it has become.
    pub fn back(self) -> Back {
        let mut bytes = black_box(self.bytes);
        let end = bytes.len() - AROUND;
        let kept = |(k, byte): (usize, &u8)| *byte == pattern(k);
        let before = bytes.iter().enumerate().take(self.start).all(kept);
        let after = bytes.iter().enumerate().skip(end).all(kept);
        bytes.truncate(end);
        bytes.drain(..self.start);
        Back { bytes, around_kept: before && after }
    }
}

/// Byte k of the pattern: never 0, and other than its neighbours.
fn pattern(k: usize) -> u8 {
    0x80 | (k % 127) as u8
}
