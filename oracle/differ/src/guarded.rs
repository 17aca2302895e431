//! A slice with bytes on both sides that no call may change.

const GUARD: usize = 32;

#[derive(Clone, PartialEq)]
pub struct Guarded {
    bytes: Vec<u8>,
    start: usize,
    len: usize,
}

/// What the byte at a place holds until it is written.
const fn pattern(at: usize) -> u8 {
    (at as u8).wrapping_mul(7) ^ 0x5A
}

impl Guarded {
    /// `len` bytes of the pattern. `shift` moves the slice off alignment.
    pub fn new(len: usize, shift: usize) -> Self {
        let start = GUARD + shift % 4;
        Self {
            bytes: (0..start + len + GUARD).map(pattern).collect(),
            start,
            len,
        }
    }

    pub fn holding(bytes: &[u8], shift: usize) -> Self {
        let mut guarded = Self::new(bytes.len(), shift);
        guarded.slice_mut().copy_from_slice(bytes);
        guarded
    }

    pub fn slice(&self) -> &[u8] {
        &self.bytes[self.start..self.start + self.len]
    }

    pub fn slice_mut(&mut self) -> &mut [u8] {
        &mut self.bytes[self.start..self.start + self.len]
    }

    /// Whether the bytes on both sides are as they were.
    pub fn kept(&self) -> bool {
        let end = self.start + self.len;
        let around = (0..self.start).chain(end..self.bytes.len());
        around.fold(true, |kept, at| kept & (self.bytes[at] == pattern(at)))
    }
}
