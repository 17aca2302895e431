//! Bytes put in place of others: what makes an image none, or another one; what overwrites a mirror.

use std::fmt;

/// What a byte past the old end holds where an image grows.
const GROWN: u8 = 0;

/// Where bytes go, and the bytes; what falls past the end is dropped.
pub type Patch = (usize, Vec<u8>);

#[derive(Clone, Debug, Default, PartialEq, Eq)]
pub struct Damage {
    /// In order.
    pub patches: Vec<Patch>,
    /// The length afterwards, where it is another.
    pub length: Option<usize>,
}

impl Damage {
    #[must_use]
    pub fn length(length: usize) -> Self {
        Self {
            patches: Vec::new(),
            length: Some(length),
        }
    }

    #[must_use]
    pub fn bytes(at: usize, bytes: &[u8]) -> Self {
        Self {
            patches: vec![(at, bytes.to_vec())],
            length: None,
        }
    }

    #[must_use]
    pub fn word(at: usize, word: u32) -> Self {
        Self::bytes(at, &word.to_le_bytes())
    }

    pub fn and(mut self, other: Self) -> Self {
        self.patches.extend(other.patches);
        self.length = other.length.or(self.length);
        self
    }

    pub fn apply(&self, image: &mut Vec<u8>) {
        patch(&self.patches, image);
        if let Some(length) = self.length {
            image.resize(length, GROWN);
        }
    }
}

pub fn patch(patches: &[Patch], bytes: &mut [u8]) {
    for (at, put) in patches {
        let room = bytes.len().saturating_sub(*at).min(put.len());
        if room != 0 {
            bytes[*at..*at + room].copy_from_slice(&put[..room]);
        }
    }
}

/// A line for each patch.
pub(crate) fn tell(f: &mut fmt::Formatter<'_>, what: &str, patches: &[Patch]) -> fmt::Result {
    for (at, bytes) in patches {
        write!(f, "{what} {at:08x} ")?;
        for byte in bytes {
            write!(f, "{byte:02x}")?;
        }
        writeln!(f)?;
    }
    Ok(())
}

impl fmt::Display for Damage {
    fn fmt(&self, f: &mut fmt::Formatter<'_>) -> fmt::Result {
        tell(f, "patch", &self.patches)?;
        if let Some(length) = self.length {
            writeln!(f, "length {length:08x}")?;
        }
        Ok(())
    }
}
