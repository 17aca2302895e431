//! The dirty bits, the Rust's by name.

use original::ff_state::FfVsDirty;

use super::Model;

/// The papers' eight bits and the Rust's, by name.
const DIRTY: [(u8, FfVsDirty); 8] = [
    (1, FfVsDirty::WV),
    (2, FfVsDirty::PROJ),
    (4, FfVsDirty::MATERIAL),
    (8, FfVsDirty::LIGHTS),
    (16, FfVsDirty::PALETTE),
    (32, FfVsDirty::TT),
    (64, FfVsDirty::FOG),
    (128, FfVsDirty::AMBIENT),
];

impl Model {
    pub(super) fn mark(&mut self, bits: u8) {
        for (bit, name) in DIRTY {
            if bits & bit != 0 {
                self.rust.mark_ff_vs_dirty(name);
            }
        }
    }

    pub(super) fn take(&mut self) -> u8 {
        named(self.rust.take_ff_vs_dirty())
    }

    /// The Rust has no read of its bits that leaves them: they are taken and marked again.
    pub(super) fn dirty(&mut self) -> u8 {
        let bits = self.rust.take_ff_vs_dirty();
        self.rust.mark_ff_vs_dirty(bits);
        named(bits)
    }
}

/// The papers' values of the Rust's bits.
fn named(bits: FfVsDirty) -> u8 {
    DIRTY
        .iter()
        .filter(|(_, name)| bits.contains(*name))
        .map(|(bit, _)| bit)
        .sum()
}
