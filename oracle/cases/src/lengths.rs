//! Lengths of slices other than the right one.

use crate::call::{LIGHT, MATERIAL, MATRIX};
use crate::random::Random;
use crate::section::{MIRROR, ROW};

/// Those around the right one, other items' and sections', and some that are the right one once they are cut to a byte
/// or to two.
#[must_use]
pub fn wrong_lengths(right: usize) -> Vec<usize> {
    let mut lengths = vec![
        0,
        1,
        4,
        ROW,
        6 * ROW,
        right.saturating_sub(1),
        right.saturating_sub(4),
        right.saturating_sub(ROW),
        right.saturating_sub(6 * ROW),
        right / 2,
        right / 4,
        right + 1,
        right + 4,
        right + ROW,
        right + 4 * ROW,
        right + 6 * ROW,
        2 * right,
        right + 256,
        right + 65_536,
        MATRIX,
        MATERIAL,
        LIGHT,
        8 * 4 * ROW,
        40 * 4 * ROW,
        41 * 4 * ROW,
        MIRROR,
    ];
    lengths.retain(|&length| length != right);
    lengths.sort_unstable();
    lengths.dedup();
    lengths
}

pub fn wrong_length(random: &mut Random, right: usize) -> usize {
    if random.chance(8) {
        random.below(2000) as usize
    } else {
        random.pick(&wrong_lengths(right))
    }
}
