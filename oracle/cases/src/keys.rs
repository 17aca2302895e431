//! Keys, made from a seed.

use crate::key::Key;
use crate::random::Random;

/// Numbers by which a flag is set.
pub const SET: [u8; 4] = [1, 2, 128, 255];

fn flag(random: &mut Random) -> u8 {
    match random.below(8) {
        0..3 => 0,
        3..6 => 1,
        6 => random.pick(&[2, 4, 16, 128, 254, 255]),
        _ => random.below(256) as u8,
    }
}

/// Palettes of many matrices are dear, so that they are seldom.
fn count(random: &mut Random) -> u8 {
    match random.below(12) {
        0..4 => 0,
        4..10 => 1 + random.below(4) as u8,
        10 => random.pick(&[5, 38, 39, 40, 41, 64, 128, 253, 254, 255]),
        _ => random.below(256) as u8,
    }
}

pub fn fog(random: &mut Random) -> u8 {
    random.pick(&[0, 0, 1, 2, 3, 4, 255])
}

/// A key whose mask is 0.
pub fn unmasked(random: &mut Random) -> Key {
    Key {
        has_rhw: flag(random),
        lighting_enabled: flag(random),
        specular_enable: flag(random),
        vertex_blend_indexed: if random.chance(4) { flag(random) } else { 0 },
        preview: flag(random),
        light_active_mask: 0,
        fog_mode: fog(random),
        vertex_blend_count: count(random),
    }
}

/// A mask, and whether it is the state's own without some bits: mostly without any.
pub fn mask(random: &mut Random) -> (u8, Option<u8>) {
    match random.below(16) {
        0 => (0, None),
        1 => (0xFF >> random.below(8), None),
        2 => (random.below(256) as u8, None),
        // Another mask of as many rows.
        3 => (0, Some(1 << random.below(8))),
        _ => (0, Some(0)),
    }
}
