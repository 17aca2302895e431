//! States that are the same for every seed.

use super::previews::nine;
use crate::call::{Call, LIGHT, Name};
use crate::floats::{LARGEST, NAN, ONE, SIGN};
use crate::states::{
    LONG, SHORT, directed, enable, set_light, set_material, set_texture_mask, set_transform,
    set_value,
};

/// The calls that make each of them.
#[must_use]
pub fn states() -> Vec<Vec<Call>> {
    vec![
        kinds_of_lights(),
        smoke(),
        directions(),
        vec![enable(0, 1), enable(5, 1), enable(70, 1)],
        nine(),
    ]
}

/// The texture mask of the state below: the second stage's bit is clear.
pub const SMOKE_MASK: u8 = 5;

/// The lights below, and fog, an ambient colour, eight texture matrices and a texture mask, no number twice.
#[must_use]
pub fn smoke() -> Vec<Call> {
    let mut calls = kinds_of_lights();
    for (name, float) in [
        (Name::SetFogStart, 1.5f32),
        (Name::SetFogEnd, 2.5),
        (Name::SetFogDensity, -3.5),
    ] {
        calls.push(set_value(name, float.to_bits()));
    }
    calls.push(set_value(Name::SetAmbient, 0xFF80_4020));
    for stage in 0..8 {
        let m = core::array::from_fn(|i| ((100 + 16 * stage + i as u32) as f32).to_bits());
        calls.push(set_transform(16 + stage, &m));
    }
    calls.push(set_texture_mask(SMOKE_MASK));
    calls
}

/// Document 01's run-only case on each axis; others of which document 02 (T-04) says another thing than the Rust; one of zeros,
/// and one of 0,0,2.
fn directions() -> Vec<Call> {
    let axes = [
        [LONG, 0, 0],
        [0, LONG | SIGN, 0],
        [0, 0, LONG],
        [0, 0, 1],
        [LONG, SHORT, 0],
        [1, SIGN, LARGEST],
        [0, SIGN, 0],
        [0, 0, 0x4000_0000],
    ];
    let lights = axes.into_iter().zip(0..);
    lights
        .flat_map(|(axis, index)| [set_light(index, &directed(3, axis)), enable(index, 1)])
        .collect()
}

/// Types 0 to 5, each field another number, in slots and from index 8 on, the higher index first; a spot whose angles
/// are 0, and NaNs; a moved world.
#[must_use]
pub fn kinds_of_lights() -> Vec<Call> {
    let mut moved = [0; 16];
    for i in 0..4 {
        moved[5 * i] = ONE;
    }
    for (entry, to) in moved[12..15].iter_mut().zip([5f32, 6.0, 7.0]) {
        *entry = to.to_bits();
    }
    let mut calls = vec![
        set_transform(256, &moved),
        set_transform(2, &moved),
        set_material((1..=17).flat_map(|i| (i as f32).to_le_bytes()).collect()),
    ];
    for (type_, index) in (0..6).zip([3, 0, 70, 9, 1, 2]) {
        let mut light: [u32; LIGHT / 4] = core::array::from_fn(|i| (i as f32).to_bits());
        light[0] = type_;
        calls.push(set_light(index, &light));
        calls.push(enable(index, 1));
    }
    let mut bare = directed(2, [0, 0, NAN]);
    bare[20] = NAN;
    calls.push(set_light(7, &bare));
    calls.push(enable(7, 1));
    calls
}
