//! Each word of an image damaged in turn, under ff_image_check.

use super::patched;
use crate::call::{Call, LIGHT, MATERIAL, MATRIX, Name};
use crate::damage::Damage;
use crate::floats::{NAN, SIGN};
use crate::image::{self, BYTES, ROOM, SLOTS};
use crate::states::{enable, set_light, set_material, set_texture_mask, set_transform, set_value};
use crate::world::World;

/// Two other NaNs, and a zero of the other sign.
const WORDS: [u32; 3] = [NAN | 1, NAN | SIGN, SIGN];
/// Damaged words of a list.
const LENGTH: usize = 500;

/// One in `step` of the words of a fresh image and of a full one, with each of `WORDS`.
pub fn lists(step: usize) -> Vec<Vec<Call>> {
    let images = [&[][..], &everything()].map(|calls| World::after(calls).image().to_vec());
    let words: Vec<(usize, u32)> = (0..BYTES)
        .step_by(4)
        .flat_map(|at| WORDS.map(|word| (at, word)))
        .step_by(step)
        .collect();
    let lists = images.iter().flat_map(|image| {
        let chunks = words.chunks(LENGTH);
        chunks.map(|words| damaged(image, words))
    });
    lists.collect()
}

/// The image is read in, then it is damaged.
fn damaged(image: &[u8], words: &[(usize, u32)]) -> Vec<Call> {
    let check = Call::plain(Name::ImageCheck);
    let mut calls = vec![Call {
        damage: Some(Damage::bytes(0, image)),
        ..check.clone()
    }];
    let words = words
        .iter()
        .map(|(at, word)| (*at, word.to_le_bytes().to_vec()));
    calls.extend(patched(image, &check, words));
    calls
}

/// Every matrix, the material, every slot and every entry, and the tail, no float of them 0 or NaN.
fn everything() -> Vec<Call> {
    fn floats<const N: usize>(of: u32) -> [u32; N] {
        core::array::from_fn(|i| ((of + 1 + i as u32) as f32).to_bits())
    }
    let mut calls = Vec::new();
    for state in (0..512).filter(|&state| image::place(state).is_some()) {
        calls.push(set_transform(state, &floats::<{ MATRIX / 4 }>(state)));
    }
    let material = floats::<{ MATERIAL / 4 }>(0);
    calls.push(set_material(
        material
            .iter()
            .flat_map(|word| word.to_le_bytes())
            .collect(),
    ));
    for index in 0..(SLOTS + ROOM) as u32 {
        let mut light = floats::<{ LIGHT / 4 }>(index);
        light[0] = 1 + index % 3;
        calls.push(set_light(3 * index % 8 + 8 * (index / 8), &light));
        calls.push(enable(3 * index % 8 + 8 * (index / 8), 1));
    }
    for (name, of) in [
        (Name::SetFogStart, 0),
        (Name::SetFogEnd, 1),
        (Name::SetFogDensity, 2),
        (Name::SetAmbient, 3),
    ] {
        calls.push(set_value(name, floats::<1>(of)[0]));
    }
    calls.push(set_texture_mask(0x85));
    calls
}
