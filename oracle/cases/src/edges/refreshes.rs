//! Refreshes: every set of bits, every count, every mask, and each refusal alone and before the others.

use super::states::{SMOKE_MASK, smoke};
use crate::call::{Call, Length, Name};
use crate::damage::{Damage, Patch};
use crate::floats::ONE;
use crate::image;
use crate::key::Key;
use crate::keys::SET;
use crate::lengths::wrong_lengths;
use crate::section::{EIGHT, MIRROR, ROW};
use crate::states::{
    enable, mark, refresh, set_light, set_material, set_texture_mask, set_transform, set_value,
};

/// Lit with specular, in fog, and two matrices.
const KEY: Key = Key::of([0, 1, 1, 0, 0, 0, 3, 2]);

pub fn lists() -> Vec<Vec<Call>> {
    let mut lists = vec![masks(), counts(), frames(), first_refresh()];
    lists.extend(SETS.map(|(key, own_mask)| bits(smoke(), key, own_mask)));
    lists.extend([true, false].map(refusals));
    lists
}

/// Bytes over the whole mirror, NaNs of every pattern among them; `of` makes them others.
fn whole_mirror(of: u32) -> Vec<Patch> {
    let words = (0..MIRROR as u32 / 4).map(|at| match at % 5 {
        0 => 0x7F80_0001 + at + of,
        1 => 0xFFC0_0000 + at + of,
        2 => 0x7FC0_0000,
        3 => 0x8000_0000,
        _ => at.wrapping_mul(0x9E37_79B9) ^ of,
    });
    vec![(0, words.flat_map(u32::to_le_bytes).collect())]
}

/// Sets of flags, a mask of 0 or the state's own, and counts.
const SETS: [(Key, Option<u8>); 5] = [
    (Key::of([0; 8]), None),
    (Key::of([0, 0, 255, 0, 0, 0, 1, 1]), Some(0)),
    (Key::of([0, 2, 0, 1, 0, 0, 255, 1]), Some(0)),
    (Key::of([0, 128, 4, 0, 0, 0, 0, 41]), Some(0)),
    (Key::of([0, 1, 1, 1, 0, 0, 2, 0]), None),
];

/// Every set of bits, on a mirror that is all overwritten before; `calls` make the state.
pub fn bits(mut calls: Vec<Call>, key: Key, own_mask: Option<u8>) -> Vec<Call> {
    for bits in 0..256 {
        calls.push(Call::plain(Name::TakeFfVsDirty));
        calls.push(mark(bits));
        let refresh = Call {
            own_mask,
            ..Call::keyed(Name::Refresh, key)
        };
        calls.push(Call {
            overwrite: whole_mirror(bits),
            ..refresh.clone()
        });
        // No bits are left.
        calls.push(refresh);
    }
    calls
}

/// Every mask on lights that light, with LIGHTS dirty and without.
fn masks() -> Vec<Call> {
    let mut calls = smoke();
    for light_active_mask in 0..=255 {
        let refresh = Call::keyed(
            Name::Refresh,
            Key {
                light_active_mask,
                ..KEY
            },
        );
        calls.extend([mark(8), refresh.clone(), refresh]);
    }
    calls
}

/// Every count, indexed or not; all are marked before, so that each is counted.
fn counts() -> Vec<Call> {
    let mut calls = smoke();
    for vertex_blend_count in 0..=255 {
        for vertex_blend_indexed in [0, SET[usize::from(vertex_blend_count) % 4]] {
            calls.push(mark(255));
            calls.push(refresh(Key {
                vertex_blend_count,
                vertex_blend_indexed,
                ..KEY
            }));
        }
    }
    calls
}

/// Each change alone between two refreshes, each row of a section overwritten and marked, rows of no section
/// overwritten.
fn frames() -> Vec<Call> {
    let m = core::array::from_fn(|i| (i as f32 * 0.5 - 1.0).to_bits());
    let mut light = core::array::from_fn(|i| (i as f32 * 0.25).to_bits());
    light[0] = 2;
    let mut calls = smoke();
    calls.push(refresh(KEY));
    let states = [2, 3, 16, 18, 19, 256, 257, 258].map(|state| set_transform(state, &m));
    let others = [
        set_material((0..17).flat_map(|i| (i as f32).to_le_bytes()).collect()),
        set_light(7, &light),
        enable(4, 0),
        set_value(Name::SetFogStart, ONE),
        set_value(Name::SetFogEnd, ONE),
        set_value(Name::SetFogDensity, ONE),
        set_value(Name::SetAmbient, 0x1234_5678),
        set_texture_mask(0x80),
        set_texture_mask(SMOKE_MASK),
    ];
    for change in states.into_iter().chain(others) {
        calls.extend([change, refresh(KEY), refresh(KEY)]);
    }
    for section in EIGHT {
        let place = section.place(KEY, SMOKE_MASK);
        for at in [place.start, place.end.max(ROW) - ROW, place.end] {
            let overwritten = Call {
                overwrite: vec![(at, vec![0xFF; ROW])],
                ..refresh(KEY)
            };
            calls.push(overwritten.clone());
            calls.push(refresh(KEY));
            calls.push(mark(u32::from(section.bit())));
            calls.push(overwritten);
            calls.push(mark(u32::from(section.bit())));
            calls.push(refresh(KEY));
        }
    }
    calls
}

/// A mirror of any bytes before the first refresh, from a fresh state on.
fn first_refresh() -> Vec<Call> {
    let mut calls = Vec::new();
    for (of, (key, _)) in (0..).zip(SETS) {
        calls.push(Call {
            overwrite: whole_mirror(of),
            ..Call::plain(Name::ImageFresh)
        });
        calls.push(refresh(key));
    }
    calls
}

/// Each set of no image, a wrong length, transformed vertices and another mask, with LIGHTS dirty or all clean.
fn refusals(dirty: bool) -> Vec<Call> {
    let mut calls = smoke();
    if !dirty {
        calls.push(refresh(KEY));
    }
    let lengths = wrong_lengths(MIRROR).into_iter().map(Length::Bytes);
    let damages = [Damage::bytes(image::ZERO, &[1]), Damage::length(0)];
    for lent in lengths.chain([Length::Right]) {
        for damage in [None].into_iter().chain(damages.clone().map(Some)) {
            for has_rhw in [0, 1, 128] {
                for own_mask in [Some(1), Some(2), None] {
                    let right = lent == Length::Right && damage.is_none() && has_rhw == 0;
                    if right && own_mask.is_none() {
                        continue;
                    }
                    let mut call = Call::keyed(Name::Refresh, Key { has_rhw, ..KEY });
                    call.own_mask = own_mask;
                    call.lent = lent;
                    call.damage = damage.clone();
                    calls.push(call);
                }
            }
        }
    }
    // The bits are still there, and then they are taken.
    calls.extend([refresh(KEY), Call::plain(Name::TakeFfVsDirty)]);
    calls
}
