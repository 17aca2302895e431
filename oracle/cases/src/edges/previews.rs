//! Document 02, T-01: packs and refreshes for a preview, on states with fewer lights than its four, as many, and more.

use super::refreshes::bits;
use crate::call::{Call, LIGHT, Length, Name};
use crate::key::Key;
use crate::lengths::wrong_lengths;
use crate::section::{MIRROR, ROW};
use crate::states::{enable, mark, refresh, set_light, set_transform};

/// How many lights light.
const COUNTS: [usize; 5] = [3, 4, 5, 8, 9];
/// Where they stand: the slots and one more; in the first four two slots and two others.
const INDICES: [[u32; 9]; 2] = [
    [0, 1, 2, 3, 4, 5, 6, 7, 8],
    [2, 5, 9, 70, 71, 300, 65_536, 65_544, u32::MAX],
];
/// Stored too, where they are not among them: each is off, or of a type that lights nothing.
const OTHERS: [u32; 4] = [0, 3, 8, 299];
/// What says that a draw is of a preview, or is not.
const FLAGS: [u8; 5] = [0, 1, 2, 128, 255];
/// Masks of as many lights as light, and of as many as are packed; two that are no low bits.
const MASKS: [u8; 7] = [0, 0x07, 0x0F, 0x1F, 0xFF, 0x0B, 0xF0];
/// Lit; without a matrix, whose rows come last, so that the row count tells the lights.
const KEY: Key = Key::of([0, 1, 0, 0, 0, 0, 0, 0]);

/// Both kinds of lists below.
#[must_use]
pub fn lists() -> Vec<Vec<Call>> {
    [refreshes(), packs()].concat()
}

/// A light whose numbers are no other's.
fn light(index: u32, type_: u32) -> Call {
    let mut light: [u32; LIGHT / 4] =
        core::array::from_fn(|i| ((index % 1000 * 100) as f32 + i as f32).to_bits());
    light[0] = type_;
    set_light(index, &light)
}

/// The first `count` of the indices light, and none of the others; the higher indices are set first.
fn lit(indices: &[u32; 9], count: usize) -> Vec<Call> {
    let mut calls = Vec::new();
    for (at, &index) in indices.iter().enumerate().rev() {
        calls.push(light(index, 1 + at as u32 % 3));
        calls.push(enable(index, u32::from(at < count)));
    }
    for index in OTHERS.into_iter().filter(|index| !indices.contains(index)) {
        let off = index % 2 == 0;
        calls.push(light(index, if off { 1 } else { 4 }));
        calls.push(enable(index, u32::from(!off)));
    }
    calls
}

/// Nine lights that light.
pub fn nine() -> Vec<Call> {
    lit(&INDICES[1], 9)
}

fn states() -> impl Iterator<Item = Vec<Call>> {
    let states = INDICES.into_iter();
    states.flat_map(|indices| COUNTS.map(|count| lit(&indices, count)))
}

/// Each mask under each flag.
fn keys() -> impl Iterator<Item = Key> {
    FLAGS.into_iter().flat_map(|preview| {
        MASKS.map(|light_active_mask| Key {
            preview,
            light_active_mask,
            ..KEY
        })
    })
}

/// The rows, and the fills into the right room and into others.
pub fn packs() -> Vec<Vec<Call>> {
    let mut packs = Vec::new();
    for key in keys() {
        for name in [Name::LightsRows, Name::RowCount, Name::FillLights] {
            packs.push(Call::keyed(name, key));
        }
        let fill = Call::keyed(Name::FillLights, key);
        let rows = [18, 24, 30, 48].map(|rows| ROW * rows);
        let mut lengths = wrong_lengths(fill.right_length());
        lengths.extend(rows.iter().filter(|&&length| length != fill.right_length()));
        packs.extend(lengths.into_iter().map(|length| Call {
            lent: Length::Bytes(length),
            ..fill.clone()
        }));
    }
    for name in [Name::CompactedLightMasks, Name::VsSourceLightInputs] {
        packs.push(Call::plain(name));
    }
    states()
        .map(|state| [&state[..], &packs].concat())
        .collect()
}

/// The refreshes with LIGHTS dirty and without, of a mirror of another length too, and of transformed vertices, beside a fill;
/// then the lists below, on nine lights.
pub fn refreshes() -> Vec<Vec<Call>> {
    let mut calls = Vec::new();
    for key in keys() {
        let call = Call::keyed(Name::Refresh, key);
        for length in [0, 24 * ROW, MIRROR - ROW, MIRROR + 1] {
            calls.push(Call {
                lent: Length::Bytes(length),
                ..call.clone()
            });
        }
        calls.push(Call::keyed(Name::Refresh, Key { has_rhw: 1, ..key }));
        calls.extend([mark(8), call.clone(), call]);
        calls.push(Call::keyed(Name::FillLights, key));
    }
    let mut lists: Vec<Vec<Call>> = states()
        .map(|state| [&state[..], &calls].concat())
        .collect();
    lists.extend([masks(), limits(), changes()]);
    lists.push(bits(nine(), Key { preview: 1, ..KEY }, Some(0)));
    lists
}

/// Every mask.
fn masks() -> Vec<Call> {
    let mut calls = nine();
    for light_active_mask in 0..=255 {
        let key = Key {
            preview: 1,
            light_active_mask,
            ..KEY
        };
        let refresh = Call::keyed(Name::Refresh, key);
        calls.extend([mark(8), refresh.clone(), refresh]);
    }
    calls
}

/// Each limit after each, without a mark between, with some sections marked, and with all.
fn limits() -> Vec<Call> {
    let mut calls = nine();
    for before in FLAGS {
        for after in FLAGS {
            let [before, after] = [before, after].map(|preview| refresh(Key { preview, ..KEY }));
            for bits in [0, 8, 254, 255] {
                calls.extend([mark(255), before.clone(), mark(bits), after.clone()]);
                calls.push(after.clone());
            }
        }
    }
    calls
}

/// Lights that come into the first four and leave them, and changes of those in them and behind them: each alone between two
/// refreshes of a preview.
fn changes() -> Vec<Call> {
    let preview = refresh(Key { preview: 1, ..KEY });
    let m = core::array::from_fn(|i| (i as f32 * 0.5 - 1.0).to_bits());
    let mut changes = vec![set_transform(2, &m), enable(0, 1), enable(0, 0)];
    for index in INDICES[1] {
        changes.extend([enable(index, 0), enable(index, 1)]);
        changes.extend([light(index, 0), light(index, 2)]);
    }
    let mut calls = nine();
    calls.push(preview.clone());
    for change in changes {
        calls.extend([change, preview.clone(), preview.clone()]);
    }
    // Fewer and fewer, until none is left: the mask is another one in the end.
    for index in INDICES[1] {
        calls.extend([enable(index, 0), mark(255), preview.clone()]);
    }
    calls
}
