//! Packing calls that are the same for every seed: every mask, every count and every flag, and each border in turn.

use super::previews;
use super::states::states;
use crate::call::{Call, Gives, Length, Name};
use crate::damage::Damage;
use crate::floats::NAN;
use crate::image::{BYTES, FOG_DENSITY, FOG_END, FOG_START, REGIONS, TEXTURES};
use crate::key::Key;
use crate::keys::SET;
use crate::lengths::wrong_lengths;
use crate::packs::names;

/// Packing calls of a list.
const LENGTH: usize = 400;
/// A mask that is no state's own: those are low bits, as many as there are lights that light.
const NO_MASK: u8 = 0xAA;

/// One in `step` of the calls below, on each of the states; then those of previews.
#[must_use]
pub fn lists(step: usize) -> Vec<Vec<Call>> {
    let packs: Vec<Call> = keyed().into_iter().chain(damaged()).step_by(step).collect();
    let states = states();
    let lists = states
        .iter()
        .flat_map(|state| packs.chunks(LENGTH).map(|packs| [state, packs].concat()));
    lists.chain(previews::packs()).collect()
}

/// The call under the state's own mask.
fn own(name: Name, key: Key) -> Call {
    Call {
        own_mask: Some(0),
        ..Call::keyed(name, key)
    }
}

fn flags() -> impl Iterator<Item = [u8; 5]> {
    (0..32u8).map(|flags| {
        core::array::from_fn(|i| {
            if flags & (1 << i) == 0 {
                0
            } else {
                SET[(usize::from(flags) + i) % 4]
            }
        })
    })
}

/// Every call under every set of flags, with every mask and then with every count; those that fill are lent the right
/// length, and some wrong ones.
fn keyed() -> Vec<Call> {
    let mut packs = Vec::new();
    for (set, at) in flags().zip(0..) {
        let [rhw, lit, specular, indexed, preview] = set;
        let key = |mask: u8, count: u8| {
            let fog = [0, 1, 255][usize::from(mask ^ count) % 3];
            Key::of([rhw, lit, specular, indexed, preview, mask, fog, count])
        };
        for name in [Name::FillLights, Name::LightsRows] {
            packs.extend((0..=255).map(|mask| Call::keyed(name, key(mask, at))));
        }
        for name in [Name::FillPalette, Name::PaletteRows] {
            packs.extend((0..=255).map(|count| own(name, key(0, count))));
        }
        let each = names().into_iter();
        let each = each.flat_map(|name| [own(name, key(0, at)), Call::keyed(name, key(0, at))]);
        for call in each {
            if matches!(call.name.form().gives, Gives::Fill(_)) {
                packs.extend(around(&call));
            }
            packs.extend((0..=255).step_by(51).map(|fog| Call {
                key: Key {
                    fog_mode: fog,
                    ..call.key
                },
                ..call.clone()
            }));
        }
    }
    packs
}

/// The call with wrong lengths. Under the state's own mask the right one is that of so many lights as it has, and of TT that of
/// so many stages: the lengths about each are tried.
fn around(call: &Call) -> Vec<Call> {
    let lights = if call.own_mask.is_some() { 0..9 } else { 0..1 };
    let stages = if call.name == Name::FillTt {
        0..=TEXTURES
    } else {
        0..=0
    };
    let low = |bits: usize| ((1u16 << bits) - 1) as u8;
    let mut lengths: Vec<usize> = lights
        .flat_map(|lights| stages.clone().map(move |stages| (lights, stages)))
        .flat_map(|(lights, stages)| {
            let mut call = call.clone();
            call.key.light_active_mask = low(lights);
            call.texture_mask = low(stages);
            wrong_lengths(call.right_length())
        })
        .collect();
    lengths.sort_unstable();
    lengths.dedup();
    let calls = lengths.into_iter().map(|length| Call {
        lent: Length::Bytes(length),
        ..call.clone()
    });
    calls.collect()
}

/// Each call on images that are none, with a length that is right and one that is not, and a mask that is refused.
fn damaged() -> Vec<Call> {
    let lengths = [0, BYTES - 1, BYTES + 1].map(Damage::length);
    let bytes = REGIONS.map(|(start, _)| Damage::bytes(start, &[0xFF; 4]));
    let floats = REGIONS[..5].iter().map(|&(start, _)| start);
    let floats = floats.chain([FOG_START, FOG_END, FOG_DENSITY]);
    let nans = floats.map(|at| Damage::word(at, NAN | 1));
    let damages: Vec<Damage> = lengths.into_iter().chain(bytes).chain(nans).collect();
    let mut packs = Vec::new();
    for name in names() {
        for damage in &damages {
            for own_mask in [Some(0), None] {
                for lent in [Length::Right, Length::Bytes(1)] {
                    let key = Key {
                        light_active_mask: NO_MASK,
                        vertex_blend_count: 1,
                        ..Key::default()
                    };
                    packs.push(Call {
                        damage: Some(damage.clone()),
                        own_mask,
                        lent,
                        ..Call::keyed(name, key)
                    });
                }
            }
        }
    }
    packs
}
