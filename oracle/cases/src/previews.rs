//! Lists of packs of lights and of refreshes for a preview, made from a seed.

use crate::call::{Call, Length, Name};
use crate::key::Key;
use crate::keys;
use crate::lengths::wrong_length;
use crate::lists;
use crate::packs::pack;
use crate::random::Random;
use crate::section::MIRROR;
use crate::states::{self, enable, light, mark, set_light};

/// Packs and refreshes of a list.
pub const LENGTH: usize = 256;
/// Where lights are set and enabled.
const INDICES: [u32; 12] = [0, 1, 2, 3, 5, 7, 8, 9, 70, 256, 65_536, u32::MAX];

/// The list with this number: the calls that make the state and light more lights than a preview has mostly, then packs and
/// refreshes, with changes of lights between them.
#[must_use]
pub fn list(seed: u64, number: u64) -> Vec<Call> {
    let mut random = Random::of_input(seed ^ 0x7072_6576, number);
    let random = &mut random;
    let mut calls = states::calls(seed, number);
    for index in INDICES {
        if !random.chance(3) {
            calls.extend([set_light(index, &light(random)), enable(index, 1)]);
        }
    }
    let mut key = previewed(keys::unmasked(random), random);
    for _ in 0..LENGTH {
        if random.chance(4) {
            calls.push(change(random));
        }
        if random.chance(2) {
            let call = pack(random, &[Name::FillLights]);
            let key = previewed(call.key, random);
            calls.push(Call { key, ..call });
            continue;
        }
        if random.chance(8) {
            key = previewed(keys::unmasked(random), random);
            calls.push(mark(255));
        }
        calls.push(refresh(key, random));
    }
    calls
}

/// The key of a preview.
fn previewed(key: Key, random: &mut Random) -> Key {
    Key {
        preview: random.pick(&keys::SET),
        ..key
    }
}

/// A light is switched mostly; some are set anew, and the view changes at times.
fn change(random: &mut Random) -> Call {
    let index = random.pick(&INDICES);
    match random.below(8) {
        0..5 => enable(index, random.below(2)),
        5 | 6 => set_light(index, &light(random)),
        _ => states::view(random),
    }
}

/// A refresh that is accepted mostly.
fn refresh(key: Key, random: &mut Random) -> Call {
    let mut call = states::refresh(key);
    if !random.chance(12) {
        call.key.has_rhw = 0;
    }
    if random.chance(6) {
        (call.key.light_active_mask, call.own_mask) = keys::mask(random);
    }
    if random.chance(12) {
        call.lent = Length::Bytes(wrong_length(random, MIRROR));
    }
    if random.chance(64) {
        call.damage = Some(lists::damage(random));
    }
    call
}
