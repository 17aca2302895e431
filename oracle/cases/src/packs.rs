//! Lists of many packing calls on one state, made from a seed.

use crate::call::{Call, Gives, Length, NAMES, Name};
use crate::edges::kinds_of_lights;
use crate::key::Key;
use crate::keys::{self, SET};
use crate::lengths::wrong_length;
use crate::lists;
use crate::random::Random;
use crate::states;

/// Packing calls of a list.
pub const LENGTH: usize = 256;

/// Those that pack.
#[must_use]
pub fn names() -> Vec<Name> {
    let packs = NAMES.iter().filter(|name| name.packs());
    packs.copied().collect()
}

/// The list with this number: the calls that make the state, then those that pack it.
#[must_use]
pub fn list(seed: u64, number: u64) -> Vec<Call> {
    let mut random = Random::of_input(seed ^ 0x6B65_7973, number);
    let names = names();
    let mut calls = states::calls(seed, number);
    calls.extend((0..LENGTH).map(|_| pack(&mut random, &names)));
    calls
}

/// Three of four calls fill.
pub(crate) fn pack(random: &mut Random, names: &[Name]) -> Call {
    let name = match random.below(8) {
        0 | 1 => random.pick(names),
        2..5 => Name::FillLights,
        _ => loop {
            let name = random.pick(names);
            if matches!(name.form().gives, Gives::Fill(_)) {
                break name;
            }
        },
    };
    let mut call = Call::keyed(name, keys::unmasked(random));
    (call.key.light_active_mask, call.own_mask) = keys::mask(random);
    if matches!(name.form().gives, Gives::Fill(_)) && random.chance(8) {
        call.lent = Length::Bytes(wrong_length(random, call.right_length()));
    }
    if random.chance(64) {
        call.damage = Some(lists::damage(random));
    }
    call
}

/// Vertex fog off, on, and the largest number.
const FOGS: [u8; 3] = [0, 1, 255];

/// Lists of row counts: one for each set of flags and each mask; then one for each set of flags and each texture mask.
pub const ROW_COUNT_LISTS: u64 = 2 * MASKED;
const MASKED: u64 = 32 * 256;
/// Row counts of a list where no count is left out.
pub const ROW_COUNTS: u64 = 256 * FOGS.len() as u64;

/// The row count under one set of flags and one mask, with every count, each with three fog modes; one in `step` counts
/// only, where `step` is not 1. In the second half of the lists the mask is the state's texture mask, and the lights that a key
/// has are none to eight in turn.
#[must_use]
pub fn row_counts(number: u64, step: usize) -> Vec<Call> {
    let (textured, flags, mask) = (number >= MASKED, number >> 8, number as u8);
    let [rhw, lit, specular, indexed, preview] = core::array::from_fn(|i| match flags >> i & 1 {
        0 => 0,
        _ => SET[(usize::from(mask) + i) % 4],
    });
    let counts = (0..=255u8)
        .step_by(step)
        .chain([39, 40, 41, 255].into_iter().take(step - 1));
    let keys = counts.flat_map(|count| {
        let lights = if textured {
            ((1u16 << (count % 9)) - 1) as u8
        } else {
            mask
        };
        FOGS.map(|fog| Key::of([rhw, lit, specular, indexed, preview, lights, fog, count]))
    });
    let mut calls = kinds_of_lights();
    if textured {
        calls.push(states::set_texture_mask(mask));
    }
    calls.extend(keys.map(|key| Call::keyed(Name::RowCount, key)));
    calls
}
