//! Lists of calls that are the same for every seed: each border in turn.

mod again;
mod packs;
mod previews;
mod refreshes;
mod smoke;
mod states;
mod words;

use crate::call::{Call, Gives, Length, NAMES, Name};
use crate::damage::{Damage, Patch};
use crate::image::{self, BYTES, REGIONS, ROOM, SLOTS};
use crate::key::Key;
use crate::section::MIRROR;
use crate::states::{directed, enable, set_texture_mask, set_value};
use crate::world::World;

pub use packs::lists as packs;
pub use previews::lists as previews;
pub use states::kinds_of_lights;

/// How far past its item's length a slice goes.
const PAST: usize = 40;
/// Lengths that are the item's own once they are cut to a byte or to two.
const WRAPS: [usize; 2] = [256, 65_536];
const WORLD: u32 = 256;

/// One in `step` of the damaged words, and everything else.
#[must_use]
pub fn edges(step: usize) -> Vec<Vec<Call>> {
    let mut lists = vec![
        states(),
        bits(),
        full_table((0..=ROOM as u32).map(|i| 8 + i).collect()),
        full_table((0..=ROOM as u32).rev().map(|i| u32::MAX - 5 * i).collect()),
        again::list(),
    ];
    lists.extend(refreshes::lists());
    lists.extend(previews::refreshes());
    lists.extend(smoke::lists());
    for &name in NAMES {
        lists.push(lengths(name));
        lists.push(images(name));
        lists.push(reasons(name));
    }
    lists.extend(words::lists(step));
    lists
}

fn set_light(index: u32, type_: u32) -> Call {
    crate::states::set_light(index, &directed(type_, [0; 3]))
}

/// Lights in slots 0 and 7 and two from index 8 on, fog, an ambient colour and two texture stages, and no bits: every region of
/// the image has something to lose.
fn some_lights() -> Vec<Call> {
    vec![
        set_value(Name::SetFogStart, 0x4000_0000),
        set_value(Name::SetFogEnd, 0x4040_0000),
        set_value(Name::SetFogDensity, 0x40A0_0000),
        set_value(Name::SetAmbient, 0xFF80_4020),
        set_texture_mask(SOME_STAGES),
        enable(0, 1),
        set_light(7, 2),
        set_light(70, 1),
        enable(9, 1),
        Call::plain(Name::TakeFfVsDirty),
    ]
}

/// The texture mask of `some_lights`.
const SOME_STAGES: u8 = 2;

/// The call with arguments that are accepted after `some_lights`, which lights two.
fn accepted(name: Name) -> Call {
    let number = match name {
        Name::SetTransform | Name::MultiplyTransform | Name::Transform => WORLD,
        Name::GetLightAt => 7,
        _ => 0,
    };
    let mut call = Call::numbered(name, number);
    call.texture_mask = SOME_STAGES;
    if name.takes_key() {
        call.key = Key::of([0, 1, 1, 0, 0, 3, 0, 2]);
        call.own_mask = Some(0);
    }
    call
}

/// Every length of the call's slice up to past the item's; of a mirror those about 0 and its own.
fn lengths(name: Name) -> Vec<Call> {
    let form = name.form();
    let call = accepted(name);
    let mut calls = some_lights();
    let right = match form.gives {
        Gives::Item(_) | Gives::Fill(_) | Gives::Mirror => call.right_length(),
        _ => match form.takes {
            Some(bytes) => bytes,
            None => return calls,
        },
    };
    let around = (0..=right + PAST).chain(WRAPS.map(|wrap| right + wrap));
    let tried =
        around.filter(|&length| right != MIRROR || length <= PAST || length + PAST >= right);
    for length in tried {
        let mut call = call.clone();
        if form.takes.is_some() {
            call.given.resize(length, 0);
        } else {
            call.lent = Length::Bytes(length);
        }
        calls.push(call);
    }
    calls
}

/// The call on an image with each patch in turn. Each damage puts back what the last one may have left, where that was
/// read in.
fn patched(image: &[u8], call: &Call, patches: impl IntoIterator<Item = Patch>) -> Vec<Call> {
    let mut back = Damage::default();
    let mut calls = Vec::new();
    for (at, bytes) in patches {
        calls.push(Call {
            damage: Some(back.and(Damage::bytes(at, &bytes))),
            ..call.clone()
        });
        back = Damage::bytes(at, &image[at..at + bytes.len()]);
    }
    calls
}

/// Images of other lengths, and each region's first and last byte damaged.
fn images(name: Name) -> Vec<Call> {
    let around = [
        0,
        1,
        image::TAIL,
        BYTES - 4,
        BYTES - 1,
        BYTES + 1,
        BYTES + 4,
        2 * BYTES,
    ];
    let lengths = around.into_iter().chain(WRAPS.map(|wrap| BYTES + wrap));
    let ends = (1..=REGIONS.len()).map(|next| REGIONS.get(next).map_or(BYTES, |region| region.0));
    let bytes = REGIONS
        .iter()
        .zip(ends)
        .flat_map(|(&(start, _), end)| [start, end - 1])
        .flat_map(|at| [0, 1, 0x80, 0xFF].map(|byte| (at, vec![byte])));
    let mut calls = some_lights();
    let image = World::after(&calls);
    calls.extend(lengths.map(|length| Call {
        damage: Some(Damage::length(length)),
        ..accepted(name)
    }));
    calls.extend(patched(image.image(), &accepted(name), bytes));
    calls
}

/// Each reason to refuse an image alone that no single byte gives.
fn reasons(name: Name) -> Vec<Call> {
    let floats = [
        image::VIEW,
        image::PROJECTION,
        image::PALETTE,
        image::TEXTURE - 4,
        image::TEXTURE,
        image::MATERIAL - 4,
        image::MATERIAL,
        image::LIGHTS - 4,
        image::slot(0) + 4,
        image::slot(SLOTS) - 4,
        image::entry(0) + 12,
        image::entry(2) - 4,
        image::FOG_START,
        image::FOG_END,
        image::FOG_DENSITY,
    ];
    let nans = [0x7FC0_0001, 0xFFC0_0000, 0x7F80_0001, 0xFF80_0001, u32::MAX];
    let nans = floats
        .into_iter()
        .flat_map(|at| nans.map(|bits| Damage::word(at, bits)));
    // 56 ascending entries and a count of 57.
    let entries = (0..ROOM as u32).fold(
        Damage::bytes(image::COUNT, &(ROOM as u16 + 1).to_le_bytes()),
        |damage, i| damage.and(Damage::word(image::entry(i as usize), 100 + i)),
    );
    let enable = Damage::word(image::entry(0) + 4, 2);
    // A zero of the other sign in an undefined slot, and its diffuse alpha.
    let negative = Damage::word(image::slot(3) + 20, 0x8000_0000);
    let alpha = Damage::word(image::slot(3) + 16, 0x3F80_0000);
    let mask = Damage::word(image::TEXTURE_MASK, 256);
    let mut calls = some_lights();
    for damage in nans.chain([entries, enable, negative, alpha, mask]) {
        calls.push(Call {
            damage: Some(damage),
            ..accepted(name)
        });
    }
    calls
}

/// Every state to past the last, set, multiplied and read.
fn states() -> Vec<Call> {
    let names = [
        Name::SetTransform,
        Name::MultiplyTransform,
        Name::Transform,
        Name::WorldPaletteUsed,
    ];
    let calls = (0..600).flat_map(|number| {
        names.map(|name| {
            let number = if name.takes_number() { number } else { 0 };
            Call::numbered(name, number)
        })
    });
    calls.collect()
}

/// Every number of up to nine bits is marked and taken.
fn bits() -> Vec<Call> {
    let calls = (0..512).flat_map(|number| {
        let mark = Call::numbered(Name::MarkFfVsDirty, number);
        [mark, Call::plain(Name::TakeFfVsDirty)]
    });
    calls.collect()
}

/// Lights at indices of 8 or more, one more than there is room for; then those stored once more,
/// the slots, and the masks after each enable.
fn full_table(indices: Vec<u32>) -> Vec<Call> {
    let mut calls = Vec::new();
    for (at, &index) in indices.iter().enumerate() {
        calls.push(if at % 2 == 0 {
            set_light(index, 1 + at as u32 % 3)
        } else {
            enable(index, 0)
        });
        calls.push(enable(index, 1));
        calls.push(Call::plain(Name::CompactedLightMasks));
        calls.push(Call::plain(Name::VsSourceLightInputs));
    }
    for index in indices.into_iter().chain(0..SLOTS as u32) {
        calls.push(set_light(index, 2));
        calls.push(enable(index, 1));
        calls.push(Call::plain(Name::CompactedLightMasks));
        calls.push(Call::plain(Name::VsSourceLightInputs));
    }
    calls
}
