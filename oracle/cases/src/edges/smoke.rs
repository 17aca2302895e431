//! Document 02, T-05: every texture mask, every fog mode and every byte of a colour, packed and refreshed; special floats as fog;
//! every tail of an image that a byte tells, and every dirty byte.

use super::patched;
use super::states::smoke;
use crate::call::{Call, Name};
use crate::damage::Damage;
use crate::floats::SPECIAL;
use crate::image;
use crate::key::Key;
use crate::section::{ROW, Section};
use crate::states::{mark, refresh, set_texture_mask, set_value};
use crate::world::World;

/// Lit, in fog.
const KEY: Key = Key::of([0, 1, 0, 0, 0, 0, 3, 0]);
const FOG: [Name; 3] = [Name::SetFogStart, Name::SetFogEnd, Name::SetFogDensity];

pub fn lists() -> Vec<Vec<Call>> {
    vec![
        masks(),
        hits(),
        modes(),
        fog(),
        colors(),
        read_masks(),
        read_bits(),
    ]
}

fn keyed(names: [Name; 2], key: Key) -> [Call; 2] {
    names.map(|name| Call::keyed(name, key))
}

/// Every mask: its rows, the draw's, and refreshed, once with no call between and once after an equal mask.
fn masks() -> Vec<Call> {
    let mut calls = smoke();
    calls.push(refresh(KEY));
    for mask in 0..=255 {
        calls.push(set_texture_mask(mask));
        calls.extend(keyed([Name::TtRows, Name::FillTt], KEY));
        calls.extend([Key::default(), KEY].map(|key| Call::keyed(Name::RowCount, key)));
        calls.extend([refresh(KEY), refresh(KEY)]);
        calls.extend([set_texture_mask(mask), refresh(KEY)]);
    }
    calls
}

/// The rows about each end of TT overwritten between two masks of other numbers of stages: they are a hit by the mask of the last
/// refresh, and the mask that is set then writes its own rows.
fn hits() -> Vec<Call> {
    let mut calls = smoke();
    for before in 0..=8 {
        for after in 0..=8 {
            let [before, after] = [before, after].map(|stages| ((1u16 << stages) - 1) as u8);
            for at in [before, after].map(|mask| Section::Tt.place(KEY, mask).end) {
                calls.extend([set_texture_mask(before), mark(255), refresh(KEY)]);
                for row in [at - ROW, at] {
                    let overwritten = Call {
                        overwrite: vec![(row, vec![0xFF; ROW])],
                        ..set_texture_mask(after)
                    };
                    calls.extend([overwritten, refresh(KEY), refresh(KEY)]);
                }
                calls.extend([mark(32), refresh(KEY)]);
            }
        }
    }
    calls
}

/// Every fog mode packed; then each of some after each, without a mark between, with some sections marked, and with all.
fn modes() -> Vec<Call> {
    let mut calls = smoke();
    let key = |fog_mode| Key { fog_mode, ..KEY };
    for mode in 0..=255 {
        calls.extend(keyed([Name::FogRows, Name::FillFog], key(mode)));
        calls.extend(keyed([Name::AmbientRows, Name::FillAmbient], key(mode)));
        calls.extend([mark(255), refresh(key(mode))]);
    }
    let some = [0, 1, 2, 3, 4, 128, 255];
    for before in some {
        for after in some {
            for bits in [0, 64, 191, 254, 255] {
                calls.extend([mark(255), refresh(key(before))]);
                calls.extend([mark(bits), refresh(key(after)), refresh(key(after))]);
            }
        }
    }
    calls
}

/// Special floats in each place, packed with fog and without, and refreshed.
fn fog() -> Vec<Call> {
    let mut calls = smoke();
    for float in SPECIAL {
        for name in FOG {
            calls.push(set_value(name, float));
            for fog_mode in [0, 1, 255] {
                calls.push(Call::keyed(Name::FillFog, Key { fog_mode, ..KEY }));
            }
            calls.extend([refresh(KEY), refresh(KEY)]);
        }
    }
    calls
}

/// Every byte in each of a colour's four places, beside zeros and beside ones, packed and refreshed.
fn colors() -> Vec<Call> {
    let mut calls = smoke();
    for byte in 0..=255 {
        for place in 0..4 {
            for others in [0, 0xFF] {
                let mut color = [others; 4];
                color[place] = byte;
                calls.push(set_value(Name::SetAmbient, u32::from_le_bytes(color)));
                calls.push(Call::keyed(Name::FillAmbient, KEY));
            }
        }
        calls.push(refresh(KEY));
    }
    calls
}

/// Images with every mask, and with numbers above, under a call that reads the mask.
fn read_masks() -> Vec<Call> {
    let mut calls = smoke();
    let image = World::after(&calls);
    let above = (8..32).map(|bit| 1 << bit);
    let masks = (0..=260).chain(above).chain([u32::MAX]);
    let patches = masks.map(|mask| (image::TEXTURE_MASK, mask.to_le_bytes().to_vec()));
    let rows = Call::keyed(Name::TtRows, KEY);
    calls.extend(patched(image.image(), &rows, patches));
    calls
}

/// "any dirty byte is read".
fn read_bits() -> Vec<Call> {
    let take = Call::plain(Name::TakeFfVsDirty);
    let calls = (0..=255).map(|bits| Call {
        damage: Some(Damage::bytes(image::DIRTY, &[bits])),
        ..take.clone()
    });
    smoke().into_iter().chain(calls).collect()
}
