//! What is stored set again: it still dirties.

use crate::call::{Call, LIGHT, MATERIAL, MATRIX, Name};
use crate::floats::{NAN, ONE};
use crate::key::Key;
use crate::states::{enable, set_light, set_material, set_texture_mask, set_transform, set_value};

/// Floats that are all unlike, a NaN of another pattern among them.
fn floats<const N: usize>() -> [u32; N] {
    let mut floats = core::array::from_fn(|i| (i as f32 - 2.5).to_bits());
    floats[N - 1] = NAN | 1;
    floats
}

fn changes() -> Vec<Call> {
    let identity = core::array::from_fn(|i| if i % 5 == 0 { ONE } else { 0 });
    let mut light = floats::<{ LIGHT / 4 }>();
    light[0] = 1;
    let mut changes = Vec::new();
    for state in [2, 3, 16, 23, 256, 257, 511] {
        changes.push(set_transform(state, &floats::<{ MATRIX / 4 }>()));
        changes.push(set_transform(state, &identity));
        changes.push(Call {
            name: Name::MultiplyTransform,
            ..set_transform(state, &identity)
        });
    }
    for floats in [floats::<{ MATERIAL / 4 }>(), [0; MATERIAL / 4]] {
        changes.push(set_material(
            floats.iter().flat_map(|word| word.to_le_bytes()).collect(),
        ));
    }
    for index in [0, 7, 8, 70] {
        changes.push(set_light(index, &light));
        changes.push(enable(index, 1));
        changes.push(enable(index, 7));
        changes.push(set_light(index, &light));
        changes.push(enable(index, 0));
        changes.push(set_light(index, &light));
    }
    for value in [NAN | 1, 0, ONE] {
        for name in [
            Name::SetFogStart,
            Name::SetFogEnd,
            Name::SetFogDensity,
            Name::SetAmbient,
        ] {
            changes.push(set_value(name, value));
        }
    }
    for mask in [0, 1, 0x85, 0] {
        changes.push(set_texture_mask(mask));
    }
    // The default light by an enable, as often.
    for index in [1, 71] {
        changes.extend([enable(index, 0), enable(index, 1)]);
    }
    changes
}

/// Each change three times, after a take and after a refresh.
pub fn list() -> Vec<Call> {
    let refresh = Call {
        own_mask: Some(0),
        ..Call::keyed(Name::Refresh, Key::of([0, 1, 1, 0, 0, 0, 0, 3]))
    };
    let mut calls = Vec::new();
    for change in changes() {
        calls.push(change.clone());
        calls.push(Call::plain(Name::TakeFfVsDirty));
        calls.push(change.clone());
        calls.push(Call::numbered(Name::MarkFfVsDirty, 255));
        calls.push(refresh.clone());
        calls.push(change);
        calls.push(refresh.clone());
    }
    calls
}
