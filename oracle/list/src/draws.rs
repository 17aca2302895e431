//! Row counts and fills under many keys, and frames of one mirror.

use cases::call::{Call, Gives, LIGHT, Length, NAMES, Name};
use cases::direction_inputs::VIEWS;
use cases::floats::{INFINITY, LARGEST, NAN, NORMAL, ONE, SIGN};
use cases::image;
use cases::key::Key;
use cases::section::{EIGHT, MIRROR, ROW};
use cases::seen::{LEAST, PAST};
use cases::states::{
    LONG, SHORT, directed, enable, mark, refresh, set_light, set_material, set_texture_mask,
    set_transform, set_value,
};

use crate::calls::light;
use crate::running::Running;

/// A state with lights of each kind, in slots and from index 8 on, and matrices, a material and fog of unlike floats. No texture
/// stage transforms, so that the row counts tell the other sections.
pub fn scene() -> Vec<Call> {
    let floats = |of: u32| core::array::from_fn(|i| ((of + i as u32) as f32 * 0.25).to_bits());
    let mut calls = vec![
        Call::plain(Name::ImageFresh),
        set_transform(2, &floats(3)),
        set_transform(3, &floats(40)),
        set_transform(16, &floats(160)),
        set_transform(17, &floats(200)),
        set_transform(256, &floats(80)),
        set_transform(258, &floats(120)),
        set_material((1..=17).flat_map(|i| (i as f32).to_le_bytes()).collect()),
        set_value(Name::SetFogStart, 10f32.to_bits()),
        set_value(Name::SetFogEnd, 50f32.to_bits()),
        set_value(Name::SetFogDensity, 0.25f32.to_bits()),
        set_value(Name::SetAmbient, 0xFF80_4020),
    ];
    for (index, type_) in [(0, 3), (3, 2), (70, 1)] {
        let mut light: [u32; LIGHT / 4] = core::array::from_fn(|i| (i as f32 * 0.5).to_bits());
        light[0] = type_;
        calls.extend([set_light(index, &light), enable(index, 1)]);
    }
    calls
}

/// Each flag alone and several together; masks; counts.
const KEYS: [[u8; 8]; 22] = [
    [0, 0, 0, 0, 0, 0, 0, 0],
    [1, 0, 0, 0, 0, 0, 0, 0],
    [0, 1, 0, 0, 0, 0, 0, 0],
    [0, 0, 1, 0, 0, 0, 0, 0],
    [0, 0, 0, 1, 0, 0, 0, 0],
    [0, 0, 0, 0, 0, 0, 2, 0],
    [0, 1, 1, 0, 0, 0, 0, 0],
    [0, 1, 0, 1, 0, 7, 0, 1],
    [0, 0, 1, 1, 0, 7, 1, 2],
    [255, 128, 2, 4, 0, 7, 255, 255],
    [0, 1, 1, 0, 0, 7, 0, 0],
    [0, 0, 0, 0, 0, 7, 0, 1],
    [0, 1, 0, 0, 0, 0, 0, 3],
    [0, 1, 0, 0, 0, 4, 0, 2],
    [0, 1, 1, 0, 0, 6, 0, 0],
    [0, 1, 1, 0, 0, 255, 0, 4],
    [0, 0, 0, 1, 0, 3, 0, 40],
    [0, 0, 0, 0, 0, 1, 0, 40],
    [0, 2, 2, 0, 0, 0, 3, 41],
    [0, 1, 1, 0, 0, 7, 0, 255],
    [0, 1, 1, 0, 1, 7, 0, 0],
    [0, 0, 0, 1, 128, 15, 0, 1],
];

/// Row counts and fills of every section under each key; a length too short and one too long.
pub fn packs(running: &mut Running) {
    running.calls(&scene());
    for key in KEYS.map(Key::of) {
        for &name in NAMES.iter().filter(|name| name.packs()) {
            running.call(&Call::keyed(name, key));
        }
    }
    for key in [KEYS[0], KEYS[10], KEYS[11]].map(Key::of) {
        for &name in NAMES {
            let call = Call::keyed(name, key);
            if matches!(name.form().gives, Gives::Fill(_)) {
                let right = call.right_length();
                for length in [0, right.max(1) - 1, right + 1, right + ROW] {
                    running.call(&Call {
                        lent: Length::Bytes(length),
                        ..call.clone()
                    });
                }
            }
        }
    }
}

/// Frames of one mirror: each change alone between two refreshes, overwritings and marks, other keys, each refusal with
/// LIGHTS dirty and clean.
pub fn frames(running: &mut Running) {
    let key = Key::of([0, 1, 1, 0, 0, 0, 0, 2]);
    let other = Key::of([0, 1, 0, 1, 0, 0, 1, 1]);
    let identity = core::array::from_fn(|i| if i % 5 == 0 { ONE } else { 0 });
    // Rows of no section, and each section's first: NaNs of other patterns.
    for (row, i) in EIGHT
        .map(|section| section.first_row())
        .into_iter()
        .chain([14, 62, 94, 1114])
        .zip(0..)
    {
        running.put_float(4 * row, 0x7F80_0001 + i);
        running.put_float(4 * row + 3, 0xFFC0_0000 + i);
    }
    running.calls(&scene());
    running.call(&set_texture_mask(2));
    let refusals = |running: &mut Running| {
        for lent in [0, 1, 16, MIRROR - 16, MIRROR - 1] {
            for has_rhw in [0, 1] {
                running.call(&Call {
                    lent: Length::Bytes(lent),
                    ..refresh(Key { has_rhw, ..key })
                });
            }
        }
        for (has_rhw, without) in [(1, 0), (128, 1), (0, 1), (0, 2)] {
            running.call(&Call {
                own_mask: Some(without),
                ..refresh(Key { has_rhw, ..key })
            });
        }
    };
    refusals(running);
    running.calls(&[refresh(key), refresh(key)]);
    refusals(running);
    let mut changes: Vec<Call> = [2, 3, 16, 256, 257, 259]
        .map(|state| set_transform(state, &identity))
        .to_vec();
    changes.push(Call {
        name: Name::MultiplyTransform,
        ..set_transform(258, &core::array::from_fn(|i| (i as f32).to_bits()))
    });
    changes.extend([
        set_material(vec![0; 68]),
        light(3, 2),
        enable(70, 1),
        light(5, 1),
        set_value(Name::SetFogStart, NAN | 1),
        set_value(Name::SetFogEnd, ONE),
        set_value(Name::SetFogDensity, SIGN),
        set_value(Name::SetAmbient, 0x1234_5678),
        set_texture_mask(5),
        set_texture_mask(1),
    ]);
    for change in &changes {
        // An equal value dirties too.
        running.calls(&[change.clone(), refresh(key), change.clone(), refresh(key)]);
    }
    for section in EIGHT {
        let row = section.first_row();
        running.put_float(4 * row + 1, 0x7FA0_0000 + row as u32);
        running.calls(&[refresh(key), mark(u32::from(section.bit())), refresh(key)]);
    }
    for key in [
        other,
        key,
        Key::of([0; 8]),
        Key::of([0, 0, 0, 0, 0, 0, 0, 255]),
    ] {
        running.calls(&[mark(255), refresh(key), mark(32), refresh(key)]);
    }
    // Other lights, and so another mask: an old one is refused.
    let mut old = refresh(key);
    old.own_mask = None;
    old.key.light_active_mask = 7;
    running.calls(&[
        enable(4, 1),
        old,
        mark(255),
        refresh(key),
        enable(4, 0),
        refresh(key),
    ]);
    // An image read in, with every bit clear.
    running.put_byte(image::DIRTY, 0);
    running.put_byte(image::MATERIAL + 3, 0x40);
    running.calls(&[refresh(key), mark(7), mark(24), refresh(key)]);
}

/// Directions that document 02 (T-04) scales and the Rust does not: long ones, short ones, both kinds in one; then the borders of
/// its domain, each from both sides, and a NaN and an infinity. Each eight under views that keep or turn the signs of zeros, and
/// that make long ones infinite.
pub fn directions(running: &mut Running) {
    const EIGHTS: [[[u32; 3]; 8]; 2] = [
        [
            [LONG, 0, 0],
            [0, LONG | SIGN, 0],
            [SIGN, 0, LONG],
            [0, 0, 1],
            [LONG, SHORT, 0],
            [1, SIGN, LARGEST],
            [SHORT, SHORT | SIGN, SHORT],
            [NORMAL - 1, NORMAL, 3],
        ],
        [
            [0, 0, LEAST - 1],
            [0, LEAST, SIGN],
            [PAST, 0, 0],
            [0x5980_0000, PAST - 1, 0],
            [PAST - 1, SIGN, 0x59C0_0000],
            [LEAST, 0x5F00_0001, LEAST],
            [ONE, NAN, ONE],
            [ONE, INFINITY, ONE | SIGN],
        ],
    ];
    let key = Key::of([0, 1, 0, 0, 0, 0xFF, 0, 0]);
    running.call(&Call::plain(Name::ImageFresh));
    for eight in EIGHTS {
        for (index, direction) in (0..).zip(eight) {
            running.calls(&[set_light(index, &directed(3, direction)), enable(index, 1)]);
        }
        for view in &VIEWS {
            let fill = Call::keyed(Name::FillLights, key);
            running.calls(&[set_transform(2, view), fill, refresh(key)]);
        }
    }
}

/// Document 02, T-01: nine lights that light, then three, under keys of the main screen and of a preview: each mask with the room
/// of its rows and with that of four and of eight lights, and refreshed; then one limit after the other, unmarked and marked.
pub fn previews(running: &mut Running) {
    const LIGHTS: [u32; 9] = [1, 4, 7, 8, 9, 70, 300, 65_536, u32::MAX];
    let key = |preview, mask| Key::of([0, 1, 0, 0, preview, mask, 0, 0]);
    running.call(&Call::plain(Name::ImageFresh));
    for (index, n) in LIGHTS.into_iter().zip(0..) {
        let mut light: [u32; LIGHT / 4] =
            core::array::from_fn(|i| ((26 * n + i as u32) as f32).to_bits());
        light[0] = 1 + n % 3;
        running.call(&set_light(index, &light));
    }
    for (first, masks) in [(1, [0x0F, 0xFF, 0x1F, 0]), (300, [0x07, 0x0F, 0x03, 0])] {
        running.calls(&LIGHTS.map(|index| enable(index, u32::from(index >= first))));
        let keys = [0, 1, 128].map(|preview| masks.map(|mask| key(preview, mask)));
        for key in keys.into_iter().flatten() {
            for name in [Name::LightsRows, Name::RowCount] {
                running.call(&Call::keyed(name, key));
            }
            let fill = Call::keyed(Name::FillLights, key);
            let rooms = [24 * ROW, 48 * ROW].into_iter();
            for room in rooms.filter(|&room| room != fill.right_length()) {
                running.call(&Call {
                    lent: Length::Bytes(room),
                    ..fill.clone()
                });
            }
            running.calls(&[fill, mark(8), Call::keyed(Name::Refresh, key)]);
        }
        let [screen, preview] = [0, 1].map(|preview| refresh(key(preview, 0)));
        running.calls(&[
            mark(255),
            screen.clone(),
            preview.clone(),
            mark(255),
            preview,
            screen,
            Call::plain(Name::CompactedLightMasks),
            Call::plain(Name::VsSourceLightInputs),
        ]);
    }
}
