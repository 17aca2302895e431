//! Document 02, T-05: fog, the ambient colour and the texture mask.

use cases::call::{Call, Length, Name};
use cases::floats::{INFINITY, NAN, ONE, SIGN};
use cases::image;
use cases::key::Key;
use cases::section::{ROW, Section};
use cases::states::{mark, refresh, set_texture_mask, set_transform, set_value};

use crate::draws::scene;
use crate::running::Running;

/// Lit, in fog.
const KEY: Key = Key::of([0, 1, 0, 0, 0, 0, 3, 0]);

/// Masks of each number of stages, some with a bit that is clear below, beside lights; fog modes and special floats as fog; colours
/// of unlike bytes; another mode, unmarked and marked; rows overwritten and masks of more and of fewer stages; tails that are no
/// image, and every dirty bit.
pub fn smoke(running: &mut Running) {
    running.calls(&scene());
    for stage in 0..8 {
        let m = core::array::from_fn(|i| ((16 * stage + i as u32) as f32).to_bits());
        running.call(&set_transform(16 + stage, &m));
    }
    masks(running);
    values(running);
    modes(running);
    hits(running);
    tails(running);
}

fn masks(running: &mut Running) {
    for mask in [0, 1, 2, 3, 4, 5, 8, 0x10, 0x20, 0x40, 0x80, 0x81, 0xFF] {
        running.call(&set_texture_mask(mask));
        for mask in [0, 7, 0xFF] {
            let lit = Key {
                light_active_mask: mask,
                ..KEY
            };
            running.call(&Call::keyed(Name::RowCount, lit));
        }
        for name in [Name::RowCount, Name::TtRows, Name::FillTt] {
            running.call(&Call::keyed(name, Key::default()));
        }
        let right = ROW * Section::Tt.rows(KEY, mask) as usize;
        for length in [0, right.max(1) - 1, right + 1, right + 4 * ROW] {
            running.call(&Call {
                lent: Length::Bytes(length),
                ..Call::keyed(Name::FillTt, KEY)
            });
        }
        running.call(&refresh(KEY));
    }
}

fn values(running: &mut Running) {
    let fog = [Name::SetFogStart, Name::SetFogEnd, Name::SetFogDensity];
    for bits in [NAN, NAN | 1, 0xFF80_0001, SIGN, INFINITY | SIGN, 1, ONE] {
        for name in fog {
            running.call(&set_value(name, bits));
            for fog_mode in [0, 1, 255] {
                running.call(&Call::keyed(Name::FillFog, Key { fog_mode, ..KEY }));
            }
            running.call(&refresh(KEY));
        }
    }
    for color in [0, u32::MAX, 0xFF80_4020, 0x0102_0304, 0xFE7F_0180, NAN | 1] {
        running.call(&set_value(Name::SetAmbient, color));
        running.calls(&[Call::keyed(Name::FillAmbient, KEY), refresh(KEY)]);
    }
}

fn modes(running: &mut Running) {
    for fog_mode in [0, 1, 2, 3, 4, 255] {
        let key = Key { fog_mode, ..KEY };
        running.calls(&[refresh(key), mark(64), refresh(key)]);
        running.calls(&[mark(255), refresh(key)]);
    }
}

fn hits(running: &mut Running) {
    for (before, after) in [(1, 8), (8, 1), (0, 0x80), (0x80, 0), (4, 4)] {
        running.calls(&[set_texture_mask(before), mark(255), refresh(KEY)]);
        let ends = [before, after].map(|mask| 63 + Section::Tt.rows(KEY, mask) as usize);
        for row in ends.into_iter().flat_map(|end| [end - 1, end]) {
            running.put_float(4 * row + 1, 0x7FA0_0000 + row as u32);
        }
        running.calls(&[
            set_texture_mask(after),
            refresh(KEY),
            mark(32),
            refresh(KEY),
        ]);
    }
}

/// Each number of the tail as an image is not to have it, put back after each; then as it may.
fn tails(running: &mut Running) {
    let check = Call::plain(Name::ImageCheck);
    let put = |running: &mut Running, at: usize, word: u32| {
        for (byte, i) in word.to_le_bytes().into_iter().zip(at..) {
            if running.image[i] != byte {
                running.put_byte(i, byte);
            }
        }
    };
    let none = [
        (image::FOG_START, NAN | 1),
        (image::FOG_END, 0x7F80_0001),
        (image::FOG_DENSITY, NAN | SIGN),
        (image::TEXTURE_MASK, 256),
        (image::TEXTURE_MASK, 0x8000_0000),
    ];
    for (at, word) in none {
        let kept = image::number32(&running.image, at);
        put(running, at, word);
        running.calls(&[check.clone(), set_texture_mask(1), refresh(KEY)]);
        put(running, at, kept);
    }
    let some = [
        (image::FOG_START, NAN),
        (image::FOG_END, SIGN),
        (image::FOG_DENSITY, INFINITY),
        (image::AMBIENT, NAN | 1),
        (image::TEXTURE_MASK, 255),
    ];
    for (at, word) in some {
        put(running, at, word);
        running.calls(&[check.clone(), mark(255), refresh(KEY)]);
    }
    for bits in [64, 128, 192, 255, 0] {
        running.put_byte(image::DIRTY, bits);
        running.call(&Call::plain(Name::TakeFfVsDirty));
    }
}
