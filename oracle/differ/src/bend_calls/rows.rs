//! The calls that give rows, or their number.

use cases::call::Call;
use cases::floats::{NAN, ONE, SIGN, is_nan};
use cases::image;
use cases::key::Key;
use cases::model::refusal::{TRANSFORMED, WRONG_LENGTH, WRONG_MASK};
use cases::section::ROW;

use super::{ACCEPTED, Held, lights, past, previews, smoke};
use crate::bends::Bend;
use crate::host;

fn with_key(call: &Call, key: Key) -> Call {
    Call {
        key,
        ..call.clone()
    }
}

pub fn pack(bend: Bend, call: &Call, mut held: Held<'_>) -> u32 {
    if let Some(answer) = instead(bend, call, &mut held) {
        return answer;
    }
    let status = held.call(&with_key(call, other_key(bend, call.key)));
    if status == ACCEPTED {
        after(bend, call.key, &mut held);
    } else {
        after_refusal(bend, status, &mut held);
    }
    status
}

/// What such a version takes the key for.
fn other_key(bend: Bend, key: Key) -> Key {
    match bend {
        Bend::PaletteCap | Bend::PaletteRowsCap => Key {
            vertex_blend_count: key.vertex_blend_count.min(40),
            ..key
        },
        Bend::PaletteIndexedCount => Key {
            vertex_blend_indexed: 0,
            ..key
        },
        Bend::PaletteIndexedAlways => Key {
            vertex_blend_count: key
                .vertex_blend_count
                .max(u8::from(key.vertex_blend_indexed != 0)),
            ..key
        },
        Bend::LightsUnlit | Bend::LightsRowsUnlit if key.lighting_enabled == 0 => Key {
            light_active_mask: 0,
            ..key
        },
        Bend::MaterialSpecularUnlit | Bend::MaterialRowsUnlit if key.specular_enable != 0 => Key {
            lighting_enabled: 1,
            ..key
        },
        Bend::MaterialFlagOne => Key {
            lighting_enabled: u8::from(key.lighting_enabled == 1),
            ..key
        },
        Bend::MaterialFlagLow => Key {
            specular_enable: key.specular_enable & 1,
            ..key
        },
        Bend::CountFlagLow => Key {
            has_rhw: key.has_rhw & 1,
            ..key
        },
        Bend::CountRhwDropped => Key { has_rhw: 0, ..key },
        Bend::CountCap => Key {
            vertex_blend_count: key.vertex_blend_count.min(40),
            ..key
        },
        Bend::CountPreview | Bend::LightsRowsPreview if key.preview != 0 => Key {
            light_active_mask: key.light_active_mask & 0x0F,
            ..key
        },
        // The two flags in each other's place.
        Bend::PaletteRowsExchanged | Bend::LightsPreviewExchanged => Key {
            vertex_blend_indexed: key.preview,
            preview: key.vertex_blend_indexed,
            ..key
        },
        Bend::LightsPreviewIgnored => Key { preview: 0, ..key },
        Bend::FogAlways => Key {
            fog_mode: key.fog_mode.max(1),
            ..key
        },
        Bend::FogLinearOnly => Key {
            fog_mode: u8::from(key.fog_mode == 3),
            ..key
        },
        Bend::FogModeLow => Key {
            fog_mode: key.fog_mode & 3,
            ..key
        },
        Bend::LightsPreviewLow => Key {
            preview: key.preview & 1,
            ..key
        },
        _ => key,
    }
}

/// An answer that is given before the call is made.
fn instead(bend: Bend, call: &Call, held: &mut Held<'_>) -> Option<u32> {
    let key = call.key;
    let active = held.active(key)?;
    let wrong_mask = key.light_active_mask != 0 && key.light_active_mask != active;
    let wrong_length = call.has_wrong_length();
    match bend {
        Bend::WvLooksAtRhw if key.has_rhw != 0 => Some(TRANSFORMED),
        Bend::LightsLooksAtRhw if key.has_rhw != 0 => Some(TRANSFORMED),
        Bend::LightsMaskFirst if wrong_mask => Some(WRONG_MASK),
        Bend::LightsMaskZero if !wrong_length && key.light_active_mask != active => {
            Some(WRONG_MASK)
        }
        Bend::LightsAnyLength if key.light_active_mask == 0 => Some(ACCEPTED),
        Bend::PaletteAnyLength if key.vertex_blend_count == 0 => Some(ACCEPTED),
        Bend::TtStages if wrong_length && held.lent.out.len() == 8 * 4 * ROW => Some(ACCEPTED),
        Bend::FogAnyLength if wrong_length => Some(ACCEPTED),
        Bend::ProjLonger if held.lent.out.len() == 5 * ROW => {
            let (first, _) = core::mem::take(&mut held.lent.out).split_at_mut(4 * ROW);
            held.lent.out = first;
            None
        }
        // The number of slots alone, as the Rust tests in debug builds.
        Bend::LightsMaskSlots if wrong_mask && !wrong_length => {
            let slots = |mask: u8| 8 - mask.leading_zeros();
            let same = slots(key.light_active_mask) == slots(active);
            let key = Key {
                light_active_mask: active,
                ..key
            };
            Some(if same {
                held.call(&with_key(call, key))
            } else {
                WRONG_MASK
            })
        }
        Bend::PaletteForty if key.vertex_blend_count != 0 && key.vertex_blend_indexed != 0 => {
            (wrong_length && held.lent.out.len() == 41 * 4 * ROW).then_some(ACCEPTED)
        }
        _ if key.preview != 0 && !wrong_length => previews::instead(bend, key, held),
        _ => None,
    }
}

fn after_refusal(bend: Bend, status: u32, held: &mut Held<'_>) {
    let writes = matches!(
        (bend, status),
        (Bend::WvRefusalWrites, WRONG_LENGTH) | (Bend::LightsRefusalWrites, WRONG_MASK)
    );
    if writes {
        held.lent.out.fill(0);
    }
    if bend == Bend::CountRefusalNumber {
        *held.lent.number = 0;
    }
}

/// Bends what an accepted call left.
fn after(bend: Bend, key: Key, held: &mut Held<'_>) {
    match bend {
        Bend::WvRowsOff if key.lighting_enabled != 0 => *held.lent.number += 1,
        Bend::ProjRowsNone if key.has_rhw != 0 => *held.lent.number = 0,
        Bend::CountOff if key.lighting_enabled != 0 && key.has_rhw == 0 => *held.lent.number += 1,
        Bend::CountFog if key.fog_mode == 255 => *held.lent.number += 1,
        Bend::LightsRowsOnes => *held.lent.number = 6 * key.light_active_mask.count_ones(),
        Bend::TtRowsStages => *held.lent.number = 32,
        Bend::WvUntransposed => {
            let m = held.lent.out.to_vec();
            host::transpose(&m, held.lent.out);
        }
        Bend::WvSwapped => {
            let (view, world) = (held.matrix(image::VIEW), held.matrix(image::PALETTE));
            let mut product = [0; 64];
            host::mat_mul(&view, &world, &mut product);
            host::transpose(&product, held.lent.out);
        }
        Bend::WvIdentity => {
            for i in 0..16 {
                held.put(4 * i, if i % 5 == 0 { ONE } else { 0 });
            }
        }
        Bend::WvNan | Bend::LightsNan => {
            for at in (0..held.lent.out.len()).step_by(4) {
                let word = held.word(at);
                held.put(at, if is_nan(word) { NAN | SIGN } else { word });
            }
        }
        Bend::WvTakesBit => {
            held.lent.image[image::DIRTY] ^= 1;
        }
        Bend::WvGuard => {
            past(held.lent.out);
        }
        Bend::MaterialSwapped if held.lent.out.len() > 3 * ROW => {
            held.lent.out[ROW..3 * ROW].rotate_left(ROW);
        }
        Bend::MaterialPower if held.lent.out.len() == 5 * ROW => {
            let power = held.word(4 * ROW);
            held.put(4 * ROW + 12, power);
        }
        Bend::PaletteUnviewed => {
            for i in 0..held.lent.out.len() / 64 {
                let world = held.matrix(image::PALETTE + 64 * i);
                host::transpose(&world, &mut held.lent.out[64 * i..64 * i + 64]);
            }
        }
        Bend::PaletteFirst => {
            for i in 1..held.lent.out.len() / 64 {
                held.lent.out.copy_within(0..64, 64 * i);
            }
        }
        Bend::LightsPreviewLast if key.preview != 0 => {
            previews::put_last(held, 0..held.lent.out.len());
        }
        _ if smoke::after(bend, key, held) => {}
        _ => lights::after(bend, held),
    }
}
