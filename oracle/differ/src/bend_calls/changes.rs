//! The calls that change the state.

use cases::call::{Call, LIGHT};
use cases::floats::{NAN, SIGN, is_nan};
use cases::image;
use cases::model::refusal::{TABLE_FULL, UNKNOWN_BITS, UNKNOWN_STATE, WRONG_LENGTH};
use cases::records;
use mtld3d_types::D3DLIGHT9;

use super::{ACCEPTED, Held, past};
use crate::bends::Bend;
use crate::host;

const WV: u8 = 1;
const LIGHTS: u8 = 8;

/// Leaves the bits as they were where the call stored what was there already.
pub fn keep_clean(image: &mut [u8], before: &[u8]) {
    let stored = |image: &[u8]| [&image[..image::DIRTY], &image[image::ZERO..]].concat();
    if stored(image) == stored(before) {
        image[image::DIRTY] = before[image::DIRTY];
    }
}

pub fn change_transform(bend: Bend, call: &Call, mut held: Held<'_>) -> u32 {
    let readable = held.is_image();
    let wrong = call.has_wrong_length();
    match bend {
        Bend::SetLengthBeforeImage if wrong => return WRONG_LENGTH,
        Bend::SetLengthBeforeState if wrong && readable => return WRONG_LENGTH,
        Bend::SetStateBeforeImage if image::place(call.number).is_none() => return UNKNOWN_STATE,
        Bend::SetStateCut => {
            let number = call.number & 0xFFFF;
            return held.call(&Call {
                number,
                ..call.clone()
            });
        }
        Bend::SetRefusesLast if readable && call.number == 511 => return UNKNOWN_STATE,
        _ => {}
    }
    let before = held.lent.image.to_vec();
    let status = held.call(call);
    if status != ACCEPTED {
        if bend == Bend::SetRefusalMarks && status == UNKNOWN_STATE {
            held.lent.image[image::DIRTY] ^= WV;
        }
        return status;
    }
    let image = &mut *held.lent.image;
    match bend {
        Bend::ViewLeavesLights if call.number == 2 => {
            image[image::DIRTY] &= !LIGHTS | before[image::DIRTY];
        }
        Bend::SetEqualKeepsClean | Bend::MultiplyEqualKeepsClean => keep_clean(image, &before),
        Bend::BoneMarksWv if call.number > 256 => image[image::DIRTY] |= WV,
        Bend::SetMarksAll => image[image::DIRTY] = image::ALL_DIRTY,
        Bend::SetForgetsHighest | Bend::MultiplyForgetsHighest => {
            image[image::HIGHEST..image::COUNT]
                .copy_from_slice(&before[image::HIGHEST..image::COUNT]);
        }
        Bend::SetHighestOne if call.number >= 256 => {
            // The last index set, not the highest.
            image[image::HIGHEST] = (call.number - 256) as u8;
        }
        Bend::MultiplySwapped => {
            if let Some(at) = image::place(call.number) {
                let slot = before[at..at + 64].to_vec();
                let mut product = [0; 64];
                host::mat_mul(&slot, held.lent.given, &mut product);
                image[at..at + 64].copy_from_slice(&product);
            }
        }
        Bend::SetLastByte => image[image::BYTES - 1] ^= 1,
        _ => {}
    }
    status
}

pub fn set_material(bend: Bend, call: &Call, mut held: Held<'_>) -> u32 {
    if bend == Bend::MaterialRefusalWrites && held.is_image() && call.has_wrong_length() {
        held.lent.image[image::MATERIAL] ^= 1;
        return WRONG_LENGTH;
    }
    let before = held.lent.image.to_vec();
    let status = held.call(call);
    if status != ACCEPTED {
        return status;
    }
    let (image, given) = (&mut *held.lent.image, held.lent.given);
    let place = image::MATERIAL..image::LIGHTS;
    match bend {
        Bend::MaterialEqualKeepsClean => keep_clean(image, &before),
        Bend::MaterialArgument => {
            // SAFETY: the driver's item is a buffer of its own that nobody else looks at during the call.
            unsafe { *given.as_ptr().cast_mut() ^= 1 };
        }
        Bend::MaterialNan => image[place].copy_from_slice(given),
        Bend::MaterialExchanged => {
            image[place.clone()].copy_from_slice(given);
            image[place][16..48].rotate_left(16);
        }
        Bend::MaterialNegativeZero => {
            for four in image[place].as_chunks_mut::<4>().0 {
                if u32::from_le_bytes(*four) == SIGN {
                    *four = [0; 4];
                }
            }
        }
        Bend::MaterialFlushes => {
            for four in image[place].as_chunks_mut::<4>().0 {
                let bits = u32::from_le_bytes(*four);
                if bits & 0x7F80_0000 == 0 {
                    *four = (bits & SIGN).to_le_bytes();
                }
            }
        }
        _ => {}
    }
    status
}

pub fn change_light(bend: Bend, call: &Call, mut held: Held<'_>) -> u32 {
    let index = call.number;
    let readable = held.is_image();
    if readable {
        let new = index >= 8 && held.entry(index).is_none();
        match bend {
            Bend::LightLengthBeforeFull if call.has_wrong_length() => return WRONG_LENGTH,
            Bend::LightFullOfStored if index >= 8 && held.count() == image::ROOM => {
                return TABLE_FULL;
            }
            Bend::LightFullEarly if new && held.count() == image::ROOM - 1 => return TABLE_FULL,
            Bend::LightFullDrops if new && held.count() == image::ROOM => return ACCEPTED,
            Bend::LightAtNext if new && index < u32::MAX => {
                let number = index + 1;
                return held.call(&Call {
                    number,
                    ..call.clone()
                });
            }
            Bend::LightIndexCut => {
                let number = index & 0xFFFF;
                return held.call(&Call {
                    number,
                    ..call.clone()
                });
            }
            _ => {}
        }
    }
    match bend {
        Bend::EnabledOne => {
            let enabled = u32::from(call.enabled == 1);
            return held.call(&Call {
                enabled,
                ..call.clone()
            });
        }
        Bend::EnabledByte => {
            let enabled = call.enabled & 0xFF;
            return held.call(&Call {
                enabled,
                ..call.clone()
            });
        }
        _ => {}
    }
    let before = held.lent.image.to_vec();
    let status = held.call(call);
    if status != ACCEPTED {
        return status;
    }
    let entry = held.entry(index);
    let image = &mut *held.lent.image;
    match bend {
        Bend::LightClearsEnable => match entry {
            Some(at) => image[at + 4..at + 8].fill(0),
            None => image[image::ENABLED] &= !(1 << index),
        },
        Bend::LightTypeNan => {
            let at = entry.map_or(image::slot(index as usize & 7), |at| at + 8);
            if is_nan(image::number32(image, at)) {
                image[at..at + 4].copy_from_slice(&NAN.to_le_bytes());
            }
        }
        Bend::LightEqualKeepsClean | Bend::EnableEqualKeepsClean => keep_clean(image, &before),
        Bend::LightLeavesClean => image[image::DIRTY] = before[image::DIRTY],
        Bend::LightRefusesOdd => {
            let at = entry.map_or(image::slot(index as usize & 7), |at| at + 8);
            if !(1..=3).contains(&image::number32(image, at)) {
                image.copy_from_slice(&before);
            }
        }
        Bend::EnableRaw => {
            if let Some(at) = entry {
                image[at + 4..at + 8].copy_from_slice(&call.enabled.to_le_bytes());
            }
        }
        Bend::EnableDropped if index < 8 => image[image::ENABLED] = before[image::ENABLED],
        Bend::EnableAlpha => {
            // A default light whose alpha is 1.
            let at = entry.map_or(image::slot(index as usize & 7), |at| at + 8);
            let mut default = [0; LIGHT];
            records::put_light(&D3DLIGHT9::default(), &mut default);
            if image[at..at + LIGHT] == default {
                image[at + 16..at + 20].copy_from_slice(&1f32.to_le_bytes());
            }
        }
        Bend::EnableCount => {
            image[image::COUNT..image::ENTRIES]
                .copy_from_slice(&before[image::COUNT..image::ENTRIES]);
        }
        _ => {}
    }
    status
}

pub fn dirty(bend: Bend, call: &Call, mut held: Held<'_>) -> u32 {
    match bend {
        // Six bits, as before T-05, or eight and those that are cut off.
        Bend::MarkSeventh if (64..256).contains(&call.number) => return UNKNOWN_BITS,
        Bend::MarkNinth if (256..512).contains(&call.number) => {
            let number = call.number & 255;
            return held.call(&Call {
                number,
                ..call.clone()
            });
        }
        Bend::MarkByte => {
            let number = call.number & 0xFF;
            return held.call(&Call {
                number,
                ..call.clone()
            });
        }
        Bend::MarkBitsBeforeImage if call.number > 255 => return UNKNOWN_BITS,
        _ => {}
    }
    let before = held.lent.image.to_vec();
    let status = held.call(call);
    match bend {
        Bend::MarkRefusalMarks if status == UNKNOWN_BITS => {
            held.lent.image[image::DIRTY] |= call.number as u8;
        }
        Bend::MarkReplaces if status == ACCEPTED => {
            held.lent.image[image::DIRTY] = call.number as u8;
        }
        Bend::TakeKeeps if status == ACCEPTED => held.lent.image.copy_from_slice(&before),
        Bend::TakeGuard if status == ACCEPTED => past(held.lent.image),
        Bend::TakeForgets if status == ACCEPTED => *held.lent.number &= !32,
        Bend::TakeRefusalNumber if status != ACCEPTED => *held.lent.number = 0,
        _ => {}
    }
    status
}
