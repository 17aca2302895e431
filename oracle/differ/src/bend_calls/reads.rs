//! The calls that only read.

use cases::call::Call;
use cases::floats::{NAN, SIGN, is_nan};
use cases::image;
use cases::model::refusal::{UNDEFINED_LIGHT, UNKNOWN_STATE, WRONG_LENGTH};

use super::{ACCEPTED, Held};
use crate::bends::Bend;
use crate::host::{self, Lent};

pub fn read(bend: Bend, call: &Call, mut held: Held<'_>) -> u32 {
    match bend {
        Bend::TransformLonger if call.lent_length() == 65 => {
            let (first, _) = core::mem::take(&mut held.lent.out).split_at_mut(64);
            held.lent.out = first;
            return held.call(call);
        }
        Bend::GetLengthBeforeUndefined if call.has_wrong_length() && held.is_image() => {
            return WRONG_LENGTH;
        }
        _ => {}
    }
    let status = held.call(call);
    let refused = status != ACCEPTED;
    match bend {
        Bend::TransformRefusalIdentity if status == UNKNOWN_STATE => held.lent.out.fill(0),
        Bend::GetRefusalWrites if status == UNDEFINED_LIGHT => held.lent.out.fill(0),
        Bend::IsEnabledRefusalNumber if refused => *held.lent.number = 0,
        _ => {}
    }
    if refused {
        return status;
    }
    let Lent {
        image, out, number, ..
    } = held.lent;
    match bend {
        Bend::TransformNan | Bend::GetNan => {
            // A light's type is the first number.
            let floats = if bend == Bend::GetNan { 4.. } else { 0.. };
            for four in out[floats].as_chunks_mut::<4>().0 {
                if is_nan(u32::from_le_bytes(*four)) {
                    *four = (NAN | SIGN).to_le_bytes();
                }
            }
        }
        Bend::TransformTransposed => {
            let m = out.to_vec();
            host::transpose(&m, out);
        }
        Bend::PaletteUsedIndex => *number -= 1,
        Bend::PaletteUsedCap => *number = (*number).min(40),
        Bend::WvpFromRight => {
            let matrix = |state: u32| {
                let at = image::place(state).expect("a known state");
                image[at..at + 64].to_vec()
            };
            let mut right = [0; 64];
            host::mat_mul(&matrix(2), &matrix(3), &mut right);
            host::mat_mul(&matrix(256), &right, out);
        }
        Bend::MaterialTakes => image[image::DIRTY] &= !4,
        Bend::GetEnabledOnly => out[..4].copy_from_slice(&3u32.to_le_bytes()),
        Bend::IsDefinedEnabled => {
            let slots = u32::from(image[image::ENABLED]) >> (call.number & 7) & 1;
            if call.number < 8 {
                *number = slots;
            }
        }
        Bend::IsEnabledMask => *number *= 255,
        Bend::SourceTag => *number &= 0x00FF_FFFF,
        Bend::SourceFour | Bend::MasksFour => *number &= 0xFF0F_0F0F,
        Bend::SourceUnmasked if *number >> 24 == 0 => {
            let raw = (0..8).filter(|&i| image[image::DEFINED] & (1 << i) != 0);
            for i in raw.filter(|&i| image::number32(image, image::slot(i)) == 3) {
                *number |= 0x100 << i;
            }
        }
        Bend::MasksExchanged => {
            let [active, directional, spot, _] = number.to_le_bytes();
            *number = u32::from_le_bytes([active, spot, directional, 0]);
        }
        Bend::MasksTag => *number |= u32::from(image[image::COUNT] != 0) << 24,
        Bend::MasksSlots => {
            // Those of the slots that light, not compacted.
            let lit = (0..8).filter(|&i| image[image::ENABLED] & (1 << i) != 0);
            let lit = lit.filter(|&i| (1..=3).contains(&image::number32(image, image::slot(i))));
            let mask: u32 = lit.map(|i| 1 << i).sum();
            if image[image::COUNT] == 0 {
                *number = (*number & !0xFF) | mask;
            }
        }
        _ => {}
    }
    status
}
