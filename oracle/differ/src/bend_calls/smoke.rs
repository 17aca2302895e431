//! Document 02, T-05: the setters of fog, the ambient colour and the texture mask, and what is packed of them.

use cases::call::{Call, Name};
use cases::floats::{NAN, ONE, SIGN, is_nan};
use cases::image;
use cases::key::Key;
use cases::section::{ROW, Section};

use super::changes::keep_clean;
use super::{ACCEPTED, Held};
use crate::bends::Bend;
use crate::host;

const FOG: u8 = 64;
const AMBIENT: u8 = 128;

fn put(image: &mut [u8], at: usize, word: u32) {
    image[at..at + 4].copy_from_slice(&word.to_le_bytes());
}

/// A setter.
pub fn set(bend: Bend, call: &Call, mut held: Held<'_>) -> u32 {
    let before = held.lent.image.to_vec();
    let status = held.call(call);
    if status != ACCEPTED {
        if bend == Bend::MaskRefusalWrites && before.len() == image::BYTES {
            held.lent.image[image::TEXTURE_MASK] ^= 1;
        }
        return status;
    }
    let image = &mut *held.lent.image;
    let dirty = before[image::DIRTY];
    match bend {
        Bend::FogStartClean | Bend::MaskClean => image[image::DIRTY] = dirty,
        Bend::FogStartEqualKeepsClean
        | Bend::AmbientEqualKeepsClean
        | Bend::MaskEqualKeepsClean => keep_clean(image, &before),
        Bend::FogStartNan => put(image, image::FOG_START, call.number),
        Bend::FogEndAtStart => {
            image.copy_from_slice(&before);
            let start = Call::numbered(Name::SetFogStart, call.number);
            return held.call(&start);
        }
        Bend::FogEndMarksAmbient => image[image::DIRTY] |= AMBIENT,
        Bend::FogDensityFlushes if call.number & 0x7F80_0000 == 0 => {
            put(image, image::FOG_DENSITY, call.number & SIGN);
        }
        Bend::FogDensityMarksAll => image[image::DIRTY] = image::ALL_DIRTY,
        Bend::AmbientMarksFog => image[image::DIRTY] = dirty | FOG,
        Bend::AmbientNan if is_nan(call.number) => put(image, image::AMBIENT, NAN),
        Bend::MaskAdds => image[image::TEXTURE_MASK] |= before[image::TEXTURE_MASK],
        Bend::MaskSeven => image[image::TEXTURE_MASK] &= 0x7F,
        _ => {}
    }
    status
}

/// The rows that such a version counts for the texture matrices.
fn textures(mask: u8, key: Key) -> u32 {
    Section::Tt.first_row() as u32 + Section::Tt.rows(key, mask)
}

/// Bends what an accepted call left; whether the bend is one of these.
pub fn after(bend: Bend, key: Key, held: &mut Held<'_>) -> bool {
    let mask = held.texture_mask();
    let number = *held.lent.number;
    match bend {
        // The rows of a fresh mask.
        Bend::CountNoTextures => without_textures(key, held),
        Bend::CountTexturesLit if key.lighting_enabled != 0 => without_textures(key, held),
        Bend::CountTextureOff if mask != 0 && number == textures(mask, key) => {
            *held.lent.number -= 4;
        }
        Bend::TtRowsOnes => *held.lent.number = 4 * mask.count_ones(),
        Bend::TtRowsNone => *held.lent.number = 0,
        Bend::TtRowsTransformed if key.has_rhw != 0 => *held.lent.number = 0,
        Bend::FogRowsNone if key.fog_mode == 0 => *held.lent.number = 0,
        Bend::AmbientRowsUnlit if key.lighting_enabled == 0 => *held.lent.number = 0,
        // A stage whose bit is clear, as the Rust's comment has it.
        Bend::TtIdentity => {
            for stage in (0..held.lent.out.len() / 64).filter(|stage| mask >> stage & 1 == 0) {
                for i in 0..16 {
                    held.put(64 * stage + 4 * i, if i % 5 == 0 { ONE } else { 0 });
                }
            }
        }
        Bend::TtUntransposed => {
            for four in held.lent.out.chunks_mut(64) {
                let m = four.to_vec();
                host::transpose(&m, four);
            }
        }
        Bend::TtFirst => {
            for i in 1..held.lent.out.len() / 64 {
                held.lent.out.copy_within(0..64, 64 * i);
            }
        }
        Bend::FogOrder => held.lent.out[4..12].rotate_left(4),
        Bend::FogFourth if key.fog_mode != 0 => held.put(12, ONE),
        Bend::AmbientSwapped => {
            let (red, blue) = (held.word(0), held.word(8));
            held.put(0, blue);
            held.put(8, red);
        }
        Bend::AmbientAlphaFirst => held.lent.out[..ROW].rotate_right(4),
        Bend::AmbientOver256 | Bend::AmbientReciprocal => {
            let color = image::number32(held.lent.image, image::AMBIENT);
            let [b, g, r, a] = color.to_le_bytes();
            for (i, byte) in [r, g, b, a].into_iter().enumerate() {
                let byte = f32::from(byte);
                let float = if bend == Bend::AmbientOver256 {
                    byte / 256.0
                } else {
                    byte * (1.0 / 255.0)
                };
                held.put(4 * i, float.to_bits());
            }
        }
        Bend::AmbientOpaque => held.put(12, ONE),
        _ => return false,
    }
    true
}

/// The row count of the image with the texture mask 0.
fn without_textures(key: Key, held: &mut Held<'_>) {
    let mask = held.lent.image[image::TEXTURE_MASK];
    held.lent.image[image::TEXTURE_MASK] = 0;
    held.call(&Call::keyed(Name::RowCount, key));
    held.lent.image[image::TEXTURE_MASK] = mask;
}
