//! ff_image_fresh and ff_image_check.

use cases::call::Call;
use cases::floats::{NAN, is_nan};
use cases::image::{self, Reason};
use cases::model::refusal::NO_IMAGE;

use super::{ACCEPTED, Held};
use crate::bends::Bend;

pub fn image_fresh(bend: Bend, call: &Call, mut held: Held<'_>) -> u32 {
    if bend == Bend::FreshLonger && held.lent.image.len() > image::BYTES {
        let (first, _) = held.lent.image.split_at_mut(image::BYTES);
        held.lent.image = first;
        return held.call(call);
    }
    let status = held.call(call);
    match held.whole() {
        Some(image) if bend == Bend::FreshClean => image[image::DIRTY] = 0,
        Some(image) if bend == Bend::FreshAlpha => {
            let alpha = image::slot(7) + 16;
            image[alpha..alpha + 4].copy_from_slice(&1f32.to_le_bytes());
        }
        _ => {}
    }
    status
}

/// The reason that such a version forgets.
fn forgotten(bend: Bend) -> Option<Reason> {
    Some(match bend {
        Bend::CheckZero => Reason::Zero,
        Bend::CheckHighest => Reason::Highest,
        Bend::CheckCount => Reason::Count,
        Bend::CheckOrder => Reason::Order,
        Bend::CheckEnable => Reason::Enable,
        Bend::CheckUnused => Reason::Unused,
        Bend::CheckEnabled => Reason::Enabled,
        Bend::CheckUndefined => Reason::Undefined,
        Bend::CheckNan => Reason::Nan,
        Bend::CheckMask => Reason::Mask,
        Bend::CheckLength => Reason::Length,
        _ => return None,
    })
}

pub fn image_check(bend: Bend, call: &Call, mut held: Held<'_>) -> u32 {
    let status = held.call(call);
    let reasons = image::reasons(held.lent.image);
    if let Some(reason) = forgotten(bend)
        && reasons == [reason]
    {
        return ACCEPTED;
    }
    if bend == Bend::CheckOldLength && held.lent.image.len() == image::TAIL {
        return ACCEPTED;
    }
    // A version that does not look at this float; the others are right.
    let unseen = |image: &[u8], at: usize| {
        let float = image::number32(image, at);
        reasons == [Reason::Nan] && is_nan(float) && float != NAN
    };
    match held.whole() {
        Some(image) if bend == Bend::CheckFogStart && unseen(image, image::FOG_START) => ACCEPTED,
        Some(image) if bend == Bend::CheckFogEnd && unseen(image, image::FOG_END) => ACCEPTED,
        Some(image) if bend == Bend::CheckFogDensity && unseen(image, image::FOG_DENSITY) => {
            ACCEPTED
        }
        // Dirty bytes that are wrongly refused: 255, and all above the six bits of before T-05.
        Some(image) if bend == Bend::CheckDirty && image[image::DIRTY] == 255 => NO_IMAGE,
        Some(image) if bend == Bend::CheckDirtySix && image[image::DIRTY] > 63 => NO_IMAGE,
        // The mask's last byte alone is looked at.
        Some(image) if bend == Bend::CheckMaskByte && reasons == [Reason::Mask] => {
            if image[image::TEXTURE_MASK + 3] == 0 {
                ACCEPTED
            } else {
                status
            }
        }
        // A colour is a number, and may have the bits of any NaN.
        Some(image) if bend == Bend::CheckColorNan => {
            let bits = image::number32(image, image::AMBIENT);
            if is_nan(bits) && bits != NAN {
                NO_IMAGE
            } else {
                status
            }
        }
        // A type is a number, and may have the bits of any NaN.
        Some(image) if bend == Bend::CheckType => {
            let types = (0..image::SLOTS).map(|i| image::number32(image, image::slot(i)));
            let wrong = types.into_iter().any(|bits| is_nan(bits) && bits != NAN);
            if wrong { NO_IMAGE } else { status }
        }
        Some(image) if bend == Bend::CheckOneNan => {
            let view = image[..64].as_chunks().0;
            let found = view.iter().any(|&four| u32::from_le_bytes(four) == NAN);
            if found { NO_IMAGE } else { status }
        }
        _ => status,
    }
}
