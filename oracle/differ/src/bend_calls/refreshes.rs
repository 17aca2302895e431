//! ff_refresh.

use cases::call::{Call, Name};
use cases::floats::with_one_nan;
use cases::image::{self, number32};
use cases::key::Key;
use cases::model::refusal::{TRANSFORMED, WRONG_LENGTH, WRONG_MASK};
use cases::section::{EIGHT_BITS, MIRROR, ROW, Section};

use super::{ACCEPTED, Held, past, previews};
use crate::bends::Bend;

pub fn refresh(bend: Bend, call: &Call, mut held: Held<'_>) -> u32 {
    if let Some(answer) = instead(bend, call, &mut held) {
        return answer;
    }
    let before = Before {
        mirror: held.lent.out.to_vec(),
        bits: held.lent.image.get(image::DIRTY).copied().unwrap_or(0),
        mask: held.texture_mask(),
    };
    let status = held.call(&other_key(bend, call, &held));
    match status {
        ACCEPTED => after(bend, call.key, &before, &mut held),
        _ => after_refusal(bend, status, &mut held),
    }
    status
}

/// What was there before the call.
struct Before {
    mirror: Vec<u8>,
    bits: u8,
    mask: u8,
}

/// What such a version takes the key for.
fn other_key(bend: Bend, call: &Call, held: &Held<'_>) -> Call {
    let mut call = call.clone();
    let key = &mut call.key;
    let clean = |section: Section| {
        let dirty = held.lent.image.get(image::DIRTY);
        dirty.is_some_and(|bits| bits & section.bit() == 0)
    };
    match bend {
        Bend::RefreshMaskClean if clean(Section::Lights) => key.light_active_mask = 0,
        Bend::RefreshMaskUnlit if key.lighting_enabled == 0 => key.light_active_mask = 0,
        Bend::RefreshRhwLow => key.has_rhw &= 1,
        Bend::RefreshPreviewIgnored => key.preview = 0,
        Bend::RefreshPreviewLow => key.preview &= 1,
        Bend::RefreshFogMode => key.fog_mode = 0,
        _ => {}
    }
    call
}

/// An answer that is given before the call is made.
fn instead(bend: Bend, call: &Call, held: &mut Held<'_>) -> Option<u32> {
    let (key, wrong_length) = (call.key, call.has_wrong_length());
    if bend == Bend::RefreshLengthBeforeImage && wrong_length {
        return Some(WRONG_LENGTH);
    }
    let active = held.active(key)?;
    let wrong_mask = key.light_active_mask != 0 && key.light_active_mask != active;
    match bend {
        Bend::RefreshRhwBeforeLength if key.has_rhw != 0 => Some(TRANSFORMED),
        Bend::RefreshMaskBeforeRhw if wrong_mask && !wrong_length => Some(WRONG_MASK),
        Bend::RefreshMaskBeforeLength if wrong_mask && key.has_rhw == 0 => Some(WRONG_MASK),
        Bend::RefreshMaskZero if !wrong_length && key.has_rhw == 0 && active != 0 => {
            (key.light_active_mask == 0).then_some(WRONG_MASK)
        }
        Bend::RefreshLonger if held.lent.out.len() > MIRROR => {
            let (first, _) = core::mem::take(&mut held.lent.out).split_at_mut(MIRROR);
            held.lent.out = first;
            None
        }
        _ if key.preview != 0 && !wrong_length && key.has_rhw == 0 => {
            previews::instead(bend, key, held)
        }
        _ => None,
    }
}

fn forgotten(bend: Bend) -> Option<Section> {
    Some(match bend {
        Bend::RefreshForgetsWv => Section::Wv,
        Bend::RefreshForgetsProj => Section::Proj,
        Bend::RefreshForgetsMaterial => Section::Material,
        Bend::RefreshForgetsLights => Section::Lights,
        Bend::RefreshForgetsPalette => Section::Palette,
        Bend::RefreshForgetsTt => Section::Tt,
        Bend::RefreshForgetsFog => Section::Fog,
        Bend::RefreshForgetsAmbient => Section::Ambient,
        _ => return None,
    })
}

/// Bends what an accepted call left.
fn after(bend: Bend, key: Key, before: &Before, held: &mut Held<'_>) {
    let out = &mut *held.lent.out;
    let restore = |out: &mut [u8], section: Section| {
        let place = section.place(key, before.mask);
        out[place.clone()].copy_from_slice(&before.mirror[place]);
    };
    if let Some(section) = forgotten(bend) {
        restore(out, section);
    }
    match bend {
        Bend::RefreshKeepsBits => held.lent.image[image::DIRTY] = before.bits,
        Bend::RefreshRowLate => late(out, before, key, Section::Material),
        Bend::RefreshPaletteLate => late(out, before, key, Section::Palette),
        Bend::RefreshTtLate => late(out, before, key, Section::Tt),
        // The last stage is left out.
        Bend::RefreshTtStages if before.bits & Section::Tt.bit() != 0 && before.mask != 0 => {
            let end = Section::Tt.place(key, before.mask).end;
            out[end - 4 * ROW..end].copy_from_slice(&before.mirror[end - 4 * ROW..end]);
        }
        Bend::RefreshLightsUnlit if key.lighting_enabled == 0 => restore(out, Section::Lights),
        // Later it only reports the bits.
        Bend::RefreshFirstOnly if before.bits != image::ALL_DIRTY => {
            out.copy_from_slice(&before.mirror);
        }
        // Every section, whatever the bits.
        Bend::RefreshAlways => again(key, EIGHT_BITS, held),
        // The lights of a preview, whatever the bits.
        Bend::RefreshPreviewWrites if key.preview != 0 => again(key, Section::Lights.bit(), held),
        Bend::RefreshWhole => {
            let end = Section::Palette.place(key, before.mask).end;
            out[end..].fill(0);
        }
        Bend::RefreshOneNan => {
            for four in out.as_chunks_mut::<4>().0 {
                *four = with_one_nan(number32(four, 0)).to_le_bytes();
            }
        }
        // The six of before T-05.
        Bend::RefreshBits => *held.lent.number &= 63,
        Bend::RefreshBitsLeft => *held.lent.number = 0,
        Bend::RefreshGuard => past(out),
        Bend::RefreshPreviewLast
            if key.preview != 0 && before.bits & Section::Lights.bit() != 0 =>
        {
            previews::put_last(held, Section::Lights.place(key, before.mask));
        }
        _ => {}
    }
}

/// Writes the sections that these bits name too.
fn again(key: Key, bits: u8, held: &mut Held<'_>) {
    held.lent.image[image::DIRTY] = bits;
    let taken = *held.lent.number;
    held.call(&Call::keyed(Name::Refresh, key));
    *held.lent.number = taken;
}

/// A section that is written a row below its first.
fn late(out: &mut [u8], before: &Before, key: Key, section: Section) {
    let place = section.place(key, before.mask);
    if before.bits & section.bit() != 0 && !place.is_empty() && place.end + ROW <= MIRROR {
        out.copy_within(place.clone(), place.start + ROW);
        out[place.start..place.start + ROW]
            .copy_from_slice(&before.mirror[place.start..place.start + ROW]);
    }
}

fn after_refusal(bend: Bend, status: u32, held: &mut Held<'_>) {
    match (bend, status) {
        (Bend::RefreshRefusalWrites, TRANSFORMED | WRONG_LENGTH)
        | (Bend::RefreshMaskWrites, WRONG_MASK) => held.lent.out.fill(0),
        (Bend::RefreshRefusalTakes, TRANSFORMED | WRONG_MASK) => {
            held.lent.image[image::DIRTY] = 0;
        }
        (Bend::RefreshRefusalNumber, _) => *held.lent.number = 0,
        _ => {}
    }
}
