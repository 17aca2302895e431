//! A sample of calls on one running image.

use cases::call::{Call, Gives, Length, NAMES, Name};
use cases::image::{self, BYTES, ROOM};
use cases::key::Key;
use cases::lists;
use cases::states::{directed, enable, set_light};

use crate::running::Running;
use crate::{SEED, Sample};
use crate::{draws, smoke};

/// Random lists of the sample.
const LISTS: u64 = 10;

/// A light of zeros but for its type.
pub fn light(index: u32, type_: u32) -> Call {
    set_light(index, &directed(type_, [0; 3]))
}

/// The call with a slice that is a byte short.
fn short(call: &Call) -> Call {
    let mut call = call.clone();
    if call.given.pop().is_none() {
        call.lent = Length::Bytes(call.right_length().max(2) - 1);
    }
    call
}

/// Document 01's cases P7, P8 and P9, each on a fresh image.
fn cases() -> Vec<Call> {
    let fresh = Call::plain(Name::ImageFresh);
    let inputs = Call::plain(Name::VsSourceLightInputs);
    let mut calls = vec![
        fresh.clone(),
        enable(0, 1),
        light(3, 2),
        enable(3, 1),
        // A directional light and a spot that are defined and do not light.
        light(1, 3),
        light(2, 2),
        inputs.clone(),
        light(9, 1),
        enable(9, 1),
        inputs.clone(),
        Call::plain(Name::CompactedLightMasks),
        enable(9, 0),
        inputs,
        fresh.clone(),
    ];
    for state in [15, 16, 511, 512] {
        calls.push(Call::numbered(Name::SetTransform, state));
        calls.push(Call::numbered(Name::Transform, state));
        calls.push(Call::plain(Name::WorldPaletteUsed));
    }
    calls.push(fresh);
    // Falling indices, so that each entry is put before the others.
    calls.extend((0..=ROOM as u32).map(|i| light(1000 - i, 1)));
    calls.push(enable(2000, 1));
    calls.push(Call::numbered(Name::GetLightAt, 945));
    calls
}

/// Each call on an image with one byte damaged, which is then put back.
fn damaged(running: &mut Running) {
    for (&name, at) in NAMES
        .iter()
        .zip([image::ZERO, image::TAIL - 1, BYTES - 1].iter().cycle())
    {
        let kept = running.image[*at];
        running.put_byte(*at, kept | 0x40);
        running.call(&Call::plain(name));
        if name != Name::ImageFresh {
            running.put_byte(*at, kept);
        }
    }
}

/// Each call that is given or lent a slice, with one that is a byte short and nothing else that is refused.
fn short_slices() -> Vec<Call> {
    let sliced = NAMES.iter().filter(|name| {
        let form = name.form();
        form.takes.is_some()
            || matches!(form.gives, Gives::Item(_) | Gives::Fill(_) | Gives::Mirror)
    });
    let calls = sliced.map(|&name| {
        let number = match name {
            Name::SetTransform | Name::MultiplyTransform | Name::Transform => 256,
            Name::GetLightAt => 945,
            _ => 0,
        };
        short(&Call::numbered(name, number))
    });
    calls.collect()
}

/// Calls that two refusals stop, on a state whose table is full; then on bytes that are no image.
fn orders(running: &mut Running) {
    let states = [Name::SetTransform, Name::MultiplyTransform, Name::Transform];
    let unknown = states.map(|name| Call::numbered(name, 15));
    let undefined = Call::numbered(Name::GetLightAt, 2000);
    let full = [light(2000, 1), enable(2000, 1)];
    let mut before_length = unknown.to_vec();
    before_length.extend([undefined, full[0].clone()]);
    let refreshes = [
        (1, 0xAA, true),
        (1, 0, true),
        (0, 0xAA, true),
        (1, 0xAA, false),
    ];
    let refreshes = refreshes.map(|(has_rhw, light_active_mask, wrong)| {
        let key = Key {
            has_rhw,
            light_active_mask,
            ..Key::default()
        };
        let call = Call::keyed(Name::Refresh, key);
        if wrong { short(&call) } else { call }
    });
    let masked = Call::keyed(
        Name::FillLights,
        Key {
            light_active_mask: 0xAA,
            ..Key::default()
        },
    );
    let mut calls: Vec<Call> = before_length.iter().map(short).collect();
    calls.extend(refreshes.clone());
    calls.extend([masked.clone(), short(&masked)]);
    calls.extend(short_slices());
    running.calls(&calls);

    let kept = running.image[image::ZERO];
    running.put_byte(image::ZERO, 1);
    running.calls(&calls);
    running.calls(&before_length);
    let bits = Call::numbered(Name::MarkFfVsDirty, 256);
    running.calls(&[full[1].clone(), bits]);
    running.calls(&short_slices());
    running.put_byte(image::ZERO, kept);
}

/// Each call that only reads, those of a number with three.
fn reads(of: u32) -> Vec<Call> {
    let reads = NAMES
        .iter()
        .filter(|name| !name.form().writes && !name.takes_key());
    let calls = reads.flat_map(|&name| {
        match name {
            Name::Transform => [2 + of % 2, 16 + of % 8, 256 + of].map(Some),
            _ if name.takes_number() => [of % 8, 7 - of % 8, 8 + of].map(Some),
            _ => [Some(0), None, None],
        }
        .into_iter()
        .flatten()
        .map(move |number| Call::numbered(name, number))
    });
    calls.collect()
}

pub fn calls(sample: &mut Sample) {
    let mut running = Running::new(sample);
    // Zeros are no image, and the last of these calls makes them one.
    for &name in NAMES.iter().rev() {
        running.call(&Call::plain(name));
    }
    damaged(&mut running);
    for name in [Name::ImageFresh, Name::ImageCheck] {
        for length in [0, 1, image::TAIL, BYTES - 4, BYTES - 1] {
            running.call_on(&Call::plain(name), length);
        }
    }
    running.calls(&cases());
    orders(&mut running);
    draws::packs(&mut running);
    draws::frames(&mut running);
    for number in 0..LISTS {
        running.call(&Call::plain(Name::ImageFresh));
        for call in lists::list(SEED, number) {
            running.random(&call);
        }
        running.calls(&reads(number as u32));
    }
    draws::directions(&mut running);
    draws::previews(&mut running);
    smoke::smoke(&mut running);
}
