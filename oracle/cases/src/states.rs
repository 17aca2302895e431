//! Lists of calls that make a state worth packing: every kind of float in every field that a packed row comes from.

use crate::answers::Words;
use crate::call::{Call, LIGHT, MATERIAL, Name};
use crate::floats::{self, NAN, ONE, SIGN, SPECIAL, scaled};
use crate::image::{MATRICES, SLOTS, TEXTURES};
use crate::key::Key;
use crate::lists;
use crate::matrices::{self, KINDS, Kind};
use crate::random::Random;

const VIEW: u32 = 2;
const PROJECTION: u32 = 3;
const TEXTURE: u32 = 16;
const WORLD: u32 = 256;

/// 1e20 and 1e-20, whose squares are no normal floats; the first is of document 01's run-only case.
pub const LONG: u32 = 0x60AD_78EC;
pub const SHORT: u32 = 0x1E3C_E508;
/// Document 01's 1e-6.
const FLOOR: u32 = 0x3586_37BD;

/// Where the numbers of a light stand among its 26.
const POSITION: usize = 13;
const DIRECTION: usize = 16;
const FALLOFF: usize = 20;
const THETA: usize = 24;
const PHI: usize = 25;

/// The calls of the state with this number: of every four one is a random list of calls.
#[must_use]
pub fn calls(seed: u64, number: u64) -> Vec<Call> {
    if number.is_multiple_of(4) {
        let mut calls = lists::list(seed, number);
        calls.retain(|call| call.damage.is_none());
        return calls;
    }
    let mut random = Random::of_input(seed ^ 0x7061_636B, number);
    let mut calls = transforms(&mut random);
    calls.push(set_material(floats_of(MATERIAL / 4, &mut random)));
    lights(&mut random, &mut calls);
    smoke(&mut random, &mut calls);
    calls
}

#[must_use]
pub fn set_transform(state: u32, m: &Words) -> Call {
    Call {
        given: bytes(m),
        ..Call::numbered(Name::SetTransform, state)
    }
}

#[must_use]
pub fn set_material(given: Vec<u8>) -> Call {
    Call {
        given,
        ..Call::plain(Name::SetMaterial)
    }
}

/// Document 02, T-05: fog's start, end or density by the bits of a float, or the ambient colour.
#[must_use]
pub fn set_value(name: Name, value: u32) -> Call {
    Call::numbered(name, value)
}

#[must_use]
pub fn set_texture_mask(mask: u8) -> Call {
    Call::numbered(Name::SetTextureMask, mask.into())
}

#[must_use]
pub fn set_light(index: u32, light: &[u32; LIGHT / 4]) -> Call {
    Call {
        given: bytes(light),
        ..Call::numbered(Name::SetLightAt, index)
    }
}

#[must_use]
pub fn enable(index: u32, enabled: u32) -> Call {
    Call {
        enabled,
        ..Call::numbered(Name::SetLightEnabledAt, index)
    }
}

#[must_use]
pub fn mark(bits: u32) -> Call {
    Call::numbered(Name::MarkFfVsDirty, bits)
}

/// A refresh under the state's own mask.
#[must_use]
pub fn refresh(key: Key) -> Call {
    Call {
        own_mask: Some(0),
        ..Call::keyed(Name::Refresh, key)
    }
}

/// A light of zeros but for its type and its direction.
#[must_use]
pub fn directed(type_: u32, direction: [u32; 3]) -> [u32; LIGHT / 4] {
    let mut light = [0; LIGHT / 4];
    light[0] = type_;
    light[DIRECTION..DIRECTION + 3].copy_from_slice(&direction);
    light
}

fn bytes(words: &[u32]) -> Vec<u8> {
    words.iter().flat_map(|word| word.to_le_bytes()).collect()
}

fn float(random: &mut Random) -> u32 {
    match random.below(8) {
        0 | 1 => random.pick(&SPECIAL),
        2 => random.word(),
        3 => scaled(random, -20, 20),
        _ => (random.between(-9, 9) as f32 * 0.5).to_bits(),
    }
}

fn floats_of(count: usize, random: &mut Random) -> Vec<u8> {
    (0..count)
        .flat_map(|_| float(random).to_le_bytes())
        .collect()
}

/// A view that turns and moves, or one of any kind.
pub(crate) fn view(random: &mut Random) -> Call {
    let kind = if random.chance(2) {
        Kind::Rigid
    } else {
        random.pick(&KINDS)
    };
    set_transform(VIEW, &matrices::matrix(kind, random))
}

fn transforms(random: &mut Random) -> Vec<Call> {
    let mut calls = Vec::new();
    if !random.chance(4) {
        calls.push(view(random));
    }
    let kind = random.pick(&KINDS);
    calls.push(set_transform(PROJECTION, &matrices::matrix(kind, random)));
    for _ in 0..random.pick(&[1, 2, 4, 12]) {
        let index = match random.below(3) {
            0 => random.pick(&[0, 1, 2, 3, 38, 39, 40, 41, 253, 254, 255]),
            1 => random.below(5),
            _ => random.below(MATRICES as u32),
        };
        let kind = random.pick(&KINDS);
        calls.push(set_transform(
            WORLD + index,
            &matrices::matrix(kind, random),
        ));
    }
    calls
}

/// Up to ten lights, in slots and from index 8 on, most of them enabled.
fn lights(random: &mut Random, calls: &mut Vec<Call>) {
    for _ in 0..random.below(11) {
        let index = if random.chance(3) {
            random.pick(&[8, 9, 70, 255, 256, 65_536, u32::MAX])
        } else {
            random.below(SLOTS as u32)
        };
        calls.push(set_light(index, &light(random)));
        if !random.chance(6) {
            calls.push(enable(index, 1));
        }
    }
}

/// Fog, an ambient colour, some texture matrices and a texture mask.
fn smoke(random: &mut Random, calls: &mut Vec<Call>) {
    for name in [Name::SetFogStart, Name::SetFogEnd, Name::SetFogDensity] {
        calls.push(set_value(name, float(random)));
    }
    calls.push(set_value(Name::SetAmbient, random.word()));
    for _ in 0..random.below(4) {
        let stage = TEXTURE + random.below(TEXTURES as u32);
        let kind = random.pick(&KINDS);
        calls.push(set_transform(stage, &matrices::matrix(kind, random)));
    }
    let mask = match random.below(3) {
        0 => 0,
        1 => 1 << random.below(8),
        _ => random.below(256) as u8,
    };
    calls.push(set_texture_mask(mask));
}

pub(crate) fn light(random: &mut Random) -> [u32; LIGHT / 4] {
    let mut light = [0; LIGHT / 4];
    let plain = random.chance(2);
    for number in &mut light {
        *number = if plain {
            scaled(random, -4, 4)
        } else {
            float(random)
        };
    }
    light[0] = if random.chance(5) {
        random.below(6)
    } else {
        1 + random.below(3)
    };
    for number in &mut light[POSITION..DIRECTION] {
        *number = scaled(random, -6, 6);
    }
    light[DIRECTION..DIRECTION + 3].copy_from_slice(&direction(random));
    light[FALLOFF] = falloff(random);
    light[THETA] = angle(random);
    light[PHI] = match random.below(4) {
        0 => light[THETA],
        _ => angle(random),
    };
    if random.chance(4) {
        light[1 + random.below(25) as usize] = random.pick(&SPECIAL);
    }
    light
}

fn direction(random: &mut Random) -> [u32; 3] {
    let size = random.below(9);
    core::array::from_fn(|_| match size {
        0 => random.pick(&[0, SIGN]),
        1 => random.pick(&[0, SIGN, LONG, LONG | SIGN]),
        2 => random.pick(&[0, SHORT, SHORT | SIGN, 1, 0x007F_FFFF]),
        // About the root of the least normal float, and of the largest: the square's own border.
        3 => scaled(random, -76, -60),
        4 => scaled(random, 60, 64),
        5 => random.pick(&SPECIAL),
        6 => random.pick(&[0, SIGN, ONE, ONE | SIGN]),
        7 => scaled(random, -126, 127),
        _ => scaled(random, -3, 3),
    })
}

fn falloff(random: &mut Random) -> u32 {
    match random.below(4) {
        0 => random.pick(&[NAN, 0x7F80_0001, 0xFFC0_0000, 0, SIGN, ONE | SIGN]),
        1 => FLOOR.wrapping_add_signed(random.between(-1, 1)),
        2 => float(random),
        _ => scaled(random, -24, 3),
    }
}

fn angle(random: &mut Random) -> u32 {
    match random.below(6) {
        0 => random.pick(&SPECIAL),
        1 => random.pick(&[
            0,
            SIGN,
            floats::TURN,
            floats::HALF_TURN,
            floats::QUARTER_TURN,
        ]),
        2 => scaled(random, 3, 30),
        // Cones so narrow that the difference of the cosines is about the floor.
        3 => scaled(random, -11, -8),
        _ => scaled(random, -3, 1) & !SIGN,
    }
}
