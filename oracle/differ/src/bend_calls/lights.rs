//! The rows of lights.

use cases::floats::{NAN, ONE, SIGN, is_nan};
use cases::image;
use cases::section::ROW;

use super::Held;
use crate::bends::Bend;

/// The rows of a light.
const LIGHT: usize = 6 * ROW;
/// Document 01's 1e-6.
const FLOOR: u32 = 0x3586_37BD;
/// Where the direction and the falloff stand in a light.
const DIRECTION: usize = 64;
const FALLOFF: usize = 80;

impl Held<'_> {
    /// Bends the word at `at` of each light.
    fn each_light(&mut self, at: usize, bent: impl Fn(u32) -> u32) {
        for light in (0..self.lent.out.len()).step_by(LIGHT) {
            let word = self.word(light + at);
            self.put(light + at, bent(word));
        }
    }

    /// The lights that light and stand in slots, by their places in the image, as far as they are packed.
    fn lit_slots(&self) -> Vec<usize> {
        let image = &*self.lent.image;
        let lit = (0..image::SLOTS).filter(|i| image[image::ENABLED] & (1 << i) != 0);
        lit.map(image::slot)
            .filter(|&at| (1..=3).contains(&image::number32(image, at)))
            .collect()
    }
}

/// Bends what an accepted call left.
pub fn after(bend: Bend, held: &mut Held<'_>) {
    match bend {
        Bend::LightsKinds => held.each_light(12, |kind| match f32::from_bits(kind) {
            3.0 => ONE,
            1.0 => 3f32.to_bits(),
            _ => kind,
        }),
        Bend::LightsFalloff => {
            held.each_light(ROW + 12, |word| if word == FLOOR { 0 } else { word });
        }
        Bend::LightsFalloffNan => {
            for (light, at) in held.lit_slots().into_iter().enumerate() {
                let falloff = image::number32(held.lent.image, at + FALLOFF);
                if light * LIGHT < held.lent.out.len() && is_nan(falloff) {
                    held.put(light * LIGHT + ROW + 12, NAN);
                }
            }
        }
        Bend::LightsAlpha => held.each_light(2 * ROW + 12, |_| 0),
        Bend::LightsOffset => held.each_light(3 * ROW + 12, |word| match word {
            0 => 0,
            _ => word ^ SIGN,
        }),
        Bend::LightsRange => held.each_light(4 * ROW + 12, |_| 0),
        Bend::LightsScale => held.each_light(5 * ROW + 12, |word| match word {
            0 => ONE,
            _ => word,
        }),
        Bend::LightsUnnormalized => {
            for (light, at) in held.lit_slots().into_iter().enumerate() {
                // Under a view that is not the identity this is another direction still.
                for i in 0..3 {
                    let entry = image::number32(held.lent.image, at + DIRECTION + 4 * i);
                    if light * LIGHT < held.lent.out.len() {
                        held.put(light * LIGHT + ROW + 4 * i, entry);
                    }
                }
            }
        }
        // Document 01 alone: a length that overflows makes zeros.
        Bend::LightsLong => {
            for (light, at) in held.lit_slots().into_iter().enumerate() {
                let entry = |i: usize| image::number32(held.lent.image, at + DIRECTION + 4 * i);
                let direction = [0, 1, 2].map(|i| f32::from_bits(entry(i)));
                let length = direction.iter().map(|x| x * x).sum::<f32>();
                let finite = direction.iter().all(|x| x.is_finite());
                if light * LIGHT < held.lent.out.len() && finite && length.is_infinite() {
                    for (i, x) in direction.into_iter().enumerate() {
                        held.put(light * LIGHT + ROW + 4 * i, x.to_bits() & SIGN);
                    }
                }
            }
        }
        Bend::LightsZeroSign => {
            for i in 0..3 {
                held.each_light(ROW + 4 * i, |word| if word == SIGN { 0 } else { word });
            }
        }
        Bend::LightsRowsSwapped => {
            for light in (0..held.lent.out.len()).step_by(LIGHT) {
                held.lent.out[light + 2 * ROW..light + 4 * ROW].rotate_left(ROW);
            }
        }
        Bend::LightsReversed => {
            let before = held.lent.out.to_vec();
            for (to, from) in held
                .lent
                .out
                .chunks_mut(LIGHT)
                .zip(before.chunks(LIGHT).rev())
            {
                to.copy_from_slice(from);
            }
        }
        _ => {}
    }
}
