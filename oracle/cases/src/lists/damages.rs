//! Images damaged at random: each reason for 9 can stand alone, and some changes leave an image.

use super::List;
use crate::damage::Damage;
use crate::floats::NAN;
use crate::image::{self, BYTES, ROOM, SLOTS};

/// The fields that are one byte, or two.
const BYTE_FIELDS: [usize; 4] = [image::ENABLED, image::DEFINED, image::DIRTY, image::ZERO];
const WIDE_FIELDS: [usize; 2] = [image::HIGHEST, image::COUNT];

impl List<'_> {
    /// One change, or two.
    pub(super) fn damage(&mut self) -> Damage {
        let first = self.change();
        if self.random.chance(6) {
            first.and(self.change())
        } else {
            first
        }
    }

    fn change(&mut self) -> Damage {
        match self.random.below(14) {
            0 => self.image_length(),
            1 => self.byte_field(),
            2 => self.wide_field(),
            3 => self.slot_field(),
            4..6 => self.entry_field(),
            6 => self.unused_entry(),
            7 => self.any_byte(),
            8 => self.full_table(),
            9 | 10 => self.tail_field(),
            _ => self.float_field(),
        }
    }

    fn image_length(&mut self) -> Damage {
        const LENGTHS: [usize; 13] = [
            0,
            1,
            image::TAIL,
            BYTES - 1,
            BYTES + 1,
            BYTES - 4,
            BYTES + 4,
            BYTES - image::ENTRY,
            BYTES + image::ENTRY,
            BYTES - 256,
            BYTES + 65_536,
            2 * BYTES,
            image::ENTRIES,
        ];
        if self.random.chance(4) {
            Damage::length(self.random.below(30_000) as usize)
        } else {
            Damage::length(self.random.pick(&LENGTHS))
        }
    }

    fn byte_field(&mut self) -> Damage {
        let at = self.random.pick(&BYTE_FIELDS);
        let byte = match self.random.below(3) {
            0 => self.random.pick(&[0, 1, 62, 63, 64, 65, 127, 128, 255]),
            1 => 1 << self.random.below(8),
            _ => self.random.below(256) as u8,
        };
        Damage::bytes(at, &[byte])
    }

    fn wide_field(&mut self) -> Damage {
        let at = self.random.pick(&WIDE_FIELDS);
        let number = match self.random.below(3) {
            0 => self.random.pick(&[
                0, 1, 55, 56, 57, 58, 254, 255, 256, 257, 312, 32_768, 65_535,
            ]),
            1 => self.random.below(60) as u16,
            _ => self.random.word() as u16,
        };
        Damage::bytes(at, &number.to_le_bytes())
    }

    /// A number of a slot's light, its type among them; most slots of a short list are undefined.
    fn slot_field(&mut self) -> Damage {
        let slot = image::slot(self.random.below(SLOTS as u32) as usize);
        let word = self.light_number();
        Damage::word(slot + 4 * word.0, word.1)
    }

    /// A number of a light and its place among the 26.
    fn light_number(&mut self) -> (usize, u32) {
        match self.random.below(26) as usize {
            0 => (0, self.light_type()),
            at => (at, self.image_float()),
        }
    }

    /// What a float of an image may be or not: often the one NaN, or a zero of another sign.
    fn image_float(&mut self) -> u32 {
        match self.random.below(4) {
            0 => self.random.pick(&[NAN, 0, 0x8000_0000]),
            1 => self.nan(),
            _ => self.float(),
        }
    }

    fn entry_field(&mut self) -> Damage {
        let near = self.random.below(self.pool.len().min(ROOM) as u32);
        let entry = image::entry(near as usize);
        match self.random.below(4) {
            0 => Damage::word(entry, self.index()),
            1 => Damage::word(entry + 4, self.number()),
            _ => {
                let word = self.light_number();
                Damage::word(entry + 8 + 4 * word.0, word.1)
            }
        }
    }

    fn unused_entry(&mut self) -> Damage {
        let entry = image::entry(self.random.below(ROOM as u32) as usize);
        let at = entry + self.random.below(image::ENTRY as u32) as usize;
        Damage::bytes(at, &[1 << self.random.below(8)])
    }

    fn any_byte(&mut self) -> Damage {
        let at = match self.random.below(3) {
            // Each region is as likely as the largest.
            0 => {
                let region = self.random.below(image::REGIONS.len() as u32) as usize;
                let start = image::REGIONS[region].0;
                let end = image::REGIONS.get(region + 1).map_or(BYTES, |next| next.0);
                start + self.random.below((end - start) as u32) as usize
            }
            1 => BYTES - 1 - self.random.below(8) as usize,
            _ => self.random.below(BYTES as u32) as usize,
        };
        Damage::bytes(at, &[self.random.below(256) as u8])
    }

    /// About 56 entries of lights that are all zeros, strictly ascending but for an index changed in
    /// one of two, and their count, or one that is too large.
    fn full_table(&mut self) -> Damage {
        let mut indices: Vec<u32> = (0..ROOM as u32).map(|i| 8 + 3 * i).collect();
        if self.random.chance(2) {
            let at = self.random.below(ROOM as u32) as usize;
            indices[at] = self
                .random
                .pick(&[0, 7, 8, indices[at] - 1, indices[at] - 3, u32::MAX]);
        }
        let count = self.random.pick(&[55u16, 56, 56, 57, 58, 312, 65_535]);
        let mut bytes = count.to_le_bytes().to_vec();
        for index in indices.into_iter().take(usize::from(count)) {
            bytes.extend(index.to_le_bytes());
            bytes.extend([0; image::ENTRY - 4]);
        }
        bytes.resize(image::TAIL - image::COUNT, 0);
        Damage::bytes(image::COUNT, &bytes)
    }

    /// A number of the tail: a float, the colour or the texture mask.
    fn tail_field(&mut self) -> Damage {
        match self.random.below(5) {
            0 => Damage::word(image::AMBIENT, self.color()),
            1 => {
                let mask = match self.random.below(4) {
                    0 => self
                        .random
                        .pick(&[255, 256, 257, 511, 0x0100_0000, 0x8000_0001]),
                    1 => self.random.word(),
                    _ => self.texture_mask(),
                };
                Damage::word(image::TEXTURE_MASK, mask)
            }
            at => Damage::word(image::FOG_START + 4 * (at as usize - 2), self.image_float()),
        }
    }

    /// A float of a matrix or of the material.
    fn float_field(&mut self) -> Damage {
        let float = self.image_float();
        let at = match self.random.below(3) {
            0 => self.random.below(image::LIGHTS as u32 / 4) as usize,
            1 => (image::MATERIAL + 4 * self.random.below(17) as usize) / 4,
            _ => {
                let matrix = self.random.pick(&[2, 3, 16, 23, 256, 257, 511]);
                let start = image::place(matrix).expect("a known state");
                start / 4 + self.random.below(16) as usize
            }
        };
        Damage::word(4 * at, float)
    }
}
