//! Numbers, floats and items.

use super::List;
use crate::call::{LIGHT, MATRIX};
use crate::floats::SPECIAL;
use crate::image::SLOTS;
use crate::matrices::{self, KINDS};

/// Borders of the transform states, and numbers that are known once they are cut to 8 or 16 bits.
const STATES: [u32; 28] = [
    0,
    1,
    2,
    3,
    4,
    15,
    16,
    17,
    22,
    23,
    24,
    255,
    256,
    257,
    295,
    296,
    510,
    511,
    512,
    513,
    0x0001_0002,
    0x0001_0100,
    0x0100_0003,
    0x8000_0002,
    0x8000_0100,
    0xFFFF_FFFF,
    0xFFFF_FF02,
    768,
];
const NUMBERS: [u32; 10] = [
    0,
    1,
    2,
    3,
    255,
    256,
    65_536,
    0x7FFF_FFFF,
    0x8000_0000,
    0xFFFF_FFFF,
];

impl List<'_> {
    pub(super) fn state(&mut self) -> u32 {
        match self.random.below(8) {
            0..3 => self.random.pick(&STATES),
            3 => self.random.word(),
            4 => self.random.pick(&[2, 3]),
            5 => 16 + self.random.below(8),
            6 => 256 + self.random.below(5),
            _ => 256 + self.random.below(256),
        }
    }

    pub(super) fn index(&mut self) -> u32 {
        match self.random.below(8) {
            0..3 => self.random.below(SLOTS as u32),
            3 => self.random.below(12),
            4 if self.random.chance(4) => self.random.word(),
            _ => {
                let at = self.random.below(self.pool.len() as u32);
                self.pool[at as usize]
            }
        }
    }

    pub(super) fn bits(&mut self) -> u32 {
        match self.random.below(8) {
            0 => self.random.pick(&NUMBERS),
            1 => 1 << self.random.below(32),
            2 => self
                .random
                .pick(&[63, 64, 128, 254, 255, 256, 257, 511, 0x8000_0003]),
            3 => self.random.word(),
            _ => self.random.below(256),
        }
    }

    pub(super) fn number(&mut self) -> u32 {
        if self.random.chance(2) {
            self.random.below(2)
        } else if self.random.chance(8) {
            self.random.word()
        } else {
            self.random.pick(&NUMBERS)
        }
    }

    pub(super) fn float(&mut self) -> u32 {
        match self.random.below(8) {
            0..3 => self.random.pick(&SPECIAL),
            3 => self.nan(),
            4 => self.random.word(),
            _ => (self.random.between(-9, 9) as f32 * 0.5).to_bits(),
        }
    }

    /// A NaN of any pattern: quiet or signalling, of either sign, with any payload.
    pub(super) fn nan(&mut self) -> u32 {
        let payload = match self.random.below(3) {
            0 => 1 << self.random.below(23),
            1 => 0x0040_0000 | self.random.below(4),
            _ => (self.random.word() & 0x007F_FFFF).max(1),
        };
        0x7F80_0000 | (self.random.word() & 0x8000_0000) | payload
    }

    /// A D3DCOLOR: each of its bytes at a border, or any.
    pub(super) fn color(&mut self) -> u32 {
        if self.random.chance(4) {
            return self.random.word();
        }
        u32::from_le_bytes(core::array::from_fn(|_| {
            self.random.pick(&[0, 1, 0x40, 0x7F, 0x80, 0xFE, 0xFF])
        }))
    }

    /// A texture mask, of few stages mostly.
    pub(super) fn texture_mask(&mut self) -> u32 {
        match self.random.below(4) {
            0 => 0,
            1 => 1 << self.random.below(8),
            2 => self.random.below(16),
            _ => self.random.below(256),
        }
    }

    pub(super) fn floats(&mut self, bytes: usize) -> Vec<u8> {
        (0..bytes / 4)
            .flat_map(|_| self.float().to_le_bytes())
            .collect()
    }

    pub(super) fn matrix(&mut self) -> Vec<u8> {
        if self.random.chance(2) {
            return self.floats(MATRIX);
        }
        let kind = self.random.pick(&KINDS);
        matrices::matrix(kind, self.random)
            .iter()
            .flat_map(|word| word.to_le_bytes())
            .collect()
    }

    pub(super) fn light_type(&mut self) -> u32 {
        match self.random.below(12) {
            0 => self.random.pick(&[257, 258, 259, 0x8000_0001, 0x0001_0003]),
            1 => self.nan(),
            2 => self.random.word(),
            3 => self.random.below(6),
            _ => 1 + self.random.below(3),
        }
    }

    pub(super) fn light(&mut self) -> Vec<u8> {
        let mut light = self.floats(LIGHT);
        light[..4].copy_from_slice(&self.light_type().to_le_bytes());
        light
    }
}
