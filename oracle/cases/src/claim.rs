//! Demand 3's conditions: for which sections a count of 0 is due after a refresh.

use crate::key::Key;
use crate::section::{EIGHT, EIGHT_BITS};

/// What a list did so far, as far as the demand looks at it; sections by their bits.
#[derive(Default)]
pub struct Claim {
    /// The key of the last accepted refresh, and the book's texture mask then: they tell the rows that each section had.
    last: Option<(Key, u8)>,
    /// Marked since then.
    marked: u8,
    /// Not marked since an image was read in or bits were taken by another call than a refresh.
    owed: u8,
    /// Hit by an overwriting and not marked since.
    hit: u8,
}

impl Claim {
    /// An image was read in. The demand's lists have no takes; where there is one, it is as if the image that it leaves
    /// were read in.
    pub fn read_in(&mut self) {
        self.owed = EIGHT_BITS;
    }

    pub fn marked(&mut self, bits: u8) {
        self.marked |= bits;
        self.owed &= !bits;
        self.hit &= !bits;
    }

    /// Bytes from `at` on were put over the mirror.
    pub fn overwritten(&mut self, at: usize, length: usize) {
        let Some((key, texture_mask)) = self.last else {
            return;
        };
        for section in EIGHT {
            let place = section.place(key, texture_mask);
            if at < place.end && place.start < at + length {
                self.hit |= section.bit();
            }
        }
    }

    /// A refresh was accepted. The sections whose count must be 0; `None` where the list does not keep the conditions,
    /// and then not before all eight are marked again.
    pub fn refreshed(&mut self, key: Key, texture_mask: u8) -> Option<u8> {
        let reshaped = self
            .last
            .is_some_and(|(last, _)| last.shape() != key.shape());
        let unmarked = if reshaped {
            EIGHT_BITS & !self.marked
        } else {
            0
        };
        let kept = self.owed | unmarked == 0;
        *self = Self {
            last: Some((key, texture_mask)),
            marked: 0,
            owed: if kept { 0 } else { EIGHT_BITS },
            hit: self.hit,
        };
        kept.then_some(EIGHT_BITS & !self.hit)
    }
}
