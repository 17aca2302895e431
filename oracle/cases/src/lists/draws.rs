//! Keys, refreshes, the marks that they are owed, and what overwrites the mirror between them.

use super::List;
use crate::call::{Call, Name};
use crate::damage::Patch;
use crate::keys;
use crate::section::{EIGHT, EIGHT_BITS, MIRROR, ROW, ROWS};

impl List<'_> {
    /// Another key for the refreshes from now on: of a draw that is not transformed, under the state's own mask or 0.
    pub(super) fn change_key(&mut self) {
        self.key = keys::unmasked(self.random);
        self.key.has_rhw = 0;
        self.own_mask = (!self.random.chance(4)).then_some(0);
    }

    /// Any key.
    pub(super) fn put_key(&mut self, call: &mut Call) {
        call.key = keys::unmasked(self.random);
        (call.key.light_active_mask, call.own_mask) = keys::mask(self.random);
    }

    pub(super) fn refresh(&mut self) -> Call {
        if self.random.chance(8) {
            // To a preview or from one, to another fog mode, or in more than that.
            match self.random.below(4) {
                0 => self.key.preview = u8::from(self.key.preview == 0),
                1 => self.key.fog_mode = keys::fog(self.random),
                _ => self.change_key(),
            }
            self.owe();
            if let Some(mark) = self.marking() {
                return mark;
            }
        }
        let mut call = Call::keyed(Name::Refresh, self.key);
        call.own_mask = self.own_mask;
        if self.random.chance(12) {
            call.key.has_rhw = self.random.pick(&keys::SET);
        }
        if self.random.chance(12) {
            (call.key.light_active_mask, call.own_mask) = keys::mask(self.random);
        }
        self.mislay_lengths(&mut call);
        call
    }

    /// From now on the eight sections are to be marked before the next refresh, in a list that keeps to it.
    pub(super) fn owe(&mut self) {
        if self.keeps && !self.random.chance(6) {
            self.owed = EIGHT_BITS;
        }
    }

    /// A mark of what is owed, or of a part of it.
    pub(super) fn marking(&mut self) -> Option<Call> {
        if self.owed == 0 {
            return None;
        }
        let mut bits = match self.random.below(4) {
            0 => self.random.below(256),
            _ => 255,
        };
        if self.random.chance(2) {
            bits &= u32::from(self.owed);
        }
        self.owed &= !(bits as u8);
        Some(Call::numbered(Name::MarkFfVsDirty, bits))
    }

    /// Any floats over the whole mirror.
    pub(super) fn whole_mirror(&mut self) -> Vec<Patch> {
        let mut bytes = Vec::with_capacity(MIRROR);
        for _ in 0..MIRROR / 4 {
            let word = match self.random.below(8) {
                0 => self.nan(),
                _ => self.random.word(),
            };
            bytes.extend(word.to_le_bytes());
        }
        vec![(0, bytes)]
    }

    /// Any floats over a few rows, or over a part of one, about a section's ends mostly.
    pub(super) fn overwriting(&mut self) -> Vec<Patch> {
        if self.random.chance(50) {
            return self.whole_mirror();
        }
        let patches = 1 + self.random.below(2);
        (0..patches).map(|_| self.overwritten()).collect()
    }

    fn overwritten(&mut self) -> Patch {
        let row = match self.random.below(4) {
            0 => self.random.below(ROWS as u32),
            1 => self.random.below(120),
            _ => {
                let section = self.random.pick(&EIGHT);
                let rows = section.rows(self.key, self.texture_mask).max(1) as i32;
                let row = section.first_row() as i32 + self.random.between(-1, rows);
                row.clamp(0, ROWS as i32 - 1) as u32
            }
        };
        let floats = match self.random.below(3) {
            0 => 1 + self.random.below(4),
            1 => 4,
            _ => 4 * (1 + self.random.below(6)),
        };
        let first = if floats < 4 { self.random.below(4) } else { 0 };
        let at = ROW * row as usize + 4 * first as usize;
        let floats = (floats as usize).min((MIRROR - at) / 4);
        (at, self.floats(4 * floats))
    }
}
