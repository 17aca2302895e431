//! What demand 3 asks of a list, followed call by call. Document 01, 'The list and the count of demand 3': `Track` and `Keeps` of
//! crates/trace/specs, with the lines that made each so.

use ff_state::{
    ALL_DIRTY, DIRTY_AMBIENT, DIRTY_FOG, DIRTY_LIGHTS, DIRTY_MATERIAL, DIRTY_PALETTE, DIRTY_PROJ,
    DIRTY_TT, DIRTY_WV, Mirror, VsKey,
};

use crate::key::shape_changes;
use crate::list::Call;
use crate::sections::{Each, SECTIONS};

/// An accepted refresh: its line, its key, the rows that each section had.
#[derive(Clone, Copy, Debug)]
pub struct Last {
    pub line: usize,
    pub key: VsKey,
    pub rows: Each<usize>,
}

/// Who wrote a row last.
#[derive(Clone, Copy, Debug, PartialEq, Eq)]
pub enum Writer {
    Nobody,
    Refresh(usize),
    Overwriting(usize),
}

#[derive(Clone, Debug)]
pub struct Track {
    pub last: Option<Last>,
    /// Marked since the last accepted refresh.
    pub marked: Each<bool>,
    /// An image was read in at this line since then, and the section not marked since.
    pub needs_marking: Each<Option<usize>>,
    /// Hit by the overwriting at this line, and not marked since: demand 3 lets the section off.
    pub hit: Each<Option<usize>>,
    /// Its bit was taken at this line, by no refresh. Marked again it is written by the next refresh.
    pub taken: Each<Option<usize>>,
    pub writers: Vec<Writer>,
}

/// A condition of demand 3 that a list breaks at a line.
#[derive(Clone, Debug)]
pub enum Broken {
    /// "every section is marked between two successive accepted refreshes whose keys differ in a shape field"
    Shape {
        since: usize,
        changes: Vec<String>,
        unmarked: u32,
    },
    /// "and between the reading in of an image and the next accepted refresh"
    Image { read: usize, unmarked: u32 },
    /// "refreshes are the only takes"
    Take { bits: u32 },
}

impl Default for Track {
    fn default() -> Self {
        Self {
            last: None,
            marked: [false; 8],
            needs_marking: [None; 8],
            hit: [None; 8],
            taken: [None; 8],
            writers: vec![Writer::Nobody; Mirror::ROWS],
        }
    }
}

/// The sections that a call marks where it is accepted: document 01, 'Calls that change the state'; document 02, T-05.
#[must_use]
pub fn marks(call: &Call) -> u32 {
    match call {
        Call::SetTransform(state, _) | Call::MultiplyTransform(state, _) => match state {
            2 => DIRTY_WV | DIRTY_PALETTE | DIRTY_LIGHTS,
            3 => DIRTY_PROJ,
            16..=23 => DIRTY_TT,
            256 => DIRTY_WV | DIRTY_PALETTE,
            _ => DIRTY_PALETTE,
        },
        Call::SetMaterial(_) => DIRTY_MATERIAL,
        Call::SetLightAt(..) | Call::SetLightEnabledAt(..) => DIRTY_LIGHTS,
        Call::SetFogStart(_) | Call::SetFogEnd(_) | Call::SetFogDensity(_) => DIRTY_FOG,
        Call::SetAmbient(_) => DIRTY_AMBIENT,
        Call::SetTextureMask(_) => DIRTY_TT,
        Call::Mark(bits) => *bits,
        Call::Take | Call::Refresh(_) | Call::Overwrite(..) | Call::ReadIn(_) => 0,
    }
}

/// The bits of the sections of which a test holds.
fn bits_where(test: impl Fn(usize) -> bool) -> u32 {
    let named = SECTIONS.iter().enumerate().filter(|(i, _)| test(*i));
    named.fold(0, |bits, (_, section)| bits | section.bit)
}

impl Track {
    pub fn mark(&mut self, bits: u32) {
        for (i, section) in SECTIONS.iter().enumerate() {
            if bits & section.bit != 0 {
                self.marked[i] = true;
                self.needs_marking[i] = None;
                self.hit[i] = None;
            }
        }
    }

    pub fn read_in(&mut self, line: usize) {
        self.needs_marking = [Some(line); 8];
    }

    pub fn take(&mut self, line: usize, bits: u32) {
        for (i, section) in SECTIONS.iter().enumerate() {
            if bits & section.bit != 0 {
                self.taken[i] = Some(line);
            }
        }
    }

    /// "An overwriting hits a section if it writes a row that the section had at the last accepted refresh; before the first it hits
    /// none."
    pub fn overwrite(&mut self, line: usize, first: usize, last: usize) {
        self.writers[first..=last].fill(Writer::Overwriting(line));
        let Some(before) = self.last else { return };
        for (i, section) in SECTIONS.iter().enumerate() {
            if first < section.first + before.rows[i] && section.first <= last {
                self.hit[i].get_or_insert(line);
            }
        }
    }

    /// What an accepted refresh under this key breaks.
    #[must_use]
    pub fn broken(&self, key: &VsKey) -> Vec<Broken> {
        let mut broken = Vec::new();
        let unread = bits_where(|i| self.needs_marking[i].is_some());
        if let Some(read) = self.needs_marking.iter().flatten().max().copied() {
            broken.push(Broken::Image {
                read,
                unmarked: unread,
            });
        }
        if let Some(last) = self.last {
            let changes = shape_changes(&last.key, key);
            let unmarked = bits_where(|i| !self.marked[i]);
            if !changes.is_empty() && unmarked != 0 {
                broken.push(Broken::Shape {
                    since: last.line,
                    changes,
                    unmarked,
                });
            }
        }
        broken
    }

    /// A refresh was accepted, and wrote the sections of these bits.
    pub fn refreshed(&mut self, line: usize, key: &VsKey, rows: Each<usize>, bits: u32) {
        for (i, section) in SECTIONS.iter().enumerate() {
            if bits & section.bit != 0 {
                self.writers[section.first..section.first + rows[i]].fill(Writer::Refresh(line));
            }
        }
        self.last = Some(Last {
            line,
            key: *key,
            rows,
        });
        self.marked = [false; 8];
        self.needs_marking = [None; 8];
        self.taken = [None; 8];
    }
}

/// The bits of every section, for a marking that mends all.
pub const EVERY: u32 = ALL_DIRTY;

#[cfg(test)]
mod tests {
    use super::*;
    use crate::list;
    use crate::replay::World;

    /// What the papers say of each call is what the library dirties.
    #[test]
    fn marks_are_the_dirty_bits() {
        let mut calls = String::from(
            "set_material\nset_light_at 9\nset_light_enabled_at 0 1\nset_fog_start 1\nset_fog_end 1\nset_fog_density 1\n\
             set_ambient 1\nset_texture_mask 1\nmark 36\nmark 0\noverwrite 0 1 1 1 1\n",
        );
        for state in (2..4).chain(16..24).chain(256..512) {
            calls +=
                &format!("set_transform {state} identity\nmultiply_transform {state} identity\n");
        }
        let lines = list::read("", calls.as_bytes(), |_| Err(String::new())).unwrap();
        let mut world = World::fresh();
        for line in &lines {
            world.image.take_ff_vs_dirty();
            world.step(line).unwrap();
            assert_eq!(
                world.image.take_ff_vs_dirty(),
                marks(&line.call),
                "{}",
                line.text
            );
        }
        assert_eq!(lines.len(), 543);
    }
}
