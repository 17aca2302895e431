//! Eight directional lights that differ in their directions alone, and the rows that the Rust packs of them.

use std::mem::MaybeUninit;

use mtld3d_types::{D3DLIGHT9, D3DMATRIX, D3DTS_VIEW, D3DVECTOR};
use original::dxso::FfVsKey;
use original::ff_state::FfState;

use crate::answers::Words;
use crate::directions::{self, Direction};
use crate::floats::with_one_nan;
use crate::image::SLOTS;
use crate::key::Key;
use crate::records;
use crate::section::LIGHT_ROWS;
use crate::states::directed;

/// A lit draw that they all light.
pub const KEY: Key = Key::of([0, 1, 0, 0, 0, 0xFF, 0, 0]);
/// The rows of a light, by their bits.
pub type Rows = [[u32; 4]; LIGHT_ROWS];

pub struct Eight {
    rust: FfState,
    key: FfVsKey,
    light: D3DLIGHT9,
}

impl Default for Eight {
    fn default() -> Self {
        let words = directed(3, [0; 3]);
        let bytes: Vec<u8> = words.iter().flat_map(|word| word.to_le_bytes()).collect();
        let mut rust = FfState::new();
        for index in 0..SLOTS as u32 {
            rust.set_light_enabled_at(index, true);
        }
        Self {
            rust,
            key: KEY.rust(),
            light: records::light(&bytes),
        }
    }
}

fn vector(d: Direction) -> D3DVECTOR {
    let [x, y, z] = d.map(f32::from_bits);
    D3DVECTOR { x, y, z }
}

impl Eight {
    pub fn set_view(&mut self, view: &Words) {
        let m = view.map(f32::from_bits);
        assert!(self.rust.set_transform(D3DTS_VIEW, &D3DMATRIX { m }));
    }

    /// A light's direction as it is seen.
    #[must_use]
    pub fn in_view(&self, d: Direction) -> Direction {
        let view = self.rust.transform(D3DTS_VIEW).expect("a known state");
        directions::in_view(view, &vector(d))
    }

    /// The unchanged Rust's rows of lights with these directions.
    pub fn rows(&mut self, directions: &[Direction; SLOTS]) -> [Rows; SLOTS] {
        for (index, &d) in (0..).zip(directions) {
            self.light.direction = vector(d);
            self.rust.set_light_at(index, &self.light);
        }
        let mut dst = [MaybeUninit::new([0.0; 4]); SLOTS * LIGHT_ROWS];
        self.rust.fill_lights_section(&self.key, &mut dst);
        core::array::from_fn(|light| {
            core::array::from_fn(|row| {
                // SAFETY: each row was a value before the call.
                let row = unsafe { dst[LIGHT_ROWS * light + row].assume_init() };
                row.map(|float| with_one_nan(float.to_bits()))
            })
        })
    }
}
