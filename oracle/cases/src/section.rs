//! The sections of a mirror: the bits, first rows and numbers of rows of documents 01 and 02 (T-05), and the Rust's rows, with
//! document 02's directions in them where the Rust no longer rules.

use std::mem::MaybeUninit;
use std::ops::Range;

use mtld3d_types::{D3DLIGHT9, D3DTS_VIEW};
use original::dxso::FfVsKey;
use original::ff_state::FfState;

use crate::active::{active, asked};
use crate::directions::{Rule, in_view, rule, unit};
use crate::floats::{alike, with_one_nan};
use crate::image::number32;
use crate::key::Key;
use crate::render_states::RenderStates;

/// The bytes of a row.
pub const ROW: usize = 16;
/// The rows of a mirror, and its bytes.
pub const ROWS: usize = 1115;
pub const MIRROR: usize = ROW * ROWS;
/// The rows of a light; the second begins with its direction.
pub const LIGHT_ROWS: usize = 6;
/// The matrices of indexed blending.
const INDEXED: u32 = 40;

#[derive(Clone, Copy, Debug, PartialEq, Eq)]
pub enum Section {
    Wv,
    Proj,
    Material,
    Lights,
    Palette,
    Tt,
    Fog,
    Ambient,
}

/// All of them, which demand 3 speaks of, and their bits.
pub const EIGHT: [Section; 8] = [
    Section::Wv,
    Section::Proj,
    Section::Material,
    Section::Lights,
    Section::Palette,
    Section::Tt,
    Section::Fog,
    Section::Ambient,
];
pub const EIGHT_BITS: u8 = 255;

impl Section {
    #[must_use]
    pub const fn bit(self) -> u8 {
        1 << self as u8
    }

    #[must_use]
    pub const fn first_row(self) -> usize {
        match self {
            Self::Wv => 0,
            Self::Proj => 4,
            Self::Fog => 8,
            Self::Ambient => 9,
            Self::Material => 10,
            Self::Lights => 15,
            Self::Tt => 63,
            Self::Palette => 95,
        }
    }

    /// The rows of the section under a key and the state's texture mask.
    #[must_use]
    pub const fn rows(self, key: Key, texture_mask: u8) -> u32 {
        match self {
            Self::Wv | Self::Proj => 4,
            Self::Material if key.lighting_enabled == 0 => 1,
            Self::Material if key.specular_enable == 0 => 4,
            Self::Material => 5,
            Self::Lights => LIGHT_ROWS as u32 * (8 - key.light_active_mask.leading_zeros()),
            Self::Palette if key.vertex_blend_count == 0 => 0,
            Self::Palette if key.vertex_blend_indexed != 0 => 4 * INDEXED,
            Self::Palette => 4 * key.vertex_blend_count as u32,
            Self::Tt => 4 * (8 - texture_mask.leading_zeros()),
            Self::Fog | Self::Ambient => 1,
        }
    }

    /// The bytes of a mirror that the section has under a key and a texture mask.
    #[must_use]
    pub const fn place(self, key: Key, texture_mask: u8) -> Range<usize> {
        let start = ROW * self.first_row();
        start..start + ROW * self.rows(key, texture_mask) as usize
    }

    /// The Rust's number of rows.
    pub(crate) fn rust_rows(self, rust: &FfState, key: &FfVsKey) -> u32 {
        u32::from(match self {
            Self::Wv | Self::Proj => 4,
            Self::Material => FfState::material_section_rows(key),
            Self::Lights => FfState::lights_section_rows(key),
            Self::Palette => rust.palette_section_rows(key),
            Self::Tt => rust.tt_section_rows(),
            // Its fills of these are asked for one row.
            Self::Fog | Self::Ambient => 1,
        })
    }

    /// The rows; the key's mask is 0 or that of the lights that are packed. `indices` are those of the lights from index 8 on,
    /// ascending.
    pub(crate) fn fill(
        self,
        rust: &FfState,
        states: &RenderStates,
        indices: impl Iterator<Item = u32> + Clone,
        key: Key,
    ) -> Vec<u8> {
        if self != Self::Lights || key.light_active_mask == 0 {
            return self.rust_fill(rust, states, key);
        }
        let mut bytes = asked(rust, indices.clone(), key, |rust| {
            self.rust_fill(rust, states, key)
        });
        put_directions(rust, &active(rust, indices, key.limit()), &mut bytes);
        bytes
    }

    /// The Rust's rows.
    fn rust_fill(self, rust: &FfState, states: &RenderStates, key: Key) -> Vec<u8> {
        let rows = self.rows(key, rust.tt_active_mask());
        let key = &key.rust();
        assert_eq!(
            rows,
            self.rust_rows(rust, key),
            "the papers' rows are the Rust's"
        );
        // A float that no input is likely to give, so that a row that the Rust leaves alone is seen.
        let unwritten = MaybeUninit::new([f32::from_bits(0x5EAD_BEEF); 4]);
        let mut dst = vec![unwritten; rows as usize];
        match self {
            Self::Wv => rust.fill_wv_section(&mut dst),
            Self::Proj => rust.fill_proj_section(&mut dst),
            Self::Material => rust.fill_material_section(key, &mut dst),
            Self::Lights => rust.fill_lights_section(key, &mut dst),
            Self::Palette => rust.fill_palette_section(key, &mut dst),
            Self::Tt => rust.fill_tt_section(&mut dst),
            Self::Fog => FfState::fill_fog_section(states, key.fog_mode, &mut dst),
            Self::Ambient => FfState::fill_ambient_section(states, &mut dst),
        }
        let mut bytes = Vec::with_capacity(ROW * dst.len());
        for row in dst {
            // SAFETY: each row was a value before the call.
            for float in unsafe { row.assume_init() } {
                bytes.extend(with_one_nan(float.to_bits()).to_le_bytes());
            }
        }
        bytes
    }

    /// Document 01's count: the rows in which a mirror differs from the packing.
    pub(crate) fn wrong_rows(
        self,
        rust: &FfState,
        states: &RenderStates,
        indices: impl Iterator<Item = u32> + Clone,
        key: Key,
        mirror: &[u8],
    ) -> usize {
        let packing = self.fill(rust, states, indices, key);
        let found = mirror[self.place(key, rust.tt_active_mask())].chunks(ROW);
        found
            .zip(packing.chunks(ROW))
            .filter(|(a, b)| (0..ROW).step_by(4).any(|at| !alike_at(a, b, at)))
            .count()
    }
}

/// Puts the definition's directions into the rows of these lights, where the definition rules.
fn put_directions(rust: &FfState, lights: &[D3DLIGHT9], bytes: &mut [u8]) {
    let view = rust.transform(D3DTS_VIEW).expect("a known state");
    assert_eq!(lights.len() * LIGHT_ROWS * ROW, bytes.len());
    for (light, rows) in lights.iter().zip(bytes.chunks_mut(LIGHT_ROWS * ROW)) {
        let direction = in_view(view, &light.direction);
        if rule(direction) == Rule::Definition {
            let fours = rows[ROW..].as_chunks_mut().0;
            for (four, word) in fours.iter_mut().zip(unit(direction)) {
                *four = word.to_le_bytes();
            }
        }
    }
}

fn alike_at(a: &[u8], b: &[u8], at: usize) -> bool {
    alike(number32(a, at), number32(b, at))
}
