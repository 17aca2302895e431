//! Document 01's plain book, fed with the calls' arguments only, and the rows in which a mirror differs from its packing.

use std::collections::BTreeMap;

use mtld3d_types::{D3DLIGHT9, D3DMATERIAL9, D3DMATRIX, RENDER_STATE_COUNT};
use original::ff_state::FfState;

use crate::call::{Call, Name};
use crate::image::{self, SLOTS, number16, number32};
use crate::key::Key;
use crate::records;
use crate::render_states::{self, RenderStates};
use crate::section::{EIGHT, Section};

/// Matrices by state number, where they are not the fresh identity; lights by index, each with its enable; fog and the ambient
/// colour as render states, and the texture mask.
pub struct Book {
    matrices: BTreeMap<u32, D3DMATRIX>,
    material: D3DMATERIAL9,
    lights: BTreeMap<u32, (D3DLIGHT9, bool)>,
    render_states: RenderStates,
    texture_mask: u8,
}

impl Default for Book {
    fn default() -> Self {
        Self {
            matrices: BTreeMap::new(),
            material: D3DMATERIAL9::default(),
            lights: BTreeMap::new(),
            render_states: [0; RENDER_STATE_COUNT],
            texture_mask: 0,
        }
    }
}

impl Book {
    /// What an image that is read in puts in place of everything.
    #[must_use]
    pub fn of_image(bytes: &[u8]) -> Self {
        let mut book = Self {
            material: records::material(&bytes[image::MATERIAL..]),
            render_states: render_states::of_image(bytes),
            texture_mask: bytes[image::TEXTURE_MASK],
            ..Self::default()
        };
        for (state, at) in (0..512).filter_map(|state| Some((state, image::place(state)?))) {
            book.matrices.insert(state, records::matrix(&bytes[at..]));
        }
        for i in (0..SLOTS).filter(|i| bytes[image::DEFINED] >> i & 1 != 0) {
            let light = records::light(&bytes[image::slot(i)..]);
            let enabled = bytes[image::ENABLED] >> i & 1 != 0;
            book.lights.insert(i as u32, (light, enabled));
        }
        for entry in (0..usize::from(number16(bytes, image::COUNT))).map(image::entry) {
            let light = records::light(&bytes[entry + 8..]);
            let enabled = number32(bytes, entry + 4) != 0;
            book.lights.insert(number32(bytes, entry), (light, enabled));
        }
        book
    }

    /// A call that is not refused.
    pub fn heed(&mut self, call: &Call) {
        let number = call.number;
        match call.name {
            Name::ImageFresh => *self = Self::default(),
            Name::SetTransform => {
                self.matrices.insert(number, records::matrix(&call.given));
            }
            Name::MultiplyTransform => {
                let slot = self.matrices.entry(number).or_insert(D3DMATRIX::IDENTITY);
                *slot = FfState::mat_mul(&records::matrix(&call.given), slot);
            }
            Name::SetMaterial => self.material = records::material(&call.given),
            Name::SetLightAt => self.light(number).0 = records::light(&call.given),
            Name::SetLightEnabledAt => self.light(number).1 = call.enabled != 0,
            Name::SetTextureMask => self.texture_mask = number as u8,
            name => {
                if let Some((state, _)) = render_states::set_by(name) {
                    self.render_states[state] = number;
                }
            }
        }
    }

    #[must_use]
    pub fn texture_mask(&self) -> u8 {
        self.texture_mask
    }

    /// The light at an index, the default one and off where there is none.
    fn light(&mut self, index: u32) -> &mut (D3DLIGHT9, bool) {
        self.lights
            .entry(index)
            .or_insert((D3DLIGHT9::default(), false))
    }

    /// The sections, and how many of their rows a mirror holds wrong.
    #[must_use]
    pub fn wrong_rows(&self, key: Key, mirror: &[u8]) -> [(Section, usize); EIGHT.len()] {
        let mut rust = FfState::new();
        for (&state, matrix) in &self.matrices {
            rust.set_transform(state, matrix);
        }
        rust.set_material(&self.material);
        for (&index, (light, enabled)) in &self.lights {
            rust.set_light_at(index, light);
            rust.set_light_enabled_at(index, *enabled);
        }
        render_states::set_texture_mask(&mut rust, self.texture_mask);
        let indices = || {
            self.lights
                .keys()
                .copied()
                .skip_while(|&index| index < SLOTS as u32)
        };
        EIGHT.map(|section| {
            let wrong = section.wrong_rows(&rust, &self.render_states, indices(), key, mirror);
            (section, wrong)
        })
    }
}
