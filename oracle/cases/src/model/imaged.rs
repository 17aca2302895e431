//! The state that an image reads as, and the image of a state.

use mtld3d_types::{D3DMATRIX, D3DTS_TEXTURE0, D3DTS_WORLD};

use super::Model;
use crate::call::MATRIX;
use crate::image::{self, BYTES, MATRICES, SLOTS, TEXTURES};
use crate::{records, render_states};

/// The transform states.
fn states() -> impl Iterator<Item = u32> {
    let palette = D3DTS_WORLD..D3DTS_WORLD + MATRICES as u32;
    let textures = D3DTS_TEXTURE0..D3DTS_TEXTURE0 + TEXTURES as u32;
    [2, 3].into_iter().chain(textures).chain(palette)
}

impl Model {
    /// The state that an image reads as; the image has no reason to be refused.
    #[must_use]
    pub fn read(bytes: &[u8]) -> Self {
        let mut model = Self::fresh();
        for state in states() {
            let at = image::place(state).expect("a known state");
            let m = records::matrix(&bytes[at..]);
            // A matrix that is set raises the Rust's highest index, so identities are left alone.
            if m.m.map(f32::to_bits) != D3DMATRIX::IDENTITY.m.map(f32::to_bits) {
                model.rust.set_transform(state, &m);
            }
        }
        model.bring_highest(image::number16(bytes, image::HIGHEST));
        model
            .rust
            .set_material(&records::material(&bytes[image::MATERIAL..]));
        for i in (0..SLOTS).filter(|i| bytes[image::DEFINED] & (1 << i) != 0) {
            let enabled = bytes[image::ENABLED] & (1 << i) != 0;
            model.bring_light(i as u32, &bytes[image::slot(i)..], enabled);
        }
        for at in 0..usize::from(image::number16(bytes, image::COUNT)) {
            let entry = &bytes[image::entry(at)..];
            let index = image::number32(entry, 0);
            model.overflow.insert(index);
            model.bring_light(index, &entry[8..], image::number32(entry, 4) != 0);
        }
        model.render_states = render_states::of_image(bytes);
        render_states::set_texture_mask(&mut model.rust, bytes[image::TEXTURE_MASK]);
        model.rust.take_ff_vs_dirty();
        model.mark(bytes[image::DIRTY]);
        model
    }

    fn bring_light(&mut self, index: u32, light: &[u8], enabled: bool) {
        self.rust.set_light_at(index, &records::light(light));
        self.rust.set_light_enabled_at(index, enabled);
    }

    fn bring_highest(&mut self, highest: u16) {
        if usize::from(highest) < self.rust.world_palette_used() - 1 {
            self.lowered = Some(highest);
        } else {
            let state = D3DTS_WORLD + u32::from(highest);
            let m = *self.transform(state);
            self.rust.set_transform(state, &m);
        }
    }

    /// The image of the state, every field from a read of the Rust's.
    pub fn write(&mut self, bytes: &mut [u8]) {
        assert_eq!(bytes.len(), BYTES);
        for state in states() {
            let at = image::place(state).expect("a known state");
            records::put_matrix(self.transform(state), &mut bytes[at..at + MATRIX]);
        }
        records::put_material(self.rust.material(), &mut bytes[image::MATERIAL..]);
        let (mut enabled, mut defined) = (0, 0);
        for i in 0..SLOTS {
            records::put_light(self.rust.light(i), &mut bytes[image::slot(i)..]);
            enabled |= u8::from(self.rust.is_light_enabled_at(i as u32)) << i;
            defined |= u8::from(self.rust.is_light_defined_at(i as u32)) << i;
        }
        bytes[image::ENABLED] = enabled;
        bytes[image::DEFINED] = defined;
        bytes[image::DIRTY] = self.dirty();
        bytes[image::ZERO] = 0;
        let highest = (self.world_palette_used() - 1) as u16;
        bytes[image::HIGHEST..image::COUNT].copy_from_slice(&highest.to_le_bytes());
        let count = self.overflow.len() as u16;
        bytes[image::COUNT..image::ENTRIES].copy_from_slice(&count.to_le_bytes());
        render_states::put(&self.render_states, bytes);
        let mask = u32::from(self.texture_mask());
        bytes[image::TEXTURE_MASK..].copy_from_slice(&mask.to_le_bytes());
        let entries = bytes[image::ENTRIES..image::TAIL].chunks_mut(image::ENTRY);
        let mut stored = self.overflow.iter();
        for entry in entries {
            let Some(&index) = stored.next() else {
                entry.fill(0);
                continue;
            };
            let enable = u32::from(self.rust.is_light_enabled_at(index));
            entry[..4].copy_from_slice(&index.to_le_bytes());
            entry[4..8].copy_from_slice(&enable.to_le_bytes());
            records::put_light(&self.light(index), &mut entry[8..]);
        }
    }
}
