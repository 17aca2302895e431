//! Document 01's plain book, fed with the calls' arguments only: "It holds matrices by state number, material, and lights by index,
//! each with an enable"; document 02, T-05, adds fog, the ambient colour and the texture mask. It gives the refusals by its own rules.

use std::collections::BTreeMap;

use ff_state::{FfImage, FfState, Light, Material, Matrix, Refusal, mat_mul};

use crate::fields::Fields;
use crate::places::MOST_ENTRIES;

#[derive(Clone, Debug, Default)]
pub struct Book {
    /// Those that are not there are the identity.
    matrices: BTreeMap<u32, Matrix>,
    material: Material,
    lights: BTreeMap<u32, (Light, bool)>,
    fog: [f32; 3],
    ambient: u32,
    texture_mask: u8,
}

impl Book {
    /// "An image read in replaces all."
    #[must_use]
    pub fn of(image: &FfImage) -> Self {
        let fields = Fields::read(image);
        let world = (256..).zip(fields.palette.iter().copied());
        let texture = (16..).zip(fields.texture.iter().copied());
        let single = [(2, fields.view), (3, fields.projection)];
        let lights = fields.lights();
        Self {
            matrices: world.chain(texture).chain(single).collect(),
            material: fields.material,
            lights: lights
                .iter()
                .map(|e| (e.index, (e.light, e.enabled)))
                .collect(),
            fog: fields.fog,
            ambient: fields.ambient,
            texture_mask: fields.texture_mask,
        }
    }

    pub fn set_transform(&mut self, state: u32, matrix: &Matrix) -> Result<(), Refusal> {
        known(state)?;
        self.matrices.insert(state, *matrix);
        Ok(())
    }

    /// Document 02, T-02: "Multiply now stores argument × slot."
    pub fn multiply_transform(&mut self, state: u32, matrix: &Matrix) -> Result<(), Refusal> {
        known(state)?;
        let slot = self.matrices.entry(state).or_insert(Matrix::IDENTITY);
        *slot = mat_mul(matrix, slot);
        Ok(())
    }

    pub fn set_material(&mut self, material: &Material) {
        self.material = *material;
    }

    /// "Setting a light replaces it and keeps the enable, off if new."
    pub fn set_light_at(&mut self, index: u32, light: &Light) -> Result<(), Refusal> {
        self.room(index)?;
        let enabled = self.lights.get(&index).is_some_and(|(_, enabled)| *enabled);
        self.lights.insert(index, (*light, enabled));
        Ok(())
    }

    /// "Enable replaces the enable, adding the default light where there is none."
    pub fn set_light_enabled_at(&mut self, index: u32, enabled: bool) -> Result<(), Refusal> {
        self.room(index)?;
        let light = self
            .lights
            .get(&index)
            .map_or_else(Light::default, |(light, _)| *light);
        self.lights.insert(index, (light, enabled));
        Ok(())
    }

    /// Fog's start, end, density: 0, 1, 2.
    pub fn set_fog(&mut self, which: usize, value: f32) {
        self.fog[which] = value;
    }

    pub fn set_ambient(&mut self, color: u32) {
        self.ambient = color;
    }

    pub fn set_texture_mask(&mut self, mask: u8) {
        self.texture_mask = mask;
    }

    /// "refuse 3 exactly if the index is 8 or more, not stored, and 56 such are stored".
    fn room(&self, index: u32) -> Result<(), Refusal> {
        let full = self.lights.range(8..).count() >= MOST_ENTRIES;
        if index >= 8 && full && !self.lights.contains_key(&index) {
            return Err(Refusal::LightsFull);
        }
        Ok(())
    }

    /// A fresh state into which the book's values are set, to be packed.
    pub fn image(&self) -> Result<FfImage, Refusal> {
        let mut state = FfState::fresh();
        for (&number, matrix) in &self.matrices {
            state.set_transform(number, matrix)?;
        }
        state.set_material(&self.material);
        for (&index, (light, enabled)) in &self.lights {
            state.set_light_at(index, light)?;
            state.set_light_enabled_at(index, *enabled)?;
        }
        state.set_fog_start(self.fog[0]);
        state.set_fog_end(self.fog[1]);
        state.set_fog_density(self.fog[2]);
        state.set_ambient(self.ambient);
        state.set_texture_mask(self.texture_mask);
        Ok(state.to_image())
    }
}

/// "state 2 view, 3 projection, 16 to 23 texture, 256 to 511 palette"; any other number is refused 1.
fn known(state: u32) -> Result<(), Refusal> {
    match state {
        2 | 3 | 16..=23 | 256..=511 => Ok(()),
        _ => Err(Refusal::UnknownState),
    }
}

#[cfg(test)]
mod tests {
    use super::*;
    use ff_state::Color;

    /// An image with something in every field, read in: the book's own image holds the same, but for dirty bits and the highest index.
    #[test]
    fn an_image_read_in_replaces_all() {
        let mut image = FfImage::fresh();
        let mut matrix = Matrix::IDENTITY;
        for state in (2..4).chain(16..24).chain(256..512) {
            matrix.m[1][2] = state as f32;
            image.set_transform(state, &matrix).unwrap();
        }
        let ambient = Color {
            r: 1.0,
            g: 2.0,
            b: 3.0,
            a: 4.0,
        };
        image.set_material(&Material {
            ambient,
            power: 5.0,
            ..Material::default()
        });
        for index in (0..7).chain(100..156) {
            let light = Light {
                type_: index,
                range: index as f32,
                ..Light::default()
            };
            image.set_light_at(index, &light).unwrap();
            image.set_light_enabled_at(index, index % 3 == 0).unwrap();
        }
        image.set_fog_start(6.0);
        image.set_fog_end(7.0);
        image.set_fog_density(8.0);
        image.set_ambient(9);
        image.set_texture_mask(10);
        let mut book = Book::of(&image);
        assert_eq!(book.image().unwrap().as_bytes(), image.as_bytes());
        // Full from index 8 on: 8 itself has no room, 7 and 100 have.
        assert_eq!(
            book.set_light_at(8, &Light::default()),
            Err(Refusal::LightsFull)
        );
        assert_eq!(
            book.set_light_enabled_at(156, true),
            Err(Refusal::LightsFull)
        );
        assert_eq!(book.set_light_at(7, &Light::default()), Ok(()));
        assert_eq!(book.set_light_enabled_at(100, true), Ok(()));
    }
}
