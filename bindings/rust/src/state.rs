//! The state in memory, changed in place.

use crate::image::FfImage;
use crate::mirror::Mirror;
use crate::packing::{VsKey, fields};
use crate::raw;
use crate::records::{Light, Material, Matrix};
use crate::refusal::Refusal;

/// The floats of a mirror.
pub const MIRROR_FLOATS: usize = 4 * Mirror::ROWS;

// What crosses by reference lies as the library has it.
const _: () = assert!(size_of::<raw::FfState>() == 24_232 && align_of::<raw::FfState>() == 4);
const _: () = assert!(size_of::<Matrix>() == Matrix::BYTES);
const _: () = assert!(size_of::<Material>() == Material::BYTES);
const _: () =
    assert!(size_of::<Light>() == Light::BYTES && size_of::<raw::FfLight>() == Light::BYTES);

/// A state, held in memory and changed in place: the calls of [`FfImage`] that change a state, without reading an image in and
/// writing it back. It dirties, answers and refuses as they do.
#[derive(Clone)]
pub struct FfState {
    memory: Box<raw::FfState>,
}

impl Default for FfState {
    fn default() -> Self {
        Self::fresh()
    }
}

impl FfState {
    /// Identity matrices, a material of zeros, no light, fog, ambient colour and texture mask 0, every section dirty.
    #[must_use]
    pub fn fresh() -> Self {
        let mut memory = Box::new(raw::FfState::ZEROS);
        // SAFETY: here and below the pointer is to a state's memory, which outlives the call.
        unsafe { raw::ff_state_fresh(&mut *memory) };
        Self { memory }
    }

    /// The state that an image holds.
    #[must_use]
    pub fn from_image(image: &FfImage) -> Self {
        let mut memory = Box::new(raw::FfState::ZEROS);
        let bytes = image.as_bytes();
        // SAFETY: as above; the pointer goes with the array's length.
        let answer = unsafe { raw::ff_state_read_image(&mut *memory, bytes.as_ptr(), bytes.len()) };
        accepted(answer);
        Self { memory }
    }

    /// Its image.
    #[must_use]
    pub fn to_image(&self) -> FfImage {
        let mut image = FfImage::fresh();
        let bytes = image.lent();
        // SAFETY: as above; the pointer goes with the array's length.
        let answer =
            unsafe { raw::ff_state_write_image(&*self.memory, bytes.as_mut_ptr(), bytes.len()) };
        accepted(answer);
        image
    }

    /// Stores a matrix and dirties what is made from it, or answers with [`Refusal::UnknownState`].
    pub fn set_transform(&mut self, state: u32, matrix: &Matrix) -> Result<(), Refusal> {
        let floats = matrix.m.as_flattened().as_ptr();
        // SAFETY: as above; a matrix is sixteen floats.
        Refusal::of(unsafe { raw::ff_state_set_transform(&mut *self.memory, state, floats) })
    }

    /// Stores `matrix` × stored and dirties as [`FfState::set_transform`] does.
    pub fn multiply_transform(&mut self, state: u32, matrix: &Matrix) -> Result<(), Refusal> {
        let floats = matrix.m.as_flattened().as_ptr();
        // SAFETY: as for `set_transform`.
        Refusal::of(unsafe { raw::ff_state_multiply_transform(&mut *self.memory, state, floats) })
    }

    /// Stores the material.
    pub fn set_material(&mut self, material: &Material) {
        let floats: *const Material = material;
        // SAFETY: as above; a material is seventeen floats, one after the other.
        accepted(unsafe { raw::ff_state_set_material(&mut *self.memory, floats.cast()) });
    }

    /// Defines a light, whose enable stays, or answers with [`Refusal::LightsFull`].
    pub fn set_light_at(&mut self, index: u32, light: &Light) -> Result<(), Refusal> {
        let light: *const Light = light;
        // SAFETY: as above; a light is its type and 25 floats, one after the other.
        Refusal::of(unsafe { raw::ff_state_set_light_at(&mut *self.memory, index, light.cast()) })
    }

    /// Enables or disables a light, the default one where none is defined, or answers with
    /// [`Refusal::LightsFull`].
    pub fn set_light_enabled_at(&mut self, index: u32, enabled: bool) -> Result<(), Refusal> {
        // SAFETY: as above.
        Refusal::of(unsafe {
            raw::ff_state_set_light_enabled_at(&mut *self.memory, index, u32::from(enabled))
        })
    }

    /// Stores where fog begins, and dirties FOG.
    pub fn set_fog_start(&mut self, start: f32) {
        // SAFETY: as above.
        accepted(unsafe { raw::ff_state_set_fog_start(&mut *self.memory, start) });
    }

    /// Stores where fog ends, and dirties FOG.
    pub fn set_fog_end(&mut self, end: f32) {
        // SAFETY: as above.
        accepted(unsafe { raw::ff_state_set_fog_end(&mut *self.memory, end) });
    }

    /// Stores how dense fog is, and dirties FOG.
    pub fn set_fog_density(&mut self, density: f32) {
        // SAFETY: as above.
        accepted(unsafe { raw::ff_state_set_fog_density(&mut *self.memory, density) });
    }

    /// Stores the ambient colour, 0xAARRGGBB, and dirties AMBIENT.
    pub fn set_ambient(&mut self, color: u32) {
        // SAFETY: as above.
        accepted(unsafe { raw::ff_state_set_ambient(&mut *self.memory, color) });
    }

    /// Stores which texture stages transform, stage 0 the lowest bit, and dirties TT.
    pub fn set_texture_mask(&mut self, mask: u8) {
        // SAFETY: as above.
        accepted(unsafe { raw::ff_state_set_texture_mask(&mut *self.memory, mask) });
    }

    /// What of the lights a shader's key depends on, as [`FfImage::vs_source_light_inputs`] has it.
    #[must_use]
    pub fn vs_source_light_inputs(&self) -> u32 {
        let mut out = 0;
        // SAFETY: as above.
        accepted(unsafe { raw::ff_state_vs_source_light_inputs(&*self.memory, &mut out) });
        out
    }

    /// Adds dirty bits, or answers with [`Refusal::UnknownBits`].
    pub fn mark_ff_vs_dirty(&mut self, bits: u32) -> Result<(), Refusal> {
        // SAFETY: as above.
        Refusal::of(unsafe { raw::ff_state_mark_ff_vs_dirty(&mut *self.memory, bits) })
    }

    /// The dirty bits, which are cleared.
    pub fn take_ff_vs_dirty(&mut self) -> u32 {
        let mut out = 0;
        // SAFETY: as above.
        accepted(unsafe { raw::ff_state_take_ff_vs_dirty(&mut *self.memory, &mut out) });
        out
    }

    /// As [`FfImage::refresh`], into a mirror of [`MIRROR_FLOATS`] floats; a mirror of another length is refused
    /// [`Refusal::WrongLength`].
    pub fn refresh(&mut self, key: &VsKey, mirror: &mut [f32]) -> Result<u32, Refusal> {
        let mut out = 0;
        let [a, b, c, d, e, f, g, h] = fields(key);
        let (to, len) = (mirror.as_mut_ptr(), mirror.len());
        let s = &mut *self.memory;
        // SAFETY: as above; the pointer goes with the slice's length.
        let answer = unsafe { raw::ff_state_refresh(s, a, b, c, d, e, f, g, h, to, len, &mut out) };
        Refusal::of(answer)?;
        Ok(out)
    }
}

/// The answer of a call that has no refusal, or none that these arguments can meet.
fn accepted(answer: u32) {
    Refusal::of(answer).expect("the call has no refusal for these");
}
