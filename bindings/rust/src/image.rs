//! The state as an image, and its calls.

use crate::raw;
use crate::records::{Light, Material, Matrix};
use crate::refusal::Refusal;

/// The state number of the view.
pub const D3DTS_VIEW: u32 = 2;
/// The state number of the projection.
pub const D3DTS_PROJECTION: u32 = 3;
/// The state number of the first of eight texture matrices.
pub const D3DTS_TEXTURE0: u32 = 16;
/// The state number of the first of 256 world matrices.
pub const D3DTS_WORLD: u32 = 256;

/// The dirty bit of WV.
pub const DIRTY_WV: u32 = 1;
/// The dirty bit of PROJ.
pub const DIRTY_PROJ: u32 = 2;
/// The dirty bit of MATERIAL.
pub const DIRTY_MATERIAL: u32 = 4;
/// The dirty bit of LIGHTS.
pub const DIRTY_LIGHTS: u32 = 8;
/// The dirty bit of PALETTE.
pub const DIRTY_PALETTE: u32 = 16;
/// The dirty bit of TT.
pub const DIRTY_TT: u32 = 32;
/// The dirty bit of FOG.
pub const DIRTY_FOG: u32 = 64;
/// The dirty bit of AMBIENT.
pub const DIRTY_AMBIENT: u32 = 128;
/// The bits of all eight sections.
pub const ALL_DIRTY: u32 = 255;

/// How many lights can be stored from index 8 on.
pub const OVERFLOW_LIGHTS: usize = 56;

/// The masks of the lights that light, packed by ascending index: bit i is the i-th of them.
#[derive(Clone, Copy, Debug, PartialEq, Eq)]
pub struct LightMasks {
    /// All of them; a key's `light_active_mask` is made from it.
    pub active: u8,
    /// Those that are directional.
    pub directional: u8,
    /// Those that are spots.
    pub spot: u8,
}

/// A state, held as its image. The bytes are always an image, so no call answers [`Refusal::NoImage`] but
/// [`FfImage::from_bytes`].
#[derive(Clone, PartialEq, Eq)]
pub struct FfImage {
    bytes: Box<[u8; Self::BYTES]>,
}

impl Default for FfImage {
    fn default() -> Self {
        Self::fresh()
    }
}

type Reading<T> = unsafe extern "C" fn(*const u8, usize, *mut T) -> u32;

impl FfImage {
    /// The bytes of an image.
    pub const BYTES: usize = 24_224;

    /// Identity matrices, a material of zeros, no light, fog, ambient colour and texture mask 0, every section dirty.
    #[must_use]
    pub fn fresh() -> Self {
        let mut bytes = Box::new([0; Self::BYTES]);
        // SAFETY: the pointer goes with the array's length.
        let answer = unsafe { raw::ff_image_fresh(bytes.as_mut_ptr(), bytes.len()) };
        Refusal::of(answer).expect("bytes of this length are accepted");
        Self { bytes }
    }

    /// Reads an image in, or answers with [`Refusal::NoImage`].
    pub fn from_bytes(bytes: &[u8]) -> Result<Self, Refusal> {
        // SAFETY: the pointer goes with the slice's length.
        Refusal::of(unsafe { raw::ff_image_check(bytes.as_ptr(), bytes.len()) })?;
        let bytes = bytes.try_into().map_err(|_| Refusal::NoImage)?;
        Ok(Self {
            bytes: Box::new(bytes),
        })
    }

    /// The image, which [`FfImage::from_bytes`] accepts.
    #[must_use]
    pub fn as_bytes(&self) -> &[u8; Self::BYTES] {
        &self.bytes
    }

    /// The image, for a call that writes it back: whatever the call answers, the bytes stay an image.
    pub(crate) fn lent(&mut self) -> &mut [u8; Self::BYTES] {
        &mut self.bytes
    }

    /// Stores a matrix and dirties what is made from it, or answers with [`Refusal::UnknownState`].
    pub fn set_transform(&mut self, state: u32, matrix: &Matrix) -> Result<(), Refusal> {
        let m = matrix.to_bytes();
        let image = &mut *self.bytes;
        // SAFETY: each pointer goes with its array's length, and the two are apart.
        Refusal::of(unsafe {
            raw::ff_set_transform(image.as_mut_ptr(), image.len(), state, m.as_ptr(), m.len())
        })
    }

    /// Stores `matrix` × stored and dirties as [`FfImage::set_transform`] does.
    pub fn multiply_transform(&mut self, state: u32, matrix: &Matrix) -> Result<(), Refusal> {
        let m = matrix.to_bytes();
        let image = &mut *self.bytes;
        // SAFETY: as for `set_transform`.
        Refusal::of(unsafe {
            raw::ff_multiply_transform(image.as_mut_ptr(), image.len(), state, m.as_ptr(), m.len())
        })
    }

    /// The stored matrix, or [`Refusal::UnknownState`].
    pub fn transform(&self, state: u32) -> Result<Matrix, Refusal> {
        let mut out = [0; Matrix::BYTES];
        let image = self.as_bytes();
        // SAFETY: as for `set_transform`.
        Refusal::of(unsafe {
            raw::ff_transform(
                image.as_ptr(),
                image.len(),
                state,
                out.as_mut_ptr(),
                out.len(),
            )
        })?;
        Ok(Matrix::from_bytes(&out))
    }

    /// The highest world matrix ever set or multiplied, plus 1: from 1 to 256.
    #[must_use]
    pub fn world_palette_used(&self) -> u32 {
        self.number(raw::ff_world_palette_used)
    }

    /// World matrix 0 × view × projection.
    #[must_use]
    pub fn world_view_projection(&self) -> Matrix {
        let mut out = [0; Matrix::BYTES];
        let image = self.as_bytes();
        // SAFETY: as for `set_transform`.
        let answer = unsafe {
            raw::ff_world_view_projection(image.as_ptr(), image.len(), out.as_mut_ptr(), out.len())
        };
        readable(answer);
        Matrix::from_bytes(&out)
    }

    /// Stores the material.
    pub fn set_material(&mut self, material: &Material) {
        let m = material.to_bytes();
        let image = &mut *self.bytes;
        // SAFETY: as for `set_transform`.
        readable(unsafe {
            raw::ff_set_material(image.as_mut_ptr(), image.len(), m.as_ptr(), m.len())
        });
    }

    /// The stored material.
    #[must_use]
    pub fn material(&self) -> Material {
        let mut out = [0; Material::BYTES];
        let image = self.as_bytes();
        // SAFETY: as for `set_transform`.
        readable(unsafe {
            raw::ff_material(image.as_ptr(), image.len(), out.as_mut_ptr(), out.len())
        });
        Material::from_bytes(&out)
    }

    /// Defines a light, whose enable stays, or answers with [`Refusal::LightsFull`].
    pub fn set_light_at(&mut self, index: u32, light: &Light) -> Result<(), Refusal> {
        let light = light.to_bytes();
        let image = &mut *self.bytes;
        // SAFETY: as for `set_transform`.
        Refusal::of(unsafe {
            raw::ff_set_light_at(
                image.as_mut_ptr(),
                image.len(),
                index,
                light.as_ptr(),
                light.len(),
            )
        })
    }

    /// Enables or disables a light, the default one where none is defined, or answers with
    /// [`Refusal::LightsFull`].
    pub fn set_light_enabled_at(&mut self, index: u32, enabled: bool) -> Result<(), Refusal> {
        let image = &mut *self.bytes;
        // SAFETY: the pointer goes with the array's length.
        Refusal::of(unsafe {
            raw::ff_set_light_enabled_at(image.as_mut_ptr(), image.len(), index, u32::from(enabled))
        })
    }

    /// The light, or [`Refusal::UndefinedLight`].
    pub fn get_light_at(&self, index: u32) -> Result<Light, Refusal> {
        let mut out = [0; Light::BYTES];
        let image = self.as_bytes();
        // SAFETY: as for `set_transform`.
        Refusal::of(unsafe {
            raw::ff_get_light_at(
                image.as_ptr(),
                image.len(),
                index,
                out.as_mut_ptr(),
                out.len(),
            )
        })?;
        Ok(Light::from_bytes(&out))
    }

    /// Whether a light is defined here and enabled.
    #[must_use]
    pub fn is_light_enabled_at(&self, index: u32) -> bool {
        let mut out = 0;
        let image = self.as_bytes();
        // SAFETY: the pointer goes with the array's length, and `out` is apart from it.
        readable(unsafe {
            raw::ff_is_light_enabled_at(image.as_ptr(), image.len(), index, &mut out)
        });
        out != 0
    }

    /// Whether a light was set or enabled here.
    #[must_use]
    pub fn is_light_defined_at(&self, index: u32) -> bool {
        let mut out = 0;
        let image = self.as_bytes();
        // SAFETY: as for `is_light_enabled_at`.
        readable(unsafe {
            raw::ff_is_light_defined_at(image.as_ptr(), image.len(), index, &mut out)
        });
        out != 0
    }

    /// What of the lights a shader's key depends on: bytes active, directional, spot of the slots 0 to 7, and 0;
    /// once a light from index 8 on is stored, those of [`FfImage::compacted_light_masks`], and 1.
    #[must_use]
    pub fn vs_source_light_inputs(&self) -> u32 {
        self.number(raw::ff_vs_source_light_inputs)
    }

    /// The masks of the lights that light, eight at most.
    #[must_use]
    pub fn compacted_light_masks(&self) -> LightMasks {
        let [active, directional, spot, _] =
            self.number(raw::ff_compacted_light_masks).to_le_bytes();
        LightMasks {
            active,
            directional,
            spot,
        }
    }

    /// Adds dirty bits, or answers with [`Refusal::UnknownBits`].
    pub fn mark_ff_vs_dirty(&mut self, bits: u32) -> Result<(), Refusal> {
        let image = &mut *self.bytes;
        // SAFETY: the pointer goes with the array's length.
        Refusal::of(unsafe { raw::ff_mark_ff_vs_dirty(image.as_mut_ptr(), image.len(), bits) })
    }

    /// The dirty bits, which are cleared.
    pub fn take_ff_vs_dirty(&mut self) -> u32 {
        let mut out = 0;
        let image = &mut *self.bytes;
        // SAFETY: as for `is_light_enabled_at`.
        readable(unsafe { raw::ff_take_ff_vs_dirty(image.as_mut_ptr(), image.len(), &mut out) });
        out
    }

    fn number(&self, read: Reading<u32>) -> u32 {
        let mut out = 0;
        let image = self.as_bytes();
        // SAFETY: as for `is_light_enabled_at`.
        readable(unsafe { read(image.as_ptr(), image.len(), &mut out) });
        out
    }
}

/// The answer of a call that is refused only where the bytes are no image.
pub(crate) fn readable(answer: u32) {
    Refusal::of(answer).expect("the bytes of an FfImage are an image");
}
