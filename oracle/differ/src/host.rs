//! Our library, as the host sees it (docs/INTERFACE.md), with the bends of the self-test in between.

use cases::call::{Call, Name};

use crate::bends::Bend;
use crate::{bend, bend_calls, raw};

pub const SQRT: &str = "ff_sqrt";
pub const COS: &str = "ff_cos";
pub const MAT_MUL: &str = "ff_mat_mul";
pub const TRANSPOSE: &str = "ff_transpose";
pub const INVERSE: &str = "ff_inverse";

/// A slice of another length than its item's.
pub const WRONG_LENGTH: u32 = 4;
/// A determinant that equals 0 or is not finite.
pub const NO_INVERSE: u32 = 6;

#[derive(Clone, Copy)]
pub struct Host {
    pub bend: Option<Bend>,
}

impl Host {
    pub fn sqrt(self, bits: u32) -> u32 {
        let answer = raw::ff_sqrt(bits);
        match self.bend {
            None => answer,
            Some(bend) => bend::sqrt(bend, bits, answer),
        }
    }

    pub fn cos(self, bits: u32) -> u32 {
        let answer = raw::ff_cos(bits);
        match self.bend {
            None => answer,
            Some(bend) => bend::cos(bend, bits, answer),
        }
    }

    pub fn mat_mul(self, a: &[u8], b: &[u8], out: &mut [u8]) -> u32 {
        match self.bend {
            None => mat_mul(a, b, out),
            Some(bend) => bend::mat_mul(bend, a, b, out),
        }
    }

    pub fn transpose(self, m: &[u8], out: &mut [u8]) -> u32 {
        match self.bend {
            None => transpose(m, out),
            Some(bend) => bend::transpose(bend, m, out),
        }
    }

    pub fn inverse(self, m: &[u8], out: &mut [u8]) -> u32 {
        match self.bend {
            None => inverse(m, out),
            Some(bend) => bend::inverse(bend, m, out),
        }
    }

    pub fn call(self, call: &Call, lent: Lent<'_>) -> u32 {
        match self.bend {
            None => on_image(call, lent),
            Some(bend) => bend_calls::call(bend, call, lent),
        }
    }
}

/// What a call on an image is lent beside its numbers; `out` is an item, rows or a mirror.
pub struct Lent<'a> {
    pub image: &'a mut [u8],
    pub given: &'a [u8],
    pub out: &'a mut [u8],
    pub number: &'a mut u32,
}

/// Makes the call; of what is lent it is handed what its form has.
pub fn on_image(call: &Call, lent: Lent<'_>) -> u32 {
    let Lent {
        image,
        given,
        out,
        number,
    } = lent;
    let (image, image_len) = (image.as_mut_ptr(), image.len());
    let (given, given_len) = (given.as_ptr(), given.len());
    let (out, out_len) = (out.as_mut_ptr(), out.len());
    let number: *mut u32 = number;
    let n = call.number;
    let [a, b, c, d, e, f, g, h] = call.key.fields();
    // SAFETY: each pointer goes with its slice's length, and no two of them overlap.
    unsafe {
        let counts = |call: Counts| call(image, image_len, a, b, c, d, e, f, g, h, number);
        let fills = |call: Fills| call(image, image_len, a, b, c, d, e, f, g, h, out, out_len);
        match call.name {
            Name::ImageFresh => raw::ff_image_fresh(image, image_len),
            Name::ImageCheck => raw::ff_image_check(image, image_len),
            Name::SetTransform => raw::ff_set_transform(image, image_len, n, given, given_len),
            Name::MultiplyTransform => {
                raw::ff_multiply_transform(image, image_len, n, given, given_len)
            }
            Name::Transform => raw::ff_transform(image, image_len, n, out, out_len),
            Name::WorldPaletteUsed => raw::ff_world_palette_used(image, image_len, number),
            Name::WorldViewProjection => {
                raw::ff_world_view_projection(image, image_len, out, out_len)
            }
            Name::SetMaterial => raw::ff_set_material(image, image_len, given, given_len),
            Name::GetMaterial => raw::ff_material(image, image_len, out, out_len),
            Name::SetLightAt => raw::ff_set_light_at(image, image_len, n, given, given_len),
            Name::SetLightEnabledAt => {
                raw::ff_set_light_enabled_at(image, image_len, n, call.enabled)
            }
            Name::GetLightAt => raw::ff_get_light_at(image, image_len, n, out, out_len),
            Name::IsLightEnabledAt => raw::ff_is_light_enabled_at(image, image_len, n, number),
            Name::IsLightDefinedAt => raw::ff_is_light_defined_at(image, image_len, n, number),
            Name::VsSourceLightInputs => raw::ff_vs_source_light_inputs(image, image_len, number),
            Name::CompactedLightMasks => raw::ff_compacted_light_masks(image, image_len, number),
            Name::SetFogStart => raw::ff_set_fog_start(image, image_len, n),
            Name::SetFogEnd => raw::ff_set_fog_end(image, image_len, n),
            Name::SetFogDensity => raw::ff_set_fog_density(image, image_len, n),
            Name::SetAmbient => raw::ff_set_ambient(image, image_len, n),
            Name::SetTextureMask => raw::ff_set_texture_mask(image, image_len, n as u8),
            Name::MarkFfVsDirty => raw::ff_mark_ff_vs_dirty(image, image_len, n),
            Name::TakeFfVsDirty => raw::ff_take_ff_vs_dirty(image, image_len, number),
            Name::RowCount => counts(raw::ff_vs_row_count),
            Name::WvRows => counts(raw::ff_wv_section_rows),
            Name::ProjRows => counts(raw::ff_proj_section_rows),
            Name::MaterialRows => counts(raw::ff_material_section_rows),
            Name::LightsRows => counts(raw::ff_lights_section_rows),
            Name::PaletteRows => counts(raw::ff_palette_section_rows),
            Name::TtRows => counts(raw::ff_tt_section_rows),
            Name::FogRows => counts(raw::ff_fog_section_rows),
            Name::AmbientRows => counts(raw::ff_ambient_section_rows),
            Name::FillWv => fills(raw::ff_fill_wv_section),
            Name::FillProj => fills(raw::ff_fill_proj_section),
            Name::FillMaterial => fills(raw::ff_fill_material_section),
            Name::FillLights => fills(raw::ff_fill_lights_section),
            Name::FillPalette => fills(raw::ff_fill_palette_section),
            Name::FillTt => fills(raw::ff_fill_tt_section),
            Name::FillFog => fills(raw::ff_fill_fog_section),
            Name::FillAmbient => fills(raw::ff_fill_ambient_section),
            Name::Refresh => raw::ff_refresh(
                image, image_len, a, b, c, d, e, f, g, h, out, out_len, number,
            ),
        }
    }
}

/// A call that answers with a number, and one that fills a slice.
type Counts =
    unsafe extern "C" fn(*const u8, usize, u8, u8, u8, u8, u8, u8, u8, u8, *mut u32) -> u32;
type Fills =
    unsafe extern "C" fn(*const u8, usize, u8, u8, u8, u8, u8, u8, u8, u8, *mut u8, usize) -> u32;

pub fn mat_mul(a: &[u8], b: &[u8], out: &mut [u8]) -> u32 {
    // SAFETY: each pointer goes with its slice's length, and `out` overlaps neither factor.
    unsafe {
        raw::ff_mat_mul(
            a.as_ptr(),
            a.len(),
            b.as_ptr(),
            b.len(),
            out.as_mut_ptr(),
            out.len(),
        )
    }
}

pub fn transpose(m: &[u8], out: &mut [u8]) -> u32 {
    // SAFETY: as for `mat_mul`.
    unsafe { raw::ff_transpose(m.as_ptr(), m.len(), out.as_mut_ptr(), out.len()) }
}

pub fn inverse(m: &[u8], out: &mut [u8]) -> u32 {
    // SAFETY: as for `mat_mul`.
    unsafe { raw::ff_inverse(m.as_ptr(), m.len(), out.as_mut_ptr(), out.len()) }
}
