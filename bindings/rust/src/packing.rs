//! Packing: the rows of the shader's constants, by section.

use crate::image::FfImage;
use crate::raw;
use crate::refusal::Refusal;

/// A row of the shader's constants.
pub type Row = [f32; 4];

/// The bytes of a row.
pub const ROW_BYTES: usize = 16;

/// What of a shader's key the rows depend on.
#[derive(Clone, Copy, Debug, Default, PartialEq, Eq, Hash)]
pub struct VsKey {
    /// The vertices are transformed already: the row count is 1, and a refresh is refused. No section looks at it.
    pub has_rhw: bool,
    /// Lighting is on.
    pub lighting_enabled: bool,
    /// Specular highlights are on.
    pub specular_enable: bool,
    /// Blending picks its matrices by an index in each vertex.
    pub vertex_blend_indexed: bool,
    /// The draw is of a preview, where the lights that are packed are the first four of those that light, else the first
    /// eight. No number of rows looks at it.
    pub preview: bool,
    /// 0, or the mask of the lights that are packed: [`LightMasks::active`](crate::LightMasks::active) of
    /// [`FfImage::compacted_light_masks`], in a preview `active & 15`.
    pub light_active_mask: u8,
    /// The vertex fog: the row of FOG holds it under any number but 0. No count depends on it.
    pub fog_mode: u8,
    /// How many matrices blend; 0 where none do.
    pub vertex_blend_count: u8,
}

type Counting =
    unsafe extern "C" fn(*const u8, usize, u8, u8, u8, u8, u8, u8, u8, u8, *mut u32) -> u32;
type Filling =
    unsafe extern "C" fn(*const u8, usize, u8, u8, u8, u8, u8, u8, u8, u8, *mut u8, usize) -> u32;

impl FfImage {
    /// How many rows of constants a draw reads, from row 0 on: from 1 to 1,115.
    #[must_use]
    pub fn vs_row_count(&self, key: &VsKey) -> usize {
        self.counted(raw::ff_vs_row_count, key) as usize
    }

    /// 4.
    #[must_use]
    pub fn wv_section_rows(&self, key: &VsKey) -> usize {
        self.counted(raw::ff_wv_section_rows, key) as usize
    }

    /// 4.
    #[must_use]
    pub fn proj_section_rows(&self, key: &VsKey) -> usize {
        self.counted(raw::ff_proj_section_rows, key) as usize
    }

    /// Unlit 1, lit 4, lit with specular 5.
    #[must_use]
    pub fn material_section_rows(&self, key: &VsKey) -> usize {
        self.counted(raw::ff_material_section_rows, key) as usize
    }

    /// 6 for each light up to the mask's highest bit.
    #[must_use]
    pub fn lights_section_rows(&self, key: &VsKey) -> usize {
        self.counted(raw::ff_lights_section_rows, key) as usize
    }

    /// 4 for each matrix: 40 of them where indexed, else the count, none at count 0.
    #[must_use]
    pub fn palette_section_rows(&self, key: &VsKey) -> usize {
        self.counted(raw::ff_palette_section_rows, key) as usize
    }

    /// 4 for each stage up to the highest bit of the texture mask ([`FfImage::set_texture_mask`]), under every key.
    #[must_use]
    pub fn tt_section_rows(&self, key: &VsKey) -> usize {
        self.counted(raw::ff_tt_section_rows, key) as usize
    }

    /// 1.
    #[must_use]
    pub fn fog_section_rows(&self, key: &VsKey) -> usize {
        self.counted(raw::ff_fog_section_rows, key) as usize
    }

    /// 1.
    #[must_use]
    pub fn ambient_section_rows(&self, key: &VsKey) -> usize {
        self.counted(raw::ff_ambient_section_rows, key) as usize
    }

    /// The columns of world matrix 0 × view.
    #[must_use]
    pub fn fill_wv_section(&self, key: &VsKey) -> Vec<Row> {
        let rows = self.wv_section_rows(key);
        self.filled(raw::ff_fill_wv_section, key, rows)
            .expect("as many rows as the library counts are accepted")
    }

    /// The columns of the projection.
    #[must_use]
    pub fn fill_proj_section(&self, key: &VsKey) -> Vec<Row> {
        let rows = self.proj_section_rows(key);
        self.filled(raw::ff_fill_proj_section, key, rows)
            .expect("as many rows as the library counts are accepted")
    }

    /// Diffuse; lit ambient, specular and emissive too; lit with specular (power, 0, 0, 0).
    #[must_use]
    pub fn fill_material_section(&self, key: &VsKey) -> Vec<Row> {
        let rows = self.material_section_rows(key);
        self.filled(raw::ff_fill_material_section, key, rows)
            .expect("as many rows as the library counts are accepted")
    }

    /// Six rows for each light that is packed, by ascending index, or [`Refusal::WrongMask`]:
    /// - position in view space, and the kind: 3 directional, 2 spot, 1 point;
    /// - unit direction in view space, of any finite length (zeros where it has none), and falloff, 1e-6 at least;
    /// - diffuse rgb, and specular alpha;
    /// - ambient rgb, and the spot's offset;
    /// - attenuation 0 to 2, and range;
    /// - specular rgb, and the spot's scale.
    pub fn fill_lights_section(&self, key: &VsKey) -> Result<Vec<Row>, Refusal> {
        let rows = self.lights_section_rows(key);
        self.filled(raw::ff_fill_lights_section, key, rows)
    }

    /// The columns of world matrix i × view, by ascending i.
    #[must_use]
    pub fn fill_palette_section(&self, key: &VsKey) -> Vec<Row> {
        let rows = self.palette_section_rows(key);
        self.filled(raw::ff_fill_palette_section, key, rows)
            .expect("as many rows as the library counts are accepted")
    }

    /// The columns of each stage's texture matrix, also of a stage whose bit is clear below a higher one.
    #[must_use]
    pub fn fill_tt_section(&self, key: &VsKey) -> Vec<Row> {
        let rows = self.tt_section_rows(key);
        self.filled(raw::ff_fill_tt_section, key, rows)
            .expect("as many rows as the library counts are accepted")
    }

    /// Fog's start, end, density and 0; zeros where the key's `fog_mode` is 0.
    #[must_use]
    pub fn fill_fog_section(&self, key: &VsKey) -> Vec<Row> {
        let rows = self.fog_section_rows(key);
        self.filled(raw::ff_fill_fog_section, key, rows)
            .expect("as many rows as the library counts are accepted")
    }

    /// The ambient colour's red, green, blue and alpha, each divided by 255.
    #[must_use]
    pub fn fill_ambient_section(&self, key: &VsKey) -> Vec<Row> {
        let rows = self.ambient_section_rows(key);
        self.filled(raw::ff_fill_ambient_section, key, rows)
            .expect("as many rows as the library counts are accepted")
    }

    /// As [`FfImage::fill_wv_section`], into as many rows as [`FfImage::wv_section_rows`] tells, else
    /// [`Refusal::WrongLength`]. Nothing is allocated, and a refused call writes nothing.
    pub fn fill_wv_section_into(&self, key: &VsKey, dst: &mut [Row]) -> Result<(), Refusal> {
        self.fill(raw::ff_fill_wv_section, key, dst)
    }

    /// As [`FfImage::fill_proj_section`], into as many rows as [`FfImage::proj_section_rows`] tells, else
    /// [`Refusal::WrongLength`]. Nothing is allocated, and a refused call writes nothing.
    pub fn fill_proj_section_into(&self, key: &VsKey, dst: &mut [Row]) -> Result<(), Refusal> {
        self.fill(raw::ff_fill_proj_section, key, dst)
    }

    /// As [`FfImage::fill_material_section`], into as many rows as [`FfImage::material_section_rows`] tells, else
    /// [`Refusal::WrongLength`]. Nothing is allocated, and a refused call writes nothing.
    pub fn fill_material_section_into(&self, key: &VsKey, dst: &mut [Row]) -> Result<(), Refusal> {
        self.fill(raw::ff_fill_material_section, key, dst)
    }

    /// As [`FfImage::fill_lights_section`], into as many rows as [`FfImage::lights_section_rows`] tells, else
    /// [`Refusal::WrongLength`]. Or [`Refusal::WrongMask`]. Nothing is allocated, and a refused call writes nothing.
    pub fn fill_lights_section_into(&self, key: &VsKey, dst: &mut [Row]) -> Result<(), Refusal> {
        self.fill(raw::ff_fill_lights_section, key, dst)
    }

    /// As [`FfImage::fill_palette_section`], into as many rows as [`FfImage::palette_section_rows`] tells, else
    /// [`Refusal::WrongLength`]. Nothing is allocated, and a refused call writes nothing.
    pub fn fill_palette_section_into(&self, key: &VsKey, dst: &mut [Row]) -> Result<(), Refusal> {
        self.fill(raw::ff_fill_palette_section, key, dst)
    }

    /// As [`FfImage::fill_tt_section`], into as many rows as [`FfImage::tt_section_rows`] tells, else
    /// [`Refusal::WrongLength`]. Nothing is allocated, and a refused call writes nothing.
    pub fn fill_tt_section_into(&self, key: &VsKey, dst: &mut [Row]) -> Result<(), Refusal> {
        self.fill(raw::ff_fill_tt_section, key, dst)
    }

    /// As [`FfImage::fill_fog_section`], into as many rows as [`FfImage::fog_section_rows`] tells, else
    /// [`Refusal::WrongLength`]. Nothing is allocated, and a refused call writes nothing.
    pub fn fill_fog_section_into(&self, key: &VsKey, dst: &mut [Row]) -> Result<(), Refusal> {
        self.fill(raw::ff_fill_fog_section, key, dst)
    }

    /// As [`FfImage::fill_ambient_section`], into as many rows as [`FfImage::ambient_section_rows`] tells, else
    /// [`Refusal::WrongLength`]. Nothing is allocated, and a refused call writes nothing.
    pub fn fill_ambient_section_into(&self, key: &VsKey, dst: &mut [Row]) -> Result<(), Refusal> {
        self.fill(raw::ff_fill_ambient_section, key, dst)
    }

    fn counted(&self, count: Counting, key: &VsKey) -> u32 {
        let mut out = 0;
        let (image, [a, b, c, d, e, f, g, h]) = (self.as_bytes(), fields(key));
        let (from, len) = (image.as_ptr(), image.len());
        // SAFETY: the pointer goes with the array's length, and `out` is apart from it.
        let answer = unsafe { count(from, len, a, b, c, d, e, f, g, h, &mut out) };
        Refusal::of(answer).expect("the bytes of an FfImage are an image");
        out
    }

    fn filled(&self, fill: Filling, key: &VsKey, rows: usize) -> Result<Vec<Row>, Refusal> {
        let mut dst = vec![[0.0; 4]; rows];
        self.fill(fill, key, &mut dst)?;
        Ok(dst)
    }

    fn fill(&self, fill: Filling, key: &VsKey, dst: &mut [Row]) -> Result<(), Refusal> {
        let (image, [a, b, c, d, e, f, g, h]) = (self.as_bytes(), fields(key));
        let floats = dst.as_flattened_mut();
        let (to, len) = (floats.as_mut_ptr().cast(), size_of_val(floats));
        // SAFETY: each pointer goes with its slice's length in bytes, the two are apart, and any bytes are floats.
        Refusal::of(unsafe { fill(image.as_ptr(), image.len(), a, b, c, d, e, f, g, h, to, len) })?;
        // They crossed as little-endian bytes, which most machines have anyway.
        for float in floats {
            *float = f32::from_bits(u32::from_le(float.to_bits()));
        }
        Ok(())
    }
}

/// The rows that such bytes mean.
pub(crate) fn rows_of(bytes: &[u8]) -> Vec<Row> {
    let fours = bytes.as_chunks().0.iter();
    let floats: Vec<f32> = fours.map(|&four| f32::from_le_bytes(four)).collect();
    floats.as_chunks().0.to_vec()
}

/// The eight numbers as they cross.
pub(crate) fn fields(key: &VsKey) -> [u8; 8] {
    [
        u8::from(key.has_rhw),
        u8::from(key.lighting_enabled),
        u8::from(key.specular_enable),
        u8::from(key.vertex_blend_indexed),
        u8::from(key.preview),
        key.light_active_mask,
        key.fog_mode,
        key.vertex_blend_count,
    ]
}

#[cfg(test)]
mod tests {
    use super::*;

    /// The fills above lend the right length always: another one is refused before the mask is looked at.
    #[test]
    fn rows_of_another_number_are_refused_before_a_mask() {
        let mut state = FfImage::fresh();
        for index in 0..9 {
            state.set_light_enabled_at(index, true).unwrap();
        }
        for (preview, light_active_mask, right, refusal) in [
            (false, 0xFF, 48, None),
            (false, 0x0F, 24, Some(Refusal::WrongMask)),
            (true, 0xFF, 48, Some(Refusal::WrongMask)),
            (true, 0x0F, 24, None),
            (true, 0, 0, None),
        ] {
            let key = VsKey {
                preview,
                light_active_mask,
                ..VsKey::default()
            };
            for rows in [0, 18, 24, 30, 48, 54] {
                let expected = if rows == right {
                    refusal
                } else {
                    Some(Refusal::WrongLength)
                };
                let filled = state.filled(raw::ff_fill_lights_section, &key, rows);
                assert_eq!(filled.err(), expected, "{rows} rows, {key:?}");
            }
        }
    }

    /// One row of FOG and of AMBIENT under every key; those of TT by the state's mask.
    #[test]
    fn rows_of_another_number_are_refused() {
        let mut state = FfImage::fresh();
        state.set_texture_mask(4);
        let sections: [(Filling, usize); 3] = [
            (raw::ff_fill_fog_section, 1),
            (raw::ff_fill_ambient_section, 1),
            (raw::ff_fill_tt_section, 12),
        ];
        for (fill, right) in sections {
            for rows in [0, 1, 2, 11, 12, 13, 32] {
                let expected = (rows != right).then_some(Refusal::WrongLength);
                let filled = state.filled(fill, &VsKey::default(), rows);
                assert_eq!(filled.err(), expected, "{rows} rows for {right}");
            }
        }
    }
}
