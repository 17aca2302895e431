//! Refresh: a mirror of the shader's constants, kept up with the state.

use crate::image::FfImage;
use crate::packing::{ROW_BYTES, Row, VsKey, fields, rows_of};
use crate::raw;
use crate::refusal::Refusal;

/// The first row of WV.
pub const ROW_WV: usize = 0;
/// The first row of PROJ.
pub const ROW_PROJ: usize = 4;
/// The first row of FOG.
pub const ROW_FOG: usize = 8;
/// The first row of AMBIENT.
pub const ROW_AMBIENT: usize = 9;
/// The first row of MATERIAL.
pub const ROW_MATERIAL: usize = 10;
/// The first row of LIGHTS.
pub const ROW_LIGHTS: usize = 15;
/// The first row of TT.
pub const ROW_TT: usize = 63;
/// The first row of PALETTE.
pub const ROW_PALETTE: usize = 95;

/// The most rows that the shader's constants have, and the rows of a mirror.
pub const ROWS: usize = 1115;

/// A mirror of the shader's constants: [`Mirror::ROWS`] rows, held as the bytes that cross. Any bytes are a mirror.
#[derive(Clone, PartialEq, Eq)]
pub struct Mirror {
    bytes: Box<[u8; Self::BYTES]>,
}

impl Default for Mirror {
    fn default() -> Self {
        Self::new()
    }
}

impl Mirror {
    /// The rows of a mirror.
    pub const ROWS: usize = ROWS;

    /// The bytes of a mirror.
    pub const BYTES: usize = ROW_BYTES * Self::ROWS;

    /// Zeros. Any other bytes would do: the first refresh of a fresh state writes every section.
    #[must_use]
    pub fn new() -> Self {
        Self {
            bytes: Box::new([0; Self::BYTES]),
        }
    }

    /// The bytes, as they go to the shader.
    #[must_use]
    pub fn as_bytes(&self) -> &[u8; Self::BYTES] {
        &self.bytes
    }

    /// The bytes, to be overwritten: the sections that lose rows so are to be marked.
    pub fn as_mut_bytes(&mut self) -> &mut [u8; Self::BYTES] {
        &mut self.bytes
    }

    /// The rows that the bytes mean.
    #[must_use]
    pub fn rows(&self) -> Vec<Row> {
        rows_of(self.as_bytes())
    }
}

impl FfImage {
    /// Takes the dirty bits and clears them, writes the rows of each section that they name from the section's first row
    /// on, and answers with the bits. Every other row keeps its bytes.
    ///
    /// Or answers with [`Refusal::HasRhw`] or [`Refusal::WrongMask`], and the bits stay dirty. The mask is looked at
    /// whether LIGHTS is dirty or not.
    ///
    /// Right after an accepted refresh the mirror holds what all the fills answer under this key, each from its section's
    /// first row on. For this it is one mirror all along, its bits are taken by refreshes alone, and every section is
    /// marked ([`FfImage::mark_ff_vs_dirty`]) before a refresh whose key differs from the last accepted one's, or whose
    /// state was read in ([`FfImage::from_bytes`]) or is another one than before. A section with rows overwritten from
    /// outside is right again from the first accepted refresh after it is marked.
    pub fn refresh(&mut self, key: &VsKey, mirror: &mut Mirror) -> Result<u32, Refusal> {
        let mut out = 0;
        let [a, b, c, d, e, f, g, h] = fields(key);
        let (image, mirror) = (self.lent(), mirror.as_mut_bytes());
        let (to, len) = (mirror.as_mut_ptr(), mirror.len());
        // SAFETY: each pointer goes with its array's length, and the three are apart.
        let answer = unsafe {
            raw::ff_refresh(
                image.as_mut_ptr(),
                image.len(),
                a,
                b,
                c,
                d,
                e,
                f,
                g,
                h,
                to,
                len,
                &mut out,
            )
        };
        Refusal::of(answer)?;
        Ok(out)
    }
}
