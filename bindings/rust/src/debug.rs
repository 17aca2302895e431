//! States and mirrors in words, not byte by byte.

use std::fmt::{self, Debug, Formatter};

use crate::image::{
    DIRTY_AMBIENT, DIRTY_FOG, DIRTY_LIGHTS, DIRTY_MATERIAL, DIRTY_PALETTE, DIRTY_PROJ, DIRTY_TT,
    DIRTY_WV, FfImage,
};
use crate::layout::{ENTRY_BYTES, LIGHT_SLOTS, TEXTURE_STAGES, WORLD_MATRICES, image_at};
use crate::mirror::{
    Mirror, ROW_AMBIENT, ROW_FOG, ROW_LIGHTS, ROW_MATERIAL, ROW_PALETTE, ROW_PROJ, ROW_TT, ROW_WV,
    ROWS,
};
use crate::packing::Row;
use crate::records::{D3DLIGHT_DIRECTIONAL, D3DLIGHT_POINT, D3DLIGHT_SPOT};
use crate::records::{Light, Material, Matrix};
use crate::state::FfState;

const DIRTY: [(u32, &str); 8] = [
    (DIRTY_WV, "WV"),
    (DIRTY_PROJ, "PROJ"),
    (DIRTY_FOG, "FOG"),
    (DIRTY_AMBIENT, "AMBIENT"),
    (DIRTY_MATERIAL, "MATERIAL"),
    (DIRTY_LIGHTS, "LIGHTS"),
    (DIRTY_TT, "TT"),
    (DIRTY_PALETTE, "PALETTE"),
];

/// The sections of dirty bits by their names.
struct Dirty(u8);

impl Debug for Dirty {
    fn fmt(&self, f: &mut Formatter<'_>) -> fmt::Result {
        let named = DIRTY.iter().filter(|(bit, _)| u32::from(self.0) & bit != 0);
        let names: Vec<&str> = named.map(|&(_, name)| name).collect();
        f.write_str(if names.is_empty() { "none" } else { "" })?;
        f.write_str(&names.join(" | "))
    }
}

/// A matrix by its rows, or the identity's name.
struct Shown(Matrix);

impl Debug for Shown {
    fn fmt(&self, f: &mut Formatter<'_>) -> fmt::Result {
        if self.0 == Matrix::IDENTITY {
            return f.write_str("identity");
        }
        write!(f, "{:?}", self.0.m)
    }
}

/// A light's kind, and whether it is enabled.
struct Switched(Light, bool);

impl Debug for Switched {
    fn fmt(&self, f: &mut Formatter<'_>) -> fmt::Result {
        match self.0.type_ {
            D3DLIGHT_POINT => f.write_str("point")?,
            D3DLIGHT_SPOT => f.write_str("spot")?,
            D3DLIGHT_DIRECTIONAL => f.write_str("directional")?,
            other => write!(f, "type {other}")?,
        }
        f.write_str(if self.1 { " on" } else { " off" })
    }
}

/// The lights that are defined, by their indices.
struct Lights<'a>(&'a Reading<'a>);

impl Debug for Lights<'_> {
    fn fmt(&self, f: &mut Formatter<'_>) -> fmt::Result {
        let image = self.0;
        let [enabled, defined] = [image_at::ENABLED, image_at::DEFINED].map(|at| image.bytes[at]);
        let mut map = f.debug_map();
        for i in (0..LIGHT_SLOTS).filter(|i| defined >> i & 1 != 0) {
            let light = image.light(image_at::LIGHTS + i * Light::BYTES);
            map.entry(&i, &Switched(light, enabled >> i & 1 != 0));
        }
        let count = u16::from_le_bytes(*image.item(image_at::OVERFLOW_COUNT));
        for i in 0..usize::from(count) {
            let at = image_at::ENTRIES + i * ENTRY_BYTES;
            let light = image.light(at + 8);
            map.entry(
                &image.number(at),
                &Switched(light, image.number(at + 4) != 0),
            );
        }
        map.finish()
    }
}

/// The numbers of an image.
struct Reading<'a> {
    bytes: &'a [u8; FfImage::BYTES],
}

impl Reading<'_> {
    /// The bytes of an item that begins here.
    fn item<const BYTES: usize>(&self, at: usize) -> &[u8; BYTES] {
        self.bytes[at..].first_chunk().expect("a place of an image")
    }

    fn number(&self, at: usize) -> u32 {
        u32::from_le_bytes(*self.item(at))
    }

    fn float(&self, at: usize) -> f32 {
        f32::from_bits(self.number(at))
    }

    fn matrix(&self, at: usize) -> Matrix {
        Matrix::from_bytes(self.item(at))
    }

    fn light(&self, at: usize) -> Light {
        Light::from_bytes(self.item(at))
    }

    /// How many of so many matrices are not the identity.
    fn changed(&self, at: usize, matrices: usize) -> usize {
        let all = (0..matrices).map(|i| self.matrix(at + i * Matrix::BYTES));
        all.filter(|m| *m != Matrix::IDENTITY).count()
    }
}

fn told(name: &str, image: &FfImage, f: &mut Formatter<'_>) -> fmt::Result {
    let image = Reading {
        bytes: image.as_bytes(),
    };
    let fog = [
        image_at::FOG_START,
        image_at::FOG_END,
        image_at::FOG_DENSITY,
    ];
    let world = image.changed(image_at::WORLD, WORLD_MATRICES);
    let texture = image.changed(image_at::TEXTURE, TEXTURE_STAGES);
    f.debug_struct(name)
        .field("dirty", &Dirty(image.bytes[image_at::DIRTY]))
        .field("view", &Shown(image.matrix(image_at::VIEW)))
        .field("projection", &Shown(image.matrix(image_at::PROJECTION)))
        .field("world", &Shown(image.matrix(image_at::WORLD)))
        .field("world_matrices_changed", &world)
        .field("texture_matrices_changed", &texture)
        .field(
            "material",
            &Material::from_bytes(image.item(image_at::MATERIAL)),
        )
        .field("lights", &Lights(&image))
        .field("fog", &fog.map(|at| image.float(at)))
        .field(
            "ambient",
            &format_args!("0x{:08x}", image.number(image_at::AMBIENT)),
        )
        .field(
            "texture_mask",
            &format_args!("0x{:02x}", image.number(image_at::TEXTURE_MASK)),
        )
        .finish()
}

/// The state in words: which sections are dirty, the first matrices and how many others are not the identity, the material,
/// and each light that is defined.
impl Debug for FfImage {
    fn fmt(&self, f: &mut Formatter<'_>) -> fmt::Result {
        told("FfImage", self, f)
    }
}

/// As an [`FfImage`]'s.
impl Debug for FfState {
    fn fmt(&self, f: &mut Formatter<'_>) -> fmt::Result {
        told("FfState", &self.to_image(), f)
    }
}

/// The rows of a section up to the last that is not zeros.
struct Rows<'a>(&'a [Row]);

impl Debug for Rows<'_> {
    fn fmt(&self, f: &mut Formatter<'_>) -> fmt::Result {
        let used = self.0.iter().rposition(|row| *row != [0.0; 4]);
        let used = used.map_or(0, |last| last + 1);
        if used > 8 {
            return write!(f, "{used} rows");
        }
        f.debug_list().entries(&self.0[..used]).finish()
    }
}

/// Each section up to its last row that is not zeros; of more than eight rows the number alone.
impl Debug for Mirror {
    fn fmt(&self, f: &mut Formatter<'_>) -> fmt::Result {
        let rows = self.rows();
        let section = |first: usize, end: usize| Rows(&rows[first..end]);
        f.debug_struct("Mirror")
            .field("wv", &section(ROW_WV, ROW_PROJ))
            .field("proj", &section(ROW_PROJ, ROW_FOG))
            .field("fog", &section(ROW_FOG, ROW_AMBIENT))
            .field("ambient", &section(ROW_AMBIENT, ROW_MATERIAL))
            .field("material", &section(ROW_MATERIAL, ROW_LIGHTS))
            .field("lights", &section(ROW_LIGHTS, ROW_TT))
            .field("tt", &section(ROW_TT, ROW_PALETTE))
            .field("palette", &section(ROW_PALETTE, ROWS))
            .finish()
    }
}
