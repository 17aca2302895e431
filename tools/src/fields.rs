//! The fields of an image, read from its bytes by the papers' table and not by the library's reads.

use ff_state::{Color, FfImage, Light, Material, Matrix, Vector};

use crate::places as at;

/// A light of index 8 or more.
#[derive(Clone, Copy, Debug, PartialEq)]
pub struct Entry {
    pub index: u32,
    pub enabled: bool,
    pub light: Light,
}

#[derive(Clone, Debug)]
pub struct Fields {
    pub view: Matrix,
    pub projection: Matrix,
    pub palette: Vec<Matrix>,
    pub texture: Vec<Matrix>,
    pub material: Material,
    pub slots: Vec<Light>,
    pub enabled: u8,
    pub defined: u8,
    pub dirty: u8,
    pub highest: u32,
    pub entries: Vec<Entry>,
    pub fog: [f32; 3],
    pub ambient: u32,
    pub texture_mask: u8,
}

/// N bytes as a number, the first the lowest; a byte behind the end counts as 0.
#[must_use]
pub fn number(bytes: &[u8], place: usize, n: usize) -> u32 {
    let byte = |i| u32::from(bytes.get(place + i).copied().unwrap_or(0));
    (0..n).map(|i| byte(i) << (8 * i)).sum()
}

fn float(bytes: &[u8], place: usize, i: usize) -> f32 {
    f32::from_bits(number(bytes, place + 4 * i, 4))
}

fn color(bytes: &[u8], place: usize, i: usize) -> Color {
    let [r, g, b, a] = std::array::from_fn(|k| float(bytes, place, i + k));
    Color { r, g, b, a }
}

fn vector(bytes: &[u8], place: usize, i: usize) -> Vector {
    let [x, y, z] = std::array::from_fn(|k| float(bytes, place, i + k));
    Vector { x, y, z }
}

fn matrices(bytes: &[u8], place: usize, n: usize) -> Vec<Matrix> {
    let one = |place| Matrix {
        m: std::array::from_fn(|i| std::array::from_fn(|j| float(bytes, place, 4 * i + j))),
    };
    (0..n).map(|i| one(place + at::MATRIX_BYTES * i)).collect()
}

fn material(bytes: &[u8], place: usize) -> Material {
    Material {
        diffuse: color(bytes, place, 0),
        ambient: color(bytes, place, 4),
        specular: color(bytes, place, 8),
        emissive: color(bytes, place, 12),
        power: float(bytes, place, 16),
    }
}

fn light(bytes: &[u8], place: usize) -> Light {
    Light {
        type_: number(bytes, place, 4),
        diffuse: color(bytes, place, 1),
        specular: color(bytes, place, 5),
        ambient: color(bytes, place, 9),
        position: vector(bytes, place, 13),
        direction: vector(bytes, place, 16),
        range: float(bytes, place, 19),
        falloff: float(bytes, place, 20),
        attenuation: std::array::from_fn(|k| float(bytes, place, 21 + k)),
        theta: float(bytes, place, 24),
        phi: float(bytes, place, 25),
    }
}

fn entry(bytes: &[u8], place: usize) -> Entry {
    Entry {
        index: number(bytes, place, 4),
        enabled: number(bytes, place + 4, 4) != 0,
        light: light(bytes, place + 8),
    }
}

impl Fields {
    #[must_use]
    pub fn read(image: &FfImage) -> Self {
        let bytes = image.as_bytes();
        let list = |place, step, n| (0..n).map(move |i| place + step * i);
        let count = number(bytes, at::COUNT, 2) as usize;
        Self {
            view: matrices(bytes, at::VIEW, 1)[0],
            projection: matrices(bytes, at::PROJECTION, 1)[0],
            palette: matrices(bytes, at::PALETTE, 256),
            texture: matrices(bytes, at::TEXTURE, 8),
            material: material(bytes, at::MATERIAL),
            slots: list(at::LIGHTS, at::LIGHT_BYTES, 8)
                .map(|p| light(bytes, p))
                .collect(),
            enabled: bytes[at::ENABLED],
            defined: bytes[at::DEFINED],
            dirty: bytes[at::DIRTY],
            highest: number(bytes, at::HIGHEST, 2),
            entries: list(at::ENTRIES, at::ENTRY_BYTES, count)
                .map(|p| entry(bytes, p))
                .collect(),
            fog: std::array::from_fn(|k| float(bytes, at::FOG, k)),
            ambient: number(bytes, at::AMBIENT, 4),
            texture_mask: bytes[at::MASK],
        }
    }

    /// The lights that are stored, by their indices: each with its enable.
    #[must_use]
    pub fn lights(&self) -> Vec<Entry> {
        let slots = (0..8u8)
            .filter(|i| self.defined >> i & 1 != 0)
            .map(|i| Entry {
                index: u32::from(i),
                enabled: self.enabled >> i & 1 != 0,
                light: self.slots[usize::from(i)],
            });
        slots.chain(self.entries.iter().copied()).collect()
    }
}

#[cfg(test)]
mod tests {
    use super::*;

    /// Every number of a light and a material another one, read back at its own place.
    #[test]
    fn what_was_set_stands_in_the_fields() {
        let mut image = FfImage::fresh();
        let mut bytes = [0; Light::BYTES];
        for (i, four) in bytes.as_chunks_mut::<4>().0.iter_mut().enumerate() {
            *four = (i as f32 + 0.5).to_le_bytes();
        }
        let odd = Light::from_bytes(&bytes);
        let material = Material::from_bytes(bytes[..Material::BYTES].try_into().unwrap());
        let matrix = Matrix::from_bytes(bytes[..Matrix::BYTES].try_into().unwrap());
        for state in [2, 16 + 3, 256 + 9] {
            image.set_transform(state, &matrix).unwrap();
        }
        image.set_material(&material);
        image.set_light_at(5, &odd).unwrap();
        image.set_light_at(4_000_000_000, &odd).unwrap();
        image.set_light_enabled_at(70, true).unwrap();
        image.set_fog_start(1.0);
        image.set_fog_end(2.0);
        image.set_fog_density(3.0);
        image.set_ambient(0x1122_3344);
        image.set_texture_mask(0xA0);
        image.take_ff_vs_dirty();
        image.mark_ff_vs_dirty(6).unwrap();

        let fields = Fields::read(&image);
        assert_eq!((fields.view, fields.projection), (matrix, Matrix::IDENTITY));
        assert_eq!(
            (fields.texture[3], fields.palette[9], fields.palette[8]),
            (matrix, matrix, Matrix::IDENTITY)
        );
        assert_eq!(
            (fields.material, fields.highest, fields.dirty),
            (material, 9, 6)
        );
        assert_eq!(
            (fields.fog, fields.ambient, fields.texture_mask),
            ([1.0, 2.0, 3.0], 0x1122_3344, 0xA0)
        );
        let lights = [
            Entry {
                index: 5,
                enabled: false,
                light: odd,
            },
            Entry {
                index: 70,
                enabled: true,
                light: Light::default(),
            },
            Entry {
                index: 4_000_000_000,
                enabled: false,
                light: odd,
            },
        ];
        assert_eq!(fields.lights(), lights);
    }
}
