//! Matrices, materials and lights as they cross: four little-endian bytes a number, in the orders
//! of document 01, and every NaN the one of our library. A light's type is a number, not a float.

use mtld3d_types::{D3DCOLORVALUE, D3DLIGHT9, D3DMATERIAL9, D3DMATRIX, D3DVECTOR};

use crate::call::{LIGHT, MATERIAL};
use crate::floats::with_one_nan;

/// Reads one number after the other.
struct Reader<'a> {
    fours: &'a [[u8; 4]],
}

impl Reader<'_> {
    fn number(&mut self) -> u32 {
        let (first, rest) = self.fours.split_first().expect("an item of its own length");
        self.fours = rest;
        u32::from_le_bytes(*first)
    }

    fn float(&mut self) -> f32 {
        f32::from_bits(self.number())
    }

    fn color(&mut self) -> D3DCOLORVALUE {
        let [r, g, b, a] = core::array::from_fn(|_| self.float());
        D3DCOLORVALUE { r, g, b, a }
    }

    fn vector(&mut self) -> D3DVECTOR {
        let [x, y, z] = core::array::from_fn(|_| self.float());
        D3DVECTOR { x, y, z }
    }
}

fn reader(bytes: &[u8]) -> Reader<'_> {
    Reader {
        fours: bytes.as_chunks().0,
    }
}

#[must_use]
pub fn matrix(bytes: &[u8]) -> D3DMATRIX {
    let mut reader = reader(bytes);
    D3DMATRIX {
        m: core::array::from_fn(|_| reader.float()),
    }
}

#[must_use]
pub fn material(bytes: &[u8]) -> D3DMATERIAL9 {
    let mut reader = reader(bytes);
    D3DMATERIAL9 {
        diffuse: reader.color(),
        ambient: reader.color(),
        specular: reader.color(),
        emissive: reader.color(),
        power: reader.float(),
    }
}

#[must_use]
pub fn light(bytes: &[u8]) -> D3DLIGHT9 {
    let mut reader = reader(bytes);
    D3DLIGHT9 {
        type_: reader.number(),
        diffuse: reader.color(),
        specular: reader.color(),
        ambient: reader.color(),
        position: reader.vector(),
        direction: reader.vector(),
        range: reader.float(),
        falloff: reader.float(),
        attenuation0: reader.float(),
        attenuation1: reader.float(),
        attenuation2: reader.float(),
        theta: reader.float(),
        phi: reader.float(),
    }
}

/// Puts floats one after the other from the start of `bytes`.
fn put_floats(floats: &[f32], bytes: &mut [u8]) {
    for (four, float) in bytes.as_chunks_mut::<4>().0.iter_mut().zip(floats) {
        *four = with_one_nan(float.to_bits()).to_le_bytes();
    }
}

pub fn put_matrix(m: &D3DMATRIX, bytes: &mut [u8]) {
    put_floats(&m.m, bytes);
}

const fn rgba(c: &D3DCOLORVALUE) -> [f32; 4] {
    [c.r, c.g, c.b, c.a]
}

pub fn put_material(m: &D3DMATERIAL9, bytes: &mut [u8]) {
    let colors = [&m.diffuse, &m.ambient, &m.specular, &m.emissive];
    for (color, sixteen) in colors.into_iter().zip(bytes.chunks_mut(16)) {
        put_floats(&rgba(color), sixteen);
    }
    put_floats(&[m.power], &mut bytes[MATERIAL - 4..]);
}

pub fn put_light(l: &D3DLIGHT9, bytes: &mut [u8]) {
    bytes[..4].copy_from_slice(&l.type_.to_le_bytes());
    for (color, sixteen) in [&l.diffuse, &l.specular, &l.ambient]
        .into_iter()
        .zip(bytes[4..].chunks_mut(16))
    {
        put_floats(&rgba(color), sixteen);
    }
    let (p, d) = (&l.position, &l.direction);
    let rest = [
        p.x,
        p.y,
        p.z,
        d.x,
        d.y,
        d.z,
        l.range,
        l.falloff,
        l.attenuation0,
        l.attenuation1,
        l.attenuation2,
        l.theta,
        l.phi,
    ];
    put_floats(&rest, &mut bytes[52..LIGHT]);
}
