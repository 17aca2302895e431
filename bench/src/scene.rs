//! What both sides pack: a state with eight spot lights, its image, and a key.

use mtld3d_types::{
    D3DLIGHT_SPOT, D3DLIGHT9, D3DMATRIX, D3DTS_VIEW, D3DTS_WORLD, D3DVECTOR, RENDER_STATE_COUNT,
};
use original::convert::{FfVsLayout, FfVsLayoutFlags};
use original::dxso::{FfVsFlags, FfVsKey, MAX_LINKED_INPUTS};
use original::ff_state::FfState;

use crate::raw;

pub const IMAGE: usize = 24_224;
const LIGHT: usize = 104;

/// The numbers of `key` as they cross.
pub const KEY: [u8; 8] = [0, 1, 1, 1, 0, 0xFF, 0, 1];

/// Sixteen numbers, as in crates/bench_loops. Made entry by entry: rows that are first made and then copied cost the
/// Rust's loops more than a fill of PROJ does.
pub fn spread(x: f32) -> D3DMATRIX {
    let rows = [x, x * 2.0, x * 3.0, x * 5.0];
    D3DMATRIX {
        m: core::array::from_fn(|i| rows[i / 4] + [0.0, 1.0, 2.0, 3.0][i % 4]),
    }
}

pub fn spot() -> D3DLIGHT9 {
    D3DLIGHT9 {
        type_: D3DLIGHT_SPOT,
        direction: D3DVECTOR {
            x: 1.0,
            y: 2.0,
            z: 3.0,
        },
        theta: 0.5,
        phi: 1.0,
        falloff: 1.0,
        ..D3DLIGHT9::default()
    }
}

/// A fresh state with another world matrix, and eight spot lights on.
pub fn eight_spots(x: f32) -> FfState {
    let mut s = FfState::new();
    s.set_transform(D3DTS_WORLD, &spread(x));
    for index in 0..8 {
        s.set_light_at(index, &spot());
        s.set_light_enabled_at(index, true);
    }
    s
}

/// Lit and specular, indexed, eight lights.
pub fn key() -> FfVsKey {
    let layout = FfVsLayout {
        flags: FfVsLayoutFlags::empty(),
        tex_coord_count: 0,
        tex_coord_dims: [0; 8],
        declared_weights_count: 0,
    };
    let render_states = [0; RENDER_STATE_COUNT];
    let mut key = FfState::new().build_vs_key(&render_states, layout, 0, [0; MAX_LINKED_INPUTS]);
    key.flags =
        FfVsFlags::LIGHTING_ENABLED | FfVsFlags::SPECULAR_ENABLE | FfVsFlags::VERTEX_BLEND_INDEXED;
    key.light_active_mask = 0xFF;
    key.vertex_blend_count = 1;
    key
}

/// The image of the same state, with the view and the world matrix of 1.
pub fn image() -> Box<[u8; IMAGE]> {
    let mut image = Box::new([0; IMAGE]);
    let (i, n) = (image.as_mut_ptr(), IMAGE);
    let matrix: Vec<u8> = spread(1.0).m.iter().flat_map(|x| x.to_le_bytes()).collect();
    let l = spot();
    let mut numbers = [0u32; LIGHT / 4];
    numbers[0] = l.type_;
    for (at, float) in [
        (1, l.diffuse.r),
        (2, l.diffuse.g),
        (3, l.diffuse.b),
        (16, l.direction.x),
        (17, l.direction.y),
        (18, l.direction.z),
        (20, l.falloff),
        (24, l.theta),
        (25, l.phi),
    ] {
        numbers[at] = float.to_bits();
    }
    let light: Vec<u8> = numbers
        .iter()
        .flat_map(|number| number.to_le_bytes())
        .collect();
    // SAFETY: each pointer goes with its slice's length, and no two overlap.
    let answers = unsafe {
        let fresh = raw::ff_image_fresh(i, n)
            | raw::ff_set_transform(i, n, D3DTS_VIEW, matrix.as_ptr(), matrix.len())
            | raw::ff_set_transform(i, n, D3DTS_WORLD, matrix.as_ptr(), matrix.len());
        (0..8).fold(fresh, |answers, index| {
            answers
                | raw::ff_set_light_at(i, n, index, light.as_ptr(), light.len())
                | raw::ff_set_light_enabled_at(i, n, index, 1)
        })
    };
    assert_eq!(answers, 0, "the image is refused");
    image
}
