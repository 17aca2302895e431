//! Document 01's cases of packing, on the library.

use ff_state::{
    Color, D3DLIGHT_DIRECTIONAL, D3DLIGHT_POINT, D3DLIGHT_SPOT, D3DTS_PROJECTION, D3DTS_VIEW,
    D3DTS_WORLD, FfImage, Light, Material, Matrix, Refusal, Vector, VsKey,
};

const KEY: VsKey = VsKey {
    has_rhw: false,
    lighting_enabled: false,
    specular_enable: false,
    vertex_blend_indexed: false,
    preview: false,
    light_active_mask: 0,
    fog_mode: 0,
    vertex_blend_count: 0,
};
const LIT: VsKey = VsKey {
    lighting_enabled: true,
    ..KEY
};

fn moved(x: f32, y: f32, z: f32) -> Matrix {
    let mut m = Matrix::IDENTITY;
    m.m[3] = [x, y, z, 1.0];
    m
}

/// A state with these lights, all of them enabled, from index 0 on.
fn lit_by(lights: &[Light]) -> FfImage {
    let mut state = FfImage::fresh();
    for (light, index) in lights.iter().zip(0..) {
        state.set_light_at(index, light).unwrap();
        state.set_light_enabled_at(index, true).unwrap();
    }
    state
}

/// The rows of a state's lights.
fn lights(state: &FfImage) -> Vec<[f32; 4]> {
    let key = VsKey {
        light_active_mask: state.compacted_light_masks().active,
        ..KEY
    };
    state.fill_lights_section(&key).unwrap()
}

#[test]
fn p1_to_p6_row_counts() {
    let with_mask = |light_active_mask| VsKey {
        light_active_mask,
        ..LIT
    };
    let blended = |vertex_blend_indexed, vertex_blend_count| VsKey {
        vertex_blend_indexed,
        vertex_blend_count,
        ..KEY
    };
    let specular = VsKey {
        specular_enable: true,
        ..LIT
    };
    let transformed = VsKey {
        has_rhw: true,
        ..KEY
    };
    let counts = [
        (KEY, 11),
        (LIT, 14),
        (specular, 15),
        (with_mask(1), 21),
        (with_mask(0xFF), 63),
        (blended(true, 1), 255),
        (blended(false, 255), 1115),
        (transformed, 1),
    ];
    let state = FfImage::fresh();
    for (key, count) in counts {
        assert_eq!(state.vs_row_count(&key), count, "{key:?}");
    }
}

#[test]
fn p10_a_moved_world() {
    let mut state = FfImage::fresh();
    state
        .set_transform(D3DTS_WORLD, &moved(5.0, 6.0, 7.0))
        .unwrap();
    let rows = state.fill_wv_section(&KEY);
    assert_eq!(rows[0], [1.0, 0.0, 0.0, 5.0]);
    assert_eq!(rows[1], [0.0, 1.0, 0.0, 6.0]);
    assert_eq!(rows[2], [0.0, 0.0, 1.0, 7.0]);
    assert_eq!(rows[3], [0.0, 0.0, 0.0, 1.0]);
}

fn directed(z: f32) -> Light {
    Light {
        direction: Vector { x: 0.0, y: 0.0, z },
        ..Light::default()
    }
}

#[test]
fn p11_a_direction_becomes_a_unit() {
    let rows = lights(&lit_by(&[directed(2.0)]));
    assert_eq!(rows[1], [0.0, 0.0, 1.0, 1e-6]);
}

#[test]
fn p12_a_spot_without_a_cone() {
    let spot = Light {
        type_: D3DLIGHT_SPOT,
        ..Light::default()
    };
    let rows = lights(&lit_by(&[spot]));
    assert_eq!(rows[5][3], 1_000_000.0);
    assert_eq!(rows[3][3], -1_000_000.0);
}

/// The square of 1e20 overflows, so the direction is scaled first.
#[test]
fn a_direction_of_1e20_packs_a_unit() {
    for (z, unit) in [(1e20, 1.0f32), (-1e20, -1.0)] {
        let rows = lights(&lit_by(&[directed(z)]));
        let [x, y, z, _] = rows[1].map(f32::to_bits);
        assert_eq!([x, y, z], [0, 0, unit.to_bits()]);
    }
}

#[test]
fn the_six_rows_of_a_light() {
    let color = |first: f32| Color {
        r: first,
        g: first + 1.0,
        b: first + 2.0,
        a: first + 3.0,
    };
    let light = |type_| Light {
        type_,
        diffuse: color(1.0),
        specular: color(5.0),
        ambient: color(9.0),
        position: Vector {
            x: 13.0,
            y: 14.0,
            z: 15.0,
        },
        direction: Vector {
            x: 0.0,
            y: 16.0,
            z: 0.0,
        },
        range: 17.0,
        falloff: 18.0,
        attenuation: [19.0, 20.0, 21.0],
        theta: 0.0,
        phi: 0.0,
    };
    let kinds = [D3DLIGHT_DIRECTIONAL, D3DLIGHT_SPOT, D3DLIGHT_POINT];
    let mut state = lit_by(&kinds.map(light));
    state
        .set_transform(D3DTS_VIEW, &moved(100.0, 200.0, 300.0))
        .unwrap();
    let rows = lights(&state);
    for (six, kind) in rows.chunks(6).zip([3.0, 2.0, 1.0]) {
        let million = if kind == 2.0 { 1_000_000.0 } else { 0.0 };
        let expected = [
            [113.0, 214.0, 315.0, kind],
            [0.0, 1.0, 0.0, 18.0],
            [1.0, 2.0, 3.0, 8.0],
            [9.0, 10.0, 11.0, -million],
            [19.0, 20.0, 21.0, 17.0],
            [5.0, 6.0, 7.0, million],
        ];
        assert_eq!(six, expected);
    }
}

#[test]
fn the_rows_of_a_material() {
    let mut state = FfImage::fresh();
    let color = |first: f32| Color {
        r: first,
        g: first + 1.0,
        b: first + 2.0,
        a: first + 3.0,
    };
    state.set_material(&Material {
        diffuse: color(1.0),
        ambient: color(5.0),
        specular: color(9.0),
        emissive: color(13.0),
        power: 17.0,
    });
    let rows = [
        [1.0, 2.0, 3.0, 4.0],
        [5.0, 6.0, 7.0, 8.0],
        [9.0, 10.0, 11.0, 12.0],
        [13.0, 14.0, 15.0, 16.0],
        [17.0, 0.0, 0.0, 0.0],
    ];
    let specular = |key| VsKey {
        specular_enable: true,
        ..key
    };
    for (key, count) in [(KEY, 1), (specular(KEY), 1), (LIT, 4), (specular(LIT), 5)] {
        assert_eq!(state.material_section_rows(&key), count);
        assert_eq!(state.fill_material_section(&key), rows[..count]);
    }
}

#[test]
fn matrices_are_packed_by_columns() {
    let mut state = FfImage::fresh();
    state
        .set_transform(D3DTS_PROJECTION, &moved(1.0, 2.0, 3.0))
        .unwrap();
    state
        .set_transform(D3DTS_VIEW, &moved(10.0, 20.0, 30.0))
        .unwrap();
    for i in [0, 39, 254, 255] {
        state
            .set_transform(D3DTS_WORLD + i, &moved(i as f32, 0.0, 0.0))
            .unwrap();
    }
    assert_eq!(state.fill_proj_section(&KEY)[2], [0.0, 0.0, 1.0, 3.0]);
    let blended = |vertex_blend_indexed, vertex_blend_count| VsKey {
        vertex_blend_indexed,
        vertex_blend_count,
        ..KEY
    };
    // Unindexed there is no cap of 40.
    let rows = state.fill_palette_section(&blended(false, 255));
    assert_eq!(rows.len(), 4 * 255);
    assert_eq!(rows[4 * 39], [1.0, 0.0, 0.0, 49.0]);
    assert_eq!(rows[4 * 254], [1.0, 0.0, 0.0, 264.0]);
    let rows = state.fill_palette_section(&blended(true, 1));
    assert_eq!(rows.len(), 4 * 40);
    assert_eq!(rows[4 * 39 + 1], [0.0, 1.0, 0.0, 20.0]);
    assert!(state.fill_palette_section(&blended(true, 0)).is_empty());
    // The texture mask is 0.
    assert!(state.fill_tt_section(&KEY).is_empty());
}

/// An exact comparison with the compacted mask; 0 is never refused, and lighting plays no part.
#[test]
fn a_mask_that_is_not_the_states_is_refused() {
    let mut state = FfImage::fresh();
    for index in [0, 5, 70] {
        state.set_light_enabled_at(index, true).unwrap();
    }
    for mask in 0..=255 {
        let key = VsKey {
            has_rhw: true,
            light_active_mask: mask,
            ..KEY
        };
        let answer = state.fill_lights_section(&key);
        match mask {
            0 => assert_eq!(answer, Ok(Vec::new())),
            7 => assert_eq!(answer.unwrap().len(), 18),
            _ => assert_eq!(answer, Err(Refusal::WrongMask)),
        }
        let rows = 6 * (8 - mask.leading_zeros()) as usize;
        assert_eq!(state.lights_section_rows(&key), rows);
    }
    assert_eq!(Refusal::WrongMask.number(), 5);
}

/// So many lights that light, from index 2 on, the n-th at x = n; one below that is off, and one that lights nothing.
fn in_a_row(count: u8) -> FfImage {
    let light = |type_, x| Light {
        type_,
        position: Vector { x, y: 0.0, z: 0.0 },
        ..Light::default()
    };
    let mut state = FfImage::fresh();
    state.set_light_enabled_at(0, false).unwrap();
    state.set_light_at(1, &light(0, 0.0)).unwrap();
    state.set_light_enabled_at(1, true).unwrap();
    for n in (1..=count).rev() {
        let index = u32::from(n) + 1;
        let light = light(D3DLIGHT_POINT, f32::from(n));
        state.set_light_at(index, &light).unwrap();
        state.set_light_enabled_at(index, true).unwrap();
    }
    state
}

/// Document 02, T-01: "The preview list is the first four of the full one".
#[test]
fn a_preview_packs_the_first_four_lights() {
    let state = in_a_row(9);
    let preview = VsKey {
        preview: true,
        light_active_mask: 0x0F,
        ..LIT
    };
    let four = state.fill_lights_section(&preview).unwrap();
    assert_eq!(four.len(), 24);
    for (six, x) in four.chunks(6).zip([1.0, 2.0, 3.0, 4.0]) {
        assert_eq!(six[0], [x, 0.0, 0.0, 1.0]);
    }
    assert_eq!(four, lights(&state)[..24]);
    // The rows go by the mask alone, so that eight have room, and are refused all the same.
    let eight = VsKey {
        light_active_mask: 0xFF,
        ..preview
    };
    assert_eq!(state.lights_section_rows(&preview), 24);
    assert_eq!(state.lights_section_rows(&eight), 48);
    assert_eq!(state.vs_row_count(&preview), 39);
    assert_eq!(state.vs_row_count(&eight), 63);
    assert_eq!(state.fill_lights_section(&eight), Err(Refusal::WrongMask));
    // The reads keep eight.
    assert_eq!(state.compacted_light_masks().active, 0xFF);
    assert_eq!(state.vs_source_light_inputs() as u8, 0xFF);
}

/// "its mask has at most four bits, and refusal 5 compares with the mask under the caller's limit": 0 is accepted too.
#[test]
fn the_masks_of_a_preview() {
    for (count, full, four) in [
        (3, 0x07, 0x07),
        (4, 0x0F, 0x0F),
        (5, 0x1F, 0x0F),
        (8, 0xFF, 0x0F),
        (9, 0xFF, 0x0F),
    ] {
        let state = in_a_row(count);
        let active = state.compacted_light_masks().active;
        assert_eq!((active, active & 15), (full, four));
        for (preview, right) in [(false, full), (true, four)] {
            for light_active_mask in 0..=255 {
                let key = VsKey {
                    preview,
                    light_active_mask,
                    ..KEY
                };
                let rows = state.fill_lights_section(&key);
                if light_active_mask == 0 || light_active_mask == right {
                    assert_eq!(
                        rows.unwrap(),
                        lights(&state)[..state.lights_section_rows(&key)]
                    );
                } else {
                    assert_eq!(rows, Err(Refusal::WrongMask), "{count} lights, {key:?}");
                }
            }
        }
    }
}
