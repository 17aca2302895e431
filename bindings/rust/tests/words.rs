//! A state and a mirror in words, and rows filled in place.

use ff_state::{
    D3DLIGHT_SPOT, D3DTS_TEXTURE0, D3DTS_VIEW, D3DTS_WORLD, DIRTY_LIGHTS, DIRTY_WV, FfImage,
    FfState, Light, Matrix, Mirror, Refusal, Row, VsKey,
};

fn moved(x: f32) -> Matrix {
    let mut m = Matrix::IDENTITY;
    m.m[3][0] = x;
    m
}

fn scene() -> FfImage {
    let mut state = FfImage::fresh();
    state.set_transform(D3DTS_VIEW, &moved(5.0)).unwrap();
    state.set_transform(D3DTS_WORLD + 7, &moved(6.0)).unwrap();
    state
        .set_transform(D3DTS_TEXTURE0 + 2, &moved(7.0))
        .unwrap();
    let spot = Light {
        type_: D3DLIGHT_SPOT,
        ..Light::default()
    };
    let odd = Light { type_: 9, ..spot };
    state.set_light_enabled_at(3, true).unwrap();
    state.set_light_at(0, &spot).unwrap();
    state.set_light_at(300, &odd).unwrap();
    state.set_light_enabled_at(70, true).unwrap();
    state.set_fog_end(50.0);
    state.set_ambient(0xFF80_4020);
    state.set_texture_mask(5);
    state.take_ff_vs_dirty();
    state.mark_ff_vs_dirty(DIRTY_WV | DIRTY_LIGHTS).unwrap();
    state
}

const TOLD: &str = "{ dirty: WV | LIGHTS, view: [[1.0, 0.0, 0.0, 0.0], [0.0, 1.0, 0.0, 0.0], [0.0, 0.0, 1.0, 0.0], [5.0, 0.0, 0.0, 1.0]], \
projection: identity, world: identity, world_matrices_changed: 1, texture_matrices_changed: 1, \
material: Material { diffuse: Color { r: 0.0, g: 0.0, b: 0.0, a: 0.0 }, ambient: Color { r: 0.0, g: 0.0, b: 0.0, a: 0.0 }, \
specular: Color { r: 0.0, g: 0.0, b: 0.0, a: 0.0 }, emissive: Color { r: 0.0, g: 0.0, b: 0.0, a: 0.0 }, power: 0.0 }, \
lights: {0: spot off, 3: directional on, 70: directional on, 300: type 9 off}, \
fog: [0.0, 50.0, 0.0], ambient: 0xff804020, texture_mask: 0x05 }";

#[test]
fn a_state_is_told_in_words() {
    let image = scene();
    assert_eq!(format!("{image:?}"), format!("FfImage {TOLD}"));
    let state = FfState::from_image(&image);
    assert_eq!(format!("{state:?}"), format!("FfState {TOLD}"));
    let mut clean = FfImage::fresh();
    clean.take_ff_vs_dirty();
    assert!(format!("{clean:?}").starts_with("FfImage { dirty: none, view: identity,"));
}

#[test]
fn a_mirror_is_told_by_its_sections() {
    let mut mirror = Mirror::new();
    let empty = "Mirror { wv: [], proj: [], fog: [], ambient: [], material: [], lights: [], tt: [], palette: [] }";
    assert_eq!(format!("{mirror:?}"), empty);
    mirror.as_mut_bytes()[16 * 9..][..4].copy_from_slice(&2.0f32.to_le_bytes());
    mirror.as_mut_bytes()[16 * 104..][..4].copy_from_slice(&2.0f32.to_le_bytes());
    let told = "Mirror { wv: [], proj: [], fog: [], ambient: [[2.0, 0.0, 0.0, 0.0]], material: [], lights: [], tt: [], palette: 10 rows }";
    assert_eq!(format!("{mirror:?}"), told);
}

type Allocated = fn(&FfImage, &VsKey) -> Vec<Row>;
type InPlace = fn(&FfImage, &VsKey, &mut [Row]) -> Result<(), Refusal>;

#[test]
fn rows_filled_in_place_are_those_that_are_allocated() {
    let state = scene();
    let key = VsKey {
        lighting_enabled: true,
        specular_enable: true,
        light_active_mask: 3,
        fog_mode: 3,
        vertex_blend_count: 9,
        ..VsKey::default()
    };
    let lights: Allocated = |state, key| state.fill_lights_section(key).unwrap();
    let sections: [(Allocated, InPlace, usize); 8] = [
        (FfImage::fill_wv_section, FfImage::fill_wv_section_into, 4),
        (
            FfImage::fill_proj_section,
            FfImage::fill_proj_section_into,
            4,
        ),
        (
            FfImage::fill_material_section,
            FfImage::fill_material_section_into,
            5,
        ),
        (lights, FfImage::fill_lights_section_into, 12),
        (
            FfImage::fill_palette_section,
            FfImage::fill_palette_section_into,
            36,
        ),
        (FfImage::fill_tt_section, FfImage::fill_tt_section_into, 12),
        (FfImage::fill_fog_section, FfImage::fill_fog_section_into, 1),
        (
            FfImage::fill_ambient_section,
            FfImage::fill_ambient_section_into,
            1,
        ),
    ];
    for (i, (allocated, in_place, count)) in sections.into_iter().enumerate() {
        let mut rows = vec![[0.5; 4]; count];
        assert_eq!(in_place(&state, &key, &mut rows), Ok(()), "section {i}");
        assert_eq!(rows, allocated(&state, &key), "section {i}");
        for other in [count - 1, count + 1] {
            let mut rows = vec![[0.5; 4]; other];
            let refused = in_place(&state, &key, &mut rows);
            assert_eq!(refused, Err(Refusal::WrongLength), "section {i}");
            assert!(rows.iter().all(|row| *row == [0.5; 4]), "section {i}");
        }
    }
    // A known row: the view moves world matrix 0 by 5, a section's fourth column is its translation.
    let mut rows = [[0.0; 4]; 4];
    state.fill_wv_section_into(&key, &mut rows).unwrap();
    assert_eq!(rows[0], [1.0, 0.0, 0.0, 5.0]);
}

#[test]
fn a_section_without_rows_takes_an_empty_slice() {
    let (state, key) = (scene(), VsKey::default());
    assert_eq!(state.fill_palette_section_into(&key, &mut []), Ok(()));
    assert_eq!(state.fill_lights_section_into(&key, &mut []), Ok(()));
    let wrong = VsKey {
        light_active_mask: 1,
        ..key
    };
    let mut rows = [[0.5; 4]; 6];
    let refused = state.fill_lights_section_into(&wrong, &mut rows);
    assert_eq!((refused, rows), (Err(Refusal::WrongMask), [[0.5; 4]; 6]));
}
