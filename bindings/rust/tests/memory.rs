//! A state in memory: document 01's numbers, dirty bits and rows, and the way to an image and back.

use ff_state::{
    ALL_DIRTY, D3DLIGHT_SPOT, D3DTS_PROJECTION, D3DTS_TEXTURE0, D3DTS_VIEW, D3DTS_WORLD, FfImage,
    FfState, Light, MIRROR_FLOATS, Material, Matrix, Refusal, VsKey,
};

fn moved(x: f32, y: f32, z: f32) -> Matrix {
    let mut m = Matrix::IDENTITY;
    m.m[3] = [x, y, z, 1.0];
    m
}

/// No float that is packed here.
const FOREIGN: f32 = -77.0;

fn foreign() -> Vec<f32> {
    vec![FOREIGN; MIRROR_FLOATS]
}

/// Where the floats are no longer foreign.
fn written(mirror: &[f32]) -> Vec<usize> {
    let rows = mirror.chunks(4).enumerate();
    let touched = rows.filter(|(_, row)| *row != [FOREIGN; 4]);
    touched.map(|(i, _)| i).collect()
}

/// Document 01's bits of each change, and none beside a refusal.
#[test]
fn each_call_dirties_what_it_changes() {
    let mut state = FfState::fresh();
    assert_eq!(state.take_ff_vs_dirty(), 255);
    for (number, bits) in [
        (D3DTS_VIEW, 1 | 8 | 16),
        (D3DTS_PROJECTION, 2),
        (D3DTS_TEXTURE0 + 7, 32),
        (D3DTS_WORLD, 1 | 16),
        (D3DTS_WORLD + 255, 16),
    ] {
        assert_eq!(state.set_transform(number, &Matrix::IDENTITY), Ok(()));
        assert_eq!(state.take_ff_vs_dirty(), bits, "set {number}");
        assert_eq!(state.multiply_transform(number, &Matrix::IDENTITY), Ok(()));
        assert_eq!(state.take_ff_vs_dirty(), bits, "multiply {number}");
    }
    for number in [0, 1, 4, 15, 24, 255, 512, u32::MAX] {
        let unknown = Err(Refusal::UnknownState);
        assert_eq!(state.set_transform(number, &moved(1.0, 2.0, 3.0)), unknown);
        assert_eq!(
            state.multiply_transform(number, &moved(1.0, 2.0, 3.0)),
            unknown
        );
    }
    assert_eq!(state.mark_ff_vs_dirty(256), Err(Refusal::UnknownBits));
    assert_eq!(state.take_ff_vs_dirty(), 0);
    state.set_material(&Material::default());
    assert_eq!(state.take_ff_vs_dirty(), 4);
    assert_eq!(state.set_light_enabled_at(9, true), Ok(()));
    assert_eq!(state.take_ff_vs_dirty(), 8);
    assert_eq!(state.set_light_at(9, &Light::default()), Ok(()));
    assert_eq!(state.mark_ff_vs_dirty(32), Ok(()));
    assert_eq!(state.take_ff_vs_dirty(), 40);
    // Document 02, T-05; an equal value still dirties.
    state.set_fog_start(0.0);
    assert_eq!(state.take_ff_vs_dirty(), 64);
    state.set_fog_end(0.0);
    assert_eq!(state.take_ff_vs_dirty(), 64);
    state.set_fog_density(0.0);
    assert_eq!(state.take_ff_vs_dirty(), 64);
    state.set_ambient(0);
    assert_eq!(state.take_ff_vs_dirty(), 128);
    state.set_texture_mask(0);
    assert_eq!(state.take_ff_vs_dirty(), 32);
}

/// "56 overflow lights": the 57th is refused, and the state is as it was.
#[test]
fn the_57th_light_is_refused() {
    let mut state = FfState::fresh();
    for index in 100..156 {
        assert_eq!(state.set_light_enabled_at(index, true), Ok(()));
    }
    let before = state.to_image();
    let full = Err(Refusal::LightsFull);
    assert_eq!(state.set_light_at(8, &Light::default()), full);
    assert_eq!(state.set_light_enabled_at(8, true), full);
    assert_eq!(state.to_image(), before);
    assert_eq!(state.set_light_at(7, &Light::default()), Ok(()));
    assert_eq!(state.set_light_at(155, &Light::default()), Ok(()));
    // Byte 3 is 1 once a light from index 8 on is stored; eight of the 56 are packed, all directional.
    assert_eq!(state.vs_source_light_inputs(), 0x0100_FFFF);
}

/// What a multiply stores is argument × stored: a scaling by 2 of a translation leaves its last row.
#[test]
fn a_multiply_stores_argument_times_stored() {
    let mut state = FfState::fresh();
    let mut twice = Matrix::IDENTITY;
    for i in 0..3 {
        twice.m[i][i] = 2.0;
    }
    state
        .set_transform(D3DTS_VIEW, &moved(1.0, 0.0, 0.0))
        .unwrap();
    state.multiply_transform(D3DTS_VIEW, &twice).unwrap();
    let view = state.to_image().transform(D3DTS_VIEW).unwrap();
    assert_eq!(
        (view.m[0], view.m[3]),
        ([2.0, 0.0, 0.0, 0.0], [1.0, 0.0, 0.0, 1.0])
    );
}

#[test]
fn a_refresh_writes_the_dirty_sections() {
    let mut state = FfState::fresh();
    let key = VsKey {
        vertex_blend_count: 1,
        ..VsKey::default()
    };
    let mut mirror = foreign();
    assert_eq!(state.refresh(&key, &mut mirror), Ok(255));
    let sections = [0..4, 4..8, 8..9, 9..10, 10..11, 95..99];
    assert_eq!(
        written(&mirror),
        sections.into_iter().flatten().collect::<Vec<_>>()
    );
    let mut mirror = foreign();
    state
        .set_transform(D3DTS_PROJECTION, &moved(1.0, 2.0, 3.0))
        .unwrap();
    assert_eq!(state.refresh(&key, &mut mirror), Ok(2));
    assert_eq!(written(&mirror), [4, 5, 6, 7]);
    // The columns of the matrix.
    assert_eq!(mirror[16..20], [1.0, 0.0, 0.0, 1.0]);
    assert_eq!(mirror[24..28], [0.0, 0.0, 1.0, 3.0]);
}

/// Document 02, T-05: fog to row 8, ambient to row 9, texture matrices from row 63, and the tail of the image.
#[test]
fn fog_ambient_and_textures() {
    let mut state = FfState::fresh();
    let key = VsKey {
        fog_mode: 3,
        ..VsKey::default()
    };
    state.refresh(&key, &mut foreign()).unwrap();
    state.set_fog_start(2.0);
    state.set_fog_end(3.0);
    state.set_fog_density(5.0);
    let mut mirror = foreign();
    assert_eq!(state.refresh(&key, &mut mirror), Ok(64));
    assert_eq!(written(&mirror), [8]);
    assert_eq!(mirror[32..36], [2.0, 3.0, 5.0, 0.0]);
    state.set_ambient(0xFF80_4020);
    let mut mirror = foreign();
    assert_eq!(state.refresh(&key, &mut mirror), Ok(128));
    assert_eq!(written(&mirror), [9]);
    let ambient: Vec<u32> = mirror[36..40].iter().map(|x| x.to_bits()).collect();
    assert_eq!(
        ambient,
        [0x3F00_8081, 0x3E80_8081, 0x3E00_8081, 0x3F80_0000]
    );
    state
        .set_transform(D3DTS_TEXTURE0 + 1, &moved(1.0, 2.0, 3.0))
        .unwrap();
    state.set_texture_mask(4);
    let mut mirror = foreign();
    assert_eq!(state.refresh(&key, &mut mirror), Ok(32));
    assert_eq!(written(&mirror), (63..75).collect::<Vec<_>>());
    // The second stage's bit is clear.
    assert_eq!(mirror[4 * 67..4 * 68], [1.0, 0.0, 0.0, 1.0]);
    let tail = [2.0f32.to_bits(), 3.0f32.to_bits(), 5.0f32.to_bits()];
    let tail = [&tail[..], &[0xFF80_4020, 4]].concat();
    let bytes: Vec<u8> = tail.into_iter().flat_map(u32::to_le_bytes).collect();
    assert_eq!(state.to_image().as_bytes()[24_204..], bytes);
}

/// 4, then 8, then 5; the bits stay, and the mirror too.
#[test]
fn a_refused_refresh_changes_nothing() {
    let mut state = FfState::fresh();
    let wrong = VsKey {
        has_rhw: true,
        light_active_mask: 1,
        ..VsKey::default()
    };
    let mut mirror = foreign();
    let short = Err(Refusal::WrongLength);
    assert_eq!(state.refresh(&wrong, &mut mirror[1..]), short);
    assert_eq!(state.refresh(&wrong, &mut mirror), Err(Refusal::HasRhw));
    let wrong = VsKey {
        has_rhw: false,
        ..wrong
    };
    assert_eq!(state.refresh(&wrong, &mut mirror), Err(Refusal::WrongMask));
    assert_eq!(mirror, foreign());
    assert_eq!(state.take_ff_vs_dirty(), ALL_DIRTY);
}

/// Document 02, T-01: nine lights light, and a preview packs the first four.
#[test]
fn a_preview_of_four_lights() {
    let mut state = FfState::fresh();
    for index in 0..9 {
        state.set_light_enabled_at(index, true).unwrap();
    }
    // What a key is made from keeps eight.
    let active = state.vs_source_light_inputs() as u8;
    assert_eq!(active, 0xFF);
    let preview = |light_active_mask| VsKey {
        preview: true,
        light_active_mask,
        ..VsKey::default()
    };
    let mut mirror = foreign();
    let short = Err(Refusal::WrongLength);
    assert_eq!(state.refresh(&preview(active), &mut mirror[1..]), short);
    let wrong = Err(Refusal::WrongMask);
    assert_eq!(state.refresh(&preview(active), &mut mirror), wrong);
    assert_eq!(mirror, foreign());
    assert_eq!(state.refresh(&preview(active & 15), &mut mirror), Ok(255));
    let sections = [0..4, 4..8, 8..9, 9..10, 10..11, 15..39];
    assert_eq!(
        written(&mirror),
        sections.into_iter().flatten().collect::<Vec<_>>()
    );
    assert_eq!(state.refresh(&preview(0), &mut mirror), Ok(0));
}

#[test]
fn an_image_and_back() {
    let mut image = FfImage::fresh();
    let spot = Light {
        type_: D3DLIGHT_SPOT,
        theta: 0.5,
        phi: 1.5,
        ..Light::default()
    };
    image.set_light_at(1000, &spot).unwrap();
    image.set_fog_start(2.0);
    image.set_fog_end(3.0);
    image.set_fog_density(5.0);
    image.set_ambient(0x1122_3344);
    image.set_texture_mask(0x85);
    image.take_ff_vs_dirty();
    let mut state = FfState::from_image(&image);
    assert_eq!(state.to_image(), image);
    state.set_light_at(3, &spot).unwrap();
    image.set_light_at(3, &spot).unwrap();
    assert_eq!(state.to_image(), image);
    assert_eq!(state.to_image().get_light_at(3), Ok(spot));
    assert_eq!(FfState::fresh().to_image(), FfImage::fresh());
}
