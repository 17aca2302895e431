//! Document 01's refresh, on the library. The rows expected are its own, or follow from it by whole numbers.

use ff_state::{
    ALL_DIRTY, D3DTS_PROJECTION, D3DTS_TEXTURE0, D3DTS_VIEW, D3DTS_WORLD, DIRTY_AMBIENT, DIRTY_FOG,
    DIRTY_LIGHTS, DIRTY_MATERIAL, DIRTY_PALETTE, DIRTY_PROJ, DIRTY_TT, DIRTY_WV, FfImage, Light,
    Material, Matrix, Mirror, ROW_AMBIENT, ROW_FOG, ROW_LIGHTS, ROW_MATERIAL, ROW_PALETTE,
    ROW_PROJ, ROW_TT, ROW_WV, Refusal, Row, VsKey,
};

/// What the bytes of a mirror are before: 0xA5A5A5A5 is no float that is packed here.
const FOREIGN: u8 = 0xA5;

fn foreign() -> Mirror {
    let mut mirror = Mirror::new();
    mirror.as_mut_bytes().fill(FOREIGN);
    mirror
}

fn moved(x: f32, y: f32, z: f32) -> Matrix {
    let mut m = Matrix::IDENTITY;
    m.m[3] = [x, y, z, 1.0];
    m
}

/// The transpose of a translation, as it is packed.
fn columns(x: f32, y: f32, z: f32) -> [Row; 4] {
    [
        [1.0, 0.0, 0.0, x],
        [0.0, 1.0, 0.0, y],
        [0.0, 0.0, 1.0, z],
        [0.0, 0.0, 0.0, 1.0],
    ]
}

/// The rows that are no longer foreign.
fn written(mirror: &Mirror) -> Vec<usize> {
    let rows = mirror.as_bytes().chunks(16).enumerate();
    let touched = rows.filter(|(_, row)| *row != [FOREIGN; 16]);
    touched.map(|(i, _)| i).collect()
}

/// Light 0 enabled, which is then the default one; the key looks at it.
fn lit() -> (FfImage, VsKey) {
    let mut state = FfImage::fresh();
    state.set_light_enabled_at(0, true).unwrap();
    let key = VsKey {
        lighting_enabled: true,
        specular_enable: true,
        light_active_mask: 1,
        vertex_blend_count: 1,
        ..VsKey::default()
    };
    (state, key)
}

#[test]
fn a_mirror_is_1115_rows() {
    assert_eq!((Mirror::ROWS, Mirror::BYTES), (1115, 17_840));
    assert_eq!(
        [ROW_WV, ROW_PROJ, ROW_FOG, ROW_AMBIENT, ROW_MATERIAL],
        [0, 4, 8, 9, 10]
    );
    assert_eq!([ROW_LIGHTS, ROW_TT, ROW_PALETTE], [15, 63, 95]);
    let bits = [
        DIRTY_WV,
        DIRTY_PROJ,
        DIRTY_MATERIAL,
        DIRTY_LIGHTS,
        DIRTY_PALETTE,
        DIRTY_TT,
        DIRTY_FOG,
        DIRTY_AMBIENT,
        ALL_DIRTY,
    ];
    assert_eq!(bits, [1, 2, 4, 8, 16, 32, 64, 128, 255]);
}

/// A fresh state has "all eight bits", each from its first row on; the other rows keep their contents.
#[test]
fn the_first_refresh_writes_every_section() {
    let (mut state, key) = lit();
    let mut mirror = foreign();
    assert_eq!(state.refresh(&key, &mut mirror), Ok(255));
    let sections = [0..4, 4..8, 8..9, 9..10, 10..15, 15..21, 95..99];
    assert_eq!(
        written(&mirror),
        sections.into_iter().flatten().collect::<Vec<_>>()
    );
    let rows = mirror.rows();
    assert_eq!(rows[0..4], columns(0.0, 0.0, 0.0));
    assert_eq!(rows[4..8], columns(0.0, 0.0, 0.0));
    assert_eq!(rows[8..10], [[0.0; 4]; 2]);
    assert_eq!(rows[10..15], [[0.0; 4]; 5]);
    // The default light: directional, diffuse 1, 1, 1, direction 0, 0, 1, all else 0.
    let light = [
        [0.0, 0.0, 0.0, 3.0],
        [0.0, 0.0, 1.0, 1e-6],
        [1.0, 1.0, 1.0, 0.0],
        [0.0; 4],
        [0.0; 4],
        [0.0; 4],
    ];
    assert_eq!(rows[15..21], light);
    assert_eq!(rows[95..99], columns(0.0, 0.0, 0.0));
    // Nothing is left to take or to write.
    let before = mirror.clone();
    assert_eq!(state.refresh(&key, &mut mirror), Ok(0));
    assert_eq!(mirror, before);
    assert_eq!(state.take_ff_vs_dirty(), 0);
}

/// P5's key: the palette ends with the mirror.
#[test]
fn a_palette_of_255_ends_with_the_mirror() {
    let mut state = FfImage::fresh();
    state
        .set_transform(D3DTS_WORLD + 254, &moved(7.0, 8.0, 9.0))
        .unwrap();
    let key = VsKey {
        vertex_blend_count: 255,
        ..VsKey::default()
    };
    let mut mirror = foreign();
    assert_eq!(state.refresh(&key, &mut mirror), Ok(255));
    let sections = [0..4, 4..8, 8..9, 9..10, 10..11, 95..1115];
    assert_eq!(
        written(&mirror),
        sections.into_iter().flatten().collect::<Vec<_>>()
    );
    assert_eq!(mirror.rows()[1111..], columns(7.0, 8.0, 9.0));
}

/// "Dirty: view gives WV, PALETTE, LIGHTS; projection PROJ; texture TT; 256 WV and PALETTE; 257 up PALETTE."
#[test]
fn a_refresh_writes_the_sections_that_were_dirtied() {
    let (mut state, key) = lit();
    state.refresh(&key, &mut Mirror::new()).unwrap();
    let changes: [(u32, u32, &[usize]); 5] = [
        (
            D3DTS_VIEW,
            25,
            &[0, 1, 2, 3, 15, 16, 17, 18, 19, 20, 95, 96, 97, 98],
        ),
        (D3DTS_PROJECTION, 2, &[4, 5, 6, 7]),
        (D3DTS_TEXTURE0, 32, &[]),
        (D3DTS_WORLD, 17, &[0, 1, 2, 3, 95, 96, 97, 98]),
        (D3DTS_WORLD + 1, 16, &[95, 96, 97, 98]),
    ];
    for (number, bits, rows) in changes {
        // An equal value still dirties.
        state.set_transform(number, &Matrix::IDENTITY).unwrap();
        let mut mirror = foreign();
        assert_eq!(state.refresh(&key, &mut mirror), Ok(bits), "state {number}");
        assert_eq!(written(&mirror), rows, "state {number}");
    }
    state.set_material(&Material {
        power: 20.0,
        ..Material::default()
    });
    let mut mirror = foreign();
    assert_eq!(state.refresh(&key, &mut mirror), Ok(4));
    assert_eq!(written(&mirror), [10, 11, 12, 13, 14]);
    assert_eq!(mirror.rows()[14], [20.0, 0.0, 0.0, 0.0]);
    state.set_light_at(0, &Light::default()).unwrap();
    let mut mirror = foreign();
    assert_eq!(state.refresh(&key, &mut mirror), Ok(8));
    assert_eq!(written(&mirror), [15, 16, 17, 18, 19, 20]);
}

/// The call that falls between two uploads: the light's place is packed as the view sees it.
#[test]
fn a_view_change_between_two_refreshes() {
    let (mut state, key) = lit();
    state
        .set_transform(D3DTS_WORLD, &moved(5.0, 6.0, 7.0))
        .unwrap();
    let mut mirror = foreign();
    state.refresh(&key, &mut mirror).unwrap();
    // P10.
    assert_eq!(mirror.rows()[0], [1.0, 0.0, 0.0, 5.0]);
    let mut expected = mirror.rows();
    state
        .set_transform(D3DTS_VIEW, &moved(10.0, 20.0, 30.0))
        .unwrap();
    assert_eq!(state.refresh(&key, &mut mirror), Ok(1 + 8 + 16));
    expected[0..4].copy_from_slice(&columns(15.0, 26.0, 37.0));
    expected[15] = [10.0, 20.0, 30.0, 3.0];
    expected[95..99].copy_from_slice(&columns(15.0, 26.0, 37.0));
    assert_eq!(mirror.rows(), expected);
}

/// "its count is zero again from the first accepted refresh after its next marking"
#[test]
fn overwritten_rows_come_back_once_marked() {
    let (mut state, key) = lit();
    let mut mirror = foreign();
    state.refresh(&key, &mut mirror).unwrap();
    let right = mirror.clone();
    mirror.as_mut_bytes()[16 * 15..16 * 21].fill(0xFF);
    let lost = mirror.clone();
    assert_eq!(state.refresh(&key, &mut mirror), Ok(0));
    assert_eq!(mirror, lost);
    state.mark_ff_vs_dirty(DIRTY_LIGHTS).unwrap();
    assert_eq!(state.refresh(&key, &mut mirror), Ok(8));
    assert_eq!(mirror, right);
}

/// "8, HAS_RHW is set; 5, the light mask is not 0 and is not the compacted active mask, whether LIGHTS is dirty or
/// not. Bits stay untaken."
#[test]
fn a_refused_refresh_changes_nothing() {
    let (mut state, key) = lit();
    let with_mask = |light_active_mask| VsKey {
        light_active_mask,
        ..key
    };
    for dirty in [255, 0, 4] {
        state.take_ff_vs_dirty();
        state.mark_ff_vs_dirty(dirty).unwrap();
        let before = state.clone();
        let mut mirror = foreign();
        for mask in 2..=255 {
            assert_eq!(
                state.refresh(&with_mask(mask), &mut mirror),
                Err(Refusal::WrongMask)
            );
        }
        // 8 goes before 5.
        for mask in [0, 1, 2] {
            let key = VsKey {
                has_rhw: true,
                ..with_mask(mask)
            };
            assert_eq!(state.refresh(&key, &mut mirror), Err(Refusal::HasRhw));
        }
        assert_eq!(state, before);
        assert_eq!(mirror, foreign());
        assert_eq!(state.refresh(&with_mask(0), &mut mirror), Ok(dirty));
    }
    assert_eq!(Refusal::HasRhw.number(), 8);
    assert_eq!(
        Refusal::HasRhw.to_string(),
        "refused 8: the key is of transformed vertices"
    );
}

/// Document 02, T-01: "The limit joins the shape fields, so a mirror that changes limit needs marking like any other
/// change."
#[test]
fn a_mirror_that_changes_limit_needs_marking() {
    let mut state = FfImage::fresh();
    for index in 0..9u8 {
        let light = Light {
            range: f32::from(index),
            ..Light::default()
        };
        state.set_light_at(index.into(), &light).unwrap();
        state.set_light_enabled_at(index.into(), true).unwrap();
    }
    let key = |preview, light_active_mask| VsKey {
        preview,
        light_active_mask,
        ..VsKey::default()
    };
    let mut mirror = foreign();
    for (key, mask) in [(key(true, 0xFF), 0xFF), (key(false, 0x0F), 0x0F)] {
        let refused = state.refresh(&key, &mut mirror);
        assert_eq!(refused, Err(Refusal::WrongMask), "mask {mask}");
        assert_eq!(mirror, foreign());
    }
    assert_eq!(state.refresh(&key(true, 0x0F), &mut mirror), Ok(255));
    let sections = [0..4, 4..8, 8..9, 9..10, 10..11, 15..39];
    assert_eq!(
        written(&mirror),
        sections.into_iter().flatten().collect::<Vec<_>>()
    );
    // The range stands in the fifth row of a light.
    let ranges = |mirror: &Mirror, lights: usize| -> Vec<f32> {
        let rows = mirror.rows();
        (0..lights).map(|n| rows[15 + 6 * n + 4][3]).collect()
    };
    assert_eq!(ranges(&mirror, 4), [0.0, 1.0, 2.0, 3.0]);
    // The main screen's rows of lights are not written before they are marked.
    let before = mirror.clone();
    assert_eq!(state.refresh(&key(false, 0xFF), &mut mirror), Ok(0));
    assert_eq!(mirror, before);
    state.mark_ff_vs_dirty(ALL_DIRTY).unwrap();
    assert_eq!(state.refresh(&key(false, 0xFF), &mut mirror), Ok(255));
    let eight = [0.0, 1.0, 2.0, 3.0, 4.0, 5.0, 6.0, 7.0];
    assert_eq!(ranges(&mirror, 8), eight);
    // The preview writes its own rows, and the others keep their contents.
    state.mark_ff_vs_dirty(ALL_DIRTY).unwrap();
    assert_eq!(state.refresh(&key(true, 0x0F), &mut mirror), Ok(255));
    assert_eq!(ranges(&mirror, 8), eight);
}
