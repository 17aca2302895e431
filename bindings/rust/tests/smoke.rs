//! Document 02, T-05: fog, the ambient colour and the texture mask. The values expected are its own, or the Rust's.

use ff_state::{
    ALL_DIRTY, D3DTS_TEXTURE0, FfImage, Matrix, Mirror, ROW_FOG, ROW_TT, Refusal, Row, VsKey,
};

/// Where the image's tail begins.
const TAIL: usize = 24_204;

const LIT: VsKey = VsKey {
    has_rhw: false,
    lighting_enabled: true,
    specular_enable: false,
    vertex_blend_indexed: false,
    preview: false,
    light_active_mask: 0,
    fog_mode: 0,
    vertex_blend_count: 0,
};

fn unlit() -> VsKey {
    VsKey::default()
}

fn in_fog(fog_mode: u8) -> VsKey {
    VsKey {
        fog_mode,
        ..VsKey::default()
    }
}

fn moved(x: f32, y: f32, z: f32) -> Matrix {
    let mut m = Matrix::IDENTITY;
    m.m[3] = [x, y, z, 1.0];
    m
}

/// The transpose of a translation, as it is packed.
fn columns(x: f32, y: f32, z: f32) -> [Row; 4] {
    [
        [1.0, 0.0, 0.0, x],
        [0.0, 1.0, 0.0, y],
        [0.0, 0.0, 1.0, z],
        [0.0, 0.0, 0.0, 1.0],
    ]
}

/// Five different values.
fn smoke() -> FfImage {
    let mut state = FfImage::fresh();
    state.set_fog_start(2.0);
    state.set_fog_end(3.0);
    state.set_fog_density(5.0);
    state.set_ambient(0xFF80_4020);
    state.set_texture_mask(0x85);
    state
}

fn bits(rows: &[Row]) -> Vec<[u32; 4]> {
    rows.iter().map(|row| row.map(f32::to_bits)).collect()
}

/// "fog's dirty FOG, the colour's AMBIENT", "the mask's setter dirties TT": an equal value too.
#[test]
fn each_setter_dirties_its_section() {
    let mut state = FfImage::fresh();
    state.take_ff_vs_dirty();
    for _ in 0..2 {
        state.set_fog_start(1.5);
        assert_eq!(state.take_ff_vs_dirty(), 64);
        state.set_fog_end(1.5);
        assert_eq!(state.take_ff_vs_dirty(), 64);
        state.set_fog_density(1.5);
        assert_eq!(state.take_ff_vs_dirty(), 64);
        state.set_ambient(7);
        assert_eq!(state.take_ff_vs_dirty(), 128);
        state.set_texture_mask(7);
        assert_eq!(state.take_ff_vs_dirty(), 32);
    }
}

/// "at its end in this order: three floats, colour u32, mask u32"
#[test]
fn the_tail_of_an_image() {
    let state = smoke();
    let tail = [0x4000_0000u32, 0x4040_0000, 0x40A0_0000, 0xFF80_4020, 0x85];
    let bytes: Vec<u8> = tail.into_iter().flat_map(u32::to_le_bytes).collect();
    assert_eq!(state.as_bytes()[TAIL..], bytes);
    assert_eq!(FfImage::from_bytes(state.as_bytes()), Ok(state));
}

/// A mask of at most 255, "else 9"; the NaN rule holds for the three floats, and the colour may be any number.
#[test]
fn tails_that_are_no_images() {
    let bytes = *smoke().as_bytes();
    let with = |at: usize, word: u32| {
        let mut bytes = bytes;
        bytes[at..at + 4].copy_from_slice(&word.to_le_bytes());
        FfImage::from_bytes(&bytes)
    };
    for mask in [256, 0x0100_0000, 0x8000_0000, u32::MAX] {
        assert_eq!(with(TAIL + 16, mask), Err(Refusal::NoImage), "mask {mask}");
    }
    for mask in [0, 255] {
        assert!(with(TAIL + 16, mask).is_ok(), "mask {mask}");
    }
    for at in [TAIL, TAIL + 4, TAIL + 8] {
        for nan in [0x7FC0_0001, 0x7F80_0001, 0xFFC0_0000] {
            assert_eq!(with(at, nan), Err(Refusal::NoImage), "{nan:08x} at {at}");
        }
        for float in [0x7FC0_0000, 0x7F80_0000, 0x8000_0000, 1] {
            assert!(with(at, float).is_ok(), "{float:08x} at {at}");
        }
    }
    for color in [0x7FC0_0001, u32::MAX] {
        assert!(with(TAIL + 12, color).is_ok(), "colour {color:08x}");
    }
    // The image as it was before it grew.
    assert_eq!(FfImage::from_bytes(&bytes[..TAIL]), Err(Refusal::NoImage));
}

/// "any dirty byte is read"
#[test]
fn every_dirty_byte_is_read() {
    let mut bytes = *FfImage::fresh().as_bytes();
    for dirty in 0..=255 {
        bytes[17_926] = dirty;
        let mut state = FfImage::from_bytes(&bytes).unwrap();
        assert_eq!(state.take_ff_vs_dirty(), u32::from(dirty));
    }
}

/// "mark refuses above 255"
#[test]
fn bits_above_255_are_refused() {
    let mut state = FfImage::fresh();
    state.take_ff_vs_dirty();
    for bits in [256, 257, u32::MAX] {
        let before = state.clone();
        assert_eq!(state.mark_ff_vs_dirty(bits), Err(Refusal::UnknownBits));
        assert_eq!(state, before);
    }
    assert_eq!(state.mark_ff_vs_dirty(ALL_DIRTY), Ok(()));
    assert_eq!(state.take_ff_vs_dirty(), 255);
}

/// The Rust's `fill_fog_section`: zeros in mode 0, else the three floats and 0.
#[test]
fn fog_in_every_mode() {
    let state = smoke();
    for mode in 0..=255 {
        let row = if mode == 0 {
            [0; 4]
        } else {
            [0x4000_0000, 0x4040_0000, 0x40A0_0000, 0]
        };
        for key in [
            in_fog(mode),
            VsKey {
                fog_mode: mode,
                ..LIT
            },
        ] {
            assert_eq!(state.fog_section_rows(&key), 1);
            assert_eq!(bits(&state.fill_fog_section(&key)), [row], "mode {mode}");
        }
    }
}

/// The Rust's `d3dcolor_to_rgba_f32`: red, green, blue, alpha, each over 255.
#[test]
fn an_ambient_colour() {
    let mut state = smoke();
    let row = [0x3F00_8081, 0x3E80_8081, 0x3E00_8081, 0x3F80_0000];
    for key in [unlit(), LIT, in_fog(3)] {
        assert_eq!(state.ambient_section_rows(&key), 1);
        assert_eq!(bits(&state.fill_ambient_section(&key)), [row]);
    }
    for (color, row) in [
        (0, [0.0; 4]),
        (u32::MAX, [1.0; 4]),
        (0xFF00_0000, [0.0, 0.0, 0.0, 1.0]),
        (0x00FF_0000, [1.0, 0.0, 0.0, 0.0]),
        (0x0000_FF00, [0.0, 1.0, 0.0, 0.0]),
        (0x0000_00FF, [0.0, 0.0, 1.0, 0.0]),
    ] {
        state.set_ambient(color);
        assert_eq!(state.fill_ambient_section(&unlit()), [row], "{color:08x}");
    }
}

/// The rows of TT go by the mask's highest bit, and so does the row count: 67, 75 and 95.
#[test]
fn texture_masks_and_row_counts() {
    let mut state = FfImage::fresh();
    for (mask, rows, count) in [(0, 0, 11), (1, 4, 67), (4, 12, 75), (0x80, 32, 95)] {
        state.set_texture_mask(mask);
        assert_eq!(state.tt_section_rows(&unlit()), rows, "mask {mask}");
        assert_eq!(state.fill_tt_section(&unlit()).len(), rows, "mask {mask}");
        assert_eq!(state.vs_row_count(&unlit()), count, "mask {mask}");
        // Fog ends before the material does.
        assert_eq!(state.vs_row_count(&in_fog(3)), count, "mask {mask}");
    }
    // Eight lights end at row 62, before the first texture matrix.
    state.set_texture_mask(1);
    let eight = VsKey {
        light_active_mask: 0xFF,
        ..LIT
    };
    assert_eq!(state.vs_row_count(&eight), 67);
    let transformed = VsKey {
        has_rhw: true,
        ..unlit()
    };
    assert_eq!(state.vs_row_count(&transformed), 1);
}

/// The Rust's `fill_tt_section`: a stage whose bit is clear below a higher one packs its stored matrix, not the identity.
#[test]
fn a_stage_whose_bit_is_clear() {
    let mut state = FfImage::fresh();
    for stage in 0..8u8 {
        let m = moved(f32::from(stage), 0.0, 1.0);
        let number = D3DTS_TEXTURE0 + u32::from(stage);
        state.set_transform(number, &m).unwrap();
    }
    state.set_texture_mask(5);
    let rows: Vec<Row> = [0.0, 1.0, 2.0]
        .into_iter()
        .flat_map(|stage| columns(stage, 0.0, 1.0))
        .collect();
    assert_eq!(state.fill_tt_section(&unlit()), rows);
}

/// Each of the three sections from its first row on, and no other row.
#[test]
fn a_refresh_writes_the_three_sections() {
    let mut state = smoke();
    let key = in_fog(1);
    state.refresh(&key, &mut Mirror::new()).unwrap();
    let rows_of = |state: &mut FfImage| -> (u32, Vec<usize>) {
        let mut mirror = Mirror::new();
        mirror.as_mut_bytes().fill(0xA5);
        let taken = state.refresh(&key, &mut mirror).unwrap();
        let rows = mirror.as_bytes().chunks(16).enumerate();
        let written = rows.filter(|(_, row)| *row != [0xA5; 16]);
        (taken, written.map(|(i, _)| i).collect())
    };
    state.set_fog_end(7.0);
    assert_eq!(rows_of(&mut state), (64, vec![8]));
    state.set_ambient(1);
    assert_eq!(rows_of(&mut state), (128, vec![9]));
    state.set_texture_mask(3);
    assert_eq!(rows_of(&mut state), (32, (63..71).collect()));
    state.set_texture_mask(0x80);
    assert_eq!(rows_of(&mut state), (32, (63..95).collect()));
    state.set_texture_mask(0);
    assert_eq!(rows_of(&mut state), (32, vec![]));
}

/// "`fog_mode` becomes a shape field": another mode wants marking. "the texture mask, being state, needs no marking beyond
/// its setter's".
#[test]
fn what_needs_marking() {
    let mut state = smoke();
    let mut mirror = Mirror::new();
    state.refresh(&in_fog(0), &mut mirror).unwrap();
    assert_eq!(mirror.rows()[ROW_FOG], [0.0; 4]);
    assert_eq!(state.refresh(&in_fog(3), &mut mirror), Ok(0));
    assert_eq!(mirror.rows()[ROW_FOG], [0.0; 4]);
    state.mark_ff_vs_dirty(ALL_DIRTY).unwrap();
    assert_eq!(state.refresh(&in_fog(3), &mut mirror), Ok(255));
    assert_eq!(mirror.rows()[ROW_FOG], [2.0, 3.0, 5.0, 0.0]);

    let stage = D3DTS_TEXTURE0 + 7;
    state.set_transform(stage, &moved(1.0, 2.0, 3.0)).unwrap();
    state.set_texture_mask(0);
    state.refresh(&in_fog(3), &mut mirror).unwrap();
    mirror.as_mut_bytes()[16 * ROW_TT..16 * 95].fill(0);
    state.set_texture_mask(0x80);
    assert_eq!(state.refresh(&in_fog(3), &mut mirror), Ok(32));
    assert_eq!(mirror.rows()[91..95], columns(1.0, 2.0, 3.0));
}
