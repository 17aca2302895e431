//! A state held in memory over some frames: every call of it once, and the mirror beside a full packing after each refresh.

use std::error::Error;

use ff_state::{
    Color, D3DLIGHT_SPOT, D3DTS_TEXTURE0, D3DTS_VIEW, D3DTS_WORLD, DIRTY_TT, FfState, Light,
    MIRROR_FLOATS, Material, Matrix, ROW_AMBIENT, ROW_FOG, ROW_LIGHTS, ROW_MATERIAL, ROW_PALETTE,
    ROW_PROJ, ROW_TT, ROW_WV, Refusal, Row, VsKey,
};

fn moved(x: f32, y: f32, z: f32) -> Matrix {
    let mut m = Matrix::IDENTITY;
    m.m[3] = [x, y, z, 1.0];
    m
}

/// In how many rows of WV, PROJ, FOG, AMBIENT, MATERIAL, LIGHTS, TT and PALETTE a mirror differs from a full packing of the
/// state.
fn wrong_rows(state: &FfState, key: &VsKey, mirror: &[f32]) -> Result<[usize; 8], Refusal> {
    let image = state.to_image();
    let sections = [
        (ROW_WV, image.fill_wv_section(key)),
        (ROW_PROJ, image.fill_proj_section(key)),
        (ROW_FOG, image.fill_fog_section(key)),
        (ROW_AMBIENT, image.fill_ambient_section(key)),
        (ROW_MATERIAL, image.fill_material_section(key)),
        (ROW_LIGHTS, image.fill_lights_section(key)?),
        (ROW_TT, image.fill_tt_section(key)),
        (ROW_PALETTE, image.fill_palette_section(key)),
    ];
    let held = mirror.as_chunks::<4>().0;
    let wrong = |(first, packed): (usize, Vec<Row>)| {
        let pairs = packed.iter().zip(&held[first..]);
        pairs.filter(|(a, b)| a != b).count()
    };
    Ok(sections.map(wrong))
}

/// Smoke on the stage: each value sets one section dirty.
fn smoke(state: &mut FfState, key: &VsKey, mirror: &mut [f32]) -> Result<(), Refusal> {
    state.set_fog_start(10.0);
    state.set_fog_end(50.0);
    state.set_fog_density(0.25);
    println!("fog: {:?}", wrong_rows(state, key, mirror)?);
    println!("refreshed: {}", state.refresh(key, mirror)?);
    println!("FOG: {:?}", &mirror[4 * ROW_FOG..][..4]);
    state.set_ambient(0xFF80_4020);
    println!("refreshed: {}", state.refresh(key, mirror)?);
    println!("AMBIENT: {:?}", &mirror[4 * ROW_AMBIENT..][..4]);
    state.set_transform(D3DTS_TEXTURE0 + 1, &moved(1.0, 2.0, 3.0))?;
    state.set_texture_mask(2);
    println!("refreshed: {}", state.refresh(key, mirror)?);
    println!("TT, row 4: {:?}", &mirror[4 * (ROW_TT + 4)..][..4]);
    println!("wrong rows: {:?}", wrong_rows(state, key, mirror)?);
    Ok(())
}

fn main() -> Result<(), Box<dyn Error>> {
    assert_eq!(ff_state::version(), ff_state::VERSION);
    let mut state = FfState::fresh();
    let mut mirror = vec![0.5; MIRROR_FLOATS];

    state.set_transform(D3DTS_WORLD, &moved(5.0, 6.0, 7.0))?;
    state.multiply_transform(D3DTS_VIEW, &moved(1.0, 0.0, 0.0))?;
    state.set_material(&Material {
        diffuse: Color {
            r: 1.0,
            ..Color::default()
        },
        ..Material::default()
    });
    let spot = Light {
        type_: D3DLIGHT_SPOT,
        ..Light::default()
    };
    state.set_light_at(100, &spot)?;
    state.set_light_enabled_at(100, true)?;
    let inputs = state.vs_source_light_inputs();
    println!("light inputs: 0x{inputs:08x}");
    let key = VsKey {
        lighting_enabled: true,
        light_active_mask: inputs as u8,
        fog_mode: 3,
        vertex_blend_count: 2,
        ..VsKey::default()
    };

    println!("a new mirror: {:?}", wrong_rows(&state, &key, &mirror)?);
    println!("refreshed: {}", state.refresh(&key, &mut mirror)?);
    println!("wrong rows: {:?}", wrong_rows(&state, &key, &mirror)?);
    for frame in 1..=3u8 {
        state.set_transform(D3DTS_WORLD, &moved(f32::from(frame), 6.0, 7.0))?;
        let bits = state.refresh(&key, &mut mirror)?;
        let row = &mirror[4 * ROW_WV..][..4];
        let wrong = wrong_rows(&state, &key, &mirror)?;
        println!("frame {frame}: refreshed {bits}, WV, row 0: {row:?}, wrong rows: {wrong:?}");
    }

    smoke(&mut state, &key, &mut mirror)?;

    state.mark_ff_vs_dirty(DIRTY_TT)?;
    for refused in [
        state.set_transform(512, &Matrix::IDENTITY),
        state.mark_ff_vs_dirty(256),
        state.refresh(&key, &mut mirror[1..]).map(|_| ()),
    ] {
        println!("{}", refused.expect_err("each of these is refused"));
    }

    let image = state.to_image();
    let mut again = FfState::from_image(&image);
    println!("stored and read in again: {}", again.to_image() == image);
    println!("dirty: {}", again.take_ff_vs_dirty());
    Ok(())
}
