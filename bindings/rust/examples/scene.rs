//! The state of a small scene: every call once, a refusal in words, a readback, and a mirror kept up over some frames.

use std::error::Error;

use ff_state::{
    ALL_DIRTY, Color, D3DLIGHT_SPOT, D3DTS_TEXTURE0, D3DTS_VIEW, D3DTS_WORLD, DIRTY_LIGHTS,
    FfImage, Light, Material, Matrix, Mirror, ROW_AMBIENT, ROW_FOG, ROW_LIGHTS, ROW_MATERIAL,
    ROW_PALETTE, ROW_PROJ, ROW_TT, ROW_WV, Refusal, Row, VsKey,
};

fn moved(x: f32, y: f32, z: f32) -> Matrix {
    let mut m = Matrix::IDENTITY;
    m.m[3] = [x, y, z, 1.0];
    m
}

/// Lit by the state's lights, in linear fog, two matrices blended.
fn key(state: &FfImage) -> VsKey {
    VsKey {
        lighting_enabled: true,
        light_active_mask: state.compacted_light_masks().active,
        fog_mode: 3,
        vertex_blend_count: 2,
        ..VsKey::default()
    }
}

/// Packs each section, and prints its rows.
fn pack(state: &FfImage) -> Result<(), Box<dyn Error>> {
    let key = key(state);
    println!("rows of the draw: {}", state.vs_row_count(&key));
    let counts = [
        state.wv_section_rows(&key),
        state.proj_section_rows(&key),
        state.fog_section_rows(&key),
        state.ambient_section_rows(&key),
        state.material_section_rows(&key),
        state.lights_section_rows(&key),
        state.tt_section_rows(&key),
        state.palette_section_rows(&key),
    ];
    println!("rows of its sections: {counts:?}");
    println!("WV, row 0: {:?}", state.fill_wv_section(&key)[0]);
    println!("PROJ, row 0: {:?}", state.fill_proj_section(&key)[0]);
    println!("FOG: {:?}", state.fill_fog_section(&key));
    println!("AMBIENT: {:?}", state.fill_ambient_section(&key));
    println!(
        "MATERIAL, row 0: {:?}",
        state.fill_material_section(&key)[0]
    );
    let lights = state.fill_lights_section(&key)?;
    println!("LIGHTS, rows 0 and 1: {:?} {:?}", lights[0], lights[1]);
    println!("TT, row 4: {:?}", state.fill_tt_section(&key)[4]);
    println!("PALETTE, row 4: {:?}", state.fill_palette_section(&key)[4]);
    let wrong = VsKey {
        light_active_mask: 2,
        ..key
    };
    if let Err(refusal) = state.fill_lights_section(&wrong) {
        println!("light mask 2: {refusal}");
    }
    Ok(())
}

/// Whether some float is not alike to its fellow: their bits differ, and one of them is no NaN.
fn differ(a: &Row, b: &Row) -> bool {
    let alike = |a: &f32, b: &f32| a.to_bits() == b.to_bits() || a.is_nan() && b.is_nan();
    !a.iter().zip(b).all(|(a, b)| alike(a, b))
}

/// In how many rows of WV, PROJ, FOG, AMBIENT, MATERIAL, LIGHTS, TT and PALETTE a mirror differs from a full packing.
fn wrong_rows(state: &FfImage, key: &VsKey, mirror: &Mirror) -> Result<[usize; 8], Refusal> {
    let sections = [
        (ROW_WV, state.fill_wv_section(key)),
        (ROW_PROJ, state.fill_proj_section(key)),
        (ROW_FOG, state.fill_fog_section(key)),
        (ROW_AMBIENT, state.fill_ambient_section(key)),
        (ROW_MATERIAL, state.fill_material_section(key)),
        (ROW_LIGHTS, state.fill_lights_section(key)?),
        (ROW_TT, state.fill_tt_section(key)),
        (ROW_PALETTE, state.fill_palette_section(key)),
    ];
    let held = mirror.rows();
    let wrong = |(first, packed): (usize, Vec<Row>)| {
        let pairs = packed.iter().zip(&held[first..]);
        pairs.filter(|(a, b)| differ(a, b)).count()
    };
    Ok(sections.map(wrong))
}

/// A mirror kept up with the state over some frames.
fn frames(state: &mut FfImage) -> Result<(), Box<dyn Error>> {
    let key = key(state);
    let mut mirror = Mirror::new();
    mirror.as_mut_bytes().fill(0xA5);
    // Bits were taken before there was a mirror.
    state.mark_ff_vs_dirty(ALL_DIRTY)?;

    println!("a new mirror: {:?}", wrong_rows(state, &key, &mirror)?);
    println!("refreshed: {}", state.refresh(&key, &mut mirror)?);
    println!("wrong rows: {:?}", wrong_rows(state, &key, &mirror)?);

    for frame in 1..=3u8 {
        state.set_transform(D3DTS_WORLD, &moved(f32::from(frame), 6.0, 7.0))?;
        let bits = state.refresh(&key, &mut mirror)?;
        let row = mirror.rows()[ROW_WV];
        let wrong = wrong_rows(state, &key, &mirror)?;
        println!("frame {frame}: refreshed {bits}, WV, row 0: {row:?}, wrong rows: {wrong:?}");
    }

    state.set_transform(D3DTS_VIEW, &moved(5.0, 6.0, 8.0))?;
    println!("the view moves: {:?}", wrong_rows(state, &key, &mirror)?);
    println!("refreshed: {}", state.refresh(&key, &mut mirror)?);
    println!("wrong rows: {:?}", wrong_rows(state, &key, &mirror)?);

    let light = 16 * ROW_LIGHTS..16 * (ROW_LIGHTS + 6);
    mirror.as_mut_bytes()[light].fill(0xFF);
    println!(
        "a light's rows lost: {:?}",
        wrong_rows(state, &key, &mirror)?
    );
    println!("refreshed, unmarked: {}", state.refresh(&key, &mut mirror)?);
    println!("wrong rows: {:?}", wrong_rows(state, &key, &mirror)?);
    state.mark_ff_vs_dirty(DIRTY_LIGHTS)?;
    println!("refreshed, marked: {}", state.refresh(&key, &mut mirror)?);
    println!("wrong rows: {:?}", wrong_rows(state, &key, &mirror)?);

    state.mark_ff_vs_dirty(ALL_DIRTY)?;
    let found = (state.clone(), mirror.clone());
    let transformed = VsKey {
        has_rhw: true,
        ..key
    };
    if let Err(refusal) = state.refresh(&transformed, &mut mirror) {
        println!("transformed vertices: {refusal}");
    }
    println!(
        "left as found: {}",
        (&*state, &mirror) == (&found.0, &found.1)
    );
    Ok(())
}

/// Nine lights light: eight of them are packed for the main screen, four for the preview.
fn preview(state: &mut FfImage) -> Result<(), Refusal> {
    for index in 0..8 {
        state.set_light_enabled_at(index, true)?;
    }
    let screen = key(state);
    let preview = VsKey {
        preview: true,
        light_active_mask: screen.light_active_mask & 15,
        ..screen
    };
    let eight = state.fill_lights_section(&screen)?;
    let four = state.fill_lights_section(&preview)?;
    let first = four == eight[..four.len()];
    println!("rows of lights on the main screen: {}", eight.len());
    println!(
        "rows of lights in the preview: {}, the first of those: {first}",
        four.len()
    );
    Ok(())
}

fn main() -> Result<(), Box<dyn Error>> {
    let mut state = FfImage::fresh();
    println!("dirty: {}", state.take_ff_vs_dirty());

    let away = moved(5.0, 6.0, 7.0);
    state.set_transform(D3DTS_WORLD, &away)?;
    state.multiply_transform(D3DTS_VIEW, &away)?;
    println!("view, last row: {:?}", state.transform(D3DTS_VIEW)?.m[3]);
    let composite = state.world_view_projection();
    println!("world x view x projection, last row: {:?}", composite.m[3]);
    println!("world matrices: {}", state.world_palette_used());
    println!("dirty: {}", state.take_ff_vs_dirty());
    if let Err(refusal) = state.set_transform(512, &away) {
        println!("state 512: {refusal}");
    }

    let red = Color {
        r: 1.0,
        ..Color::default()
    };
    state.set_material(&Material {
        diffuse: red,
        ..Material::default()
    });
    println!("diffuse: {:?}", state.material().diffuse);

    let spot = Light {
        type_: D3DLIGHT_SPOT,
        diffuse: red,
        ..Light::default()
    };
    state.set_light_at(100, &spot)?;
    state.set_light_enabled_at(100, true)?;
    println!("light 100, type: {}", state.get_light_at(100)?.type_);
    println!(
        "light 100: enabled {}, defined {}",
        state.is_light_enabled_at(100),
        state.is_light_defined_at(100)
    );
    println!("light inputs: 0x{:08x}", state.vs_source_light_inputs());
    println!("{:?}", state.compacted_light_masks());
    if let Err(refusal) = state.get_light_at(0) {
        println!("light 0: {refusal}");
    }

    state.set_fog_start(10.0);
    state.set_fog_end(50.0);
    state.set_fog_density(0.25);
    println!("dirty: {}", state.take_ff_vs_dirty());
    state.set_ambient(0xFF80_4020);
    println!("dirty: {}", state.take_ff_vs_dirty());
    state.set_transform(D3DTS_TEXTURE0 + 1, &away)?;
    state.set_texture_mask(2);
    println!("dirty: {}", state.take_ff_vs_dirty());
    if let Err(refusal) = state.mark_ff_vs_dirty(ALL_DIRTY + 1) {
        println!("bits 256: {refusal}");
    }

    pack(&state)?;
    frames(&mut state)?;
    preview(&mut state)?;

    let stored = *state.as_bytes();
    println!("read in again: {}", FfImage::from_bytes(&stored)? == state);
    if let Err(refusal) = FfImage::from_bytes(&stored[..100]) {
        println!("100 bytes: {refusal}");
    }

    let back = ff_state::inverse(&composite)?;
    println!("the way back: {:?}", ff_state::transpose(&back).m[0]);
    println!(
        "and forth: {}",
        ff_state::mat_mul(&back, &composite) == Matrix::IDENTITY
    );
    println!(
        "root of 2: {}, cosine of 0: {}",
        ff_state::sqrt(2.0),
        ff_state::cos(0.0)
    );
    Ok(())
}
