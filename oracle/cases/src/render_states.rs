//! What document 02's T-05 sets, as the Rust has it: a device's render states, which its fills of FOG and AMBIENT are handed, and
//! the texture stages that transform. The setters of render states are not in its files; TT it marks only where a stage's bit
//! flips, and the setter here always.

use mtld3d_types::{
    D3DRS_AMBIENT, D3DRS_FOGDENSITY, D3DRS_FOGEND, D3DRS_FOGSTART, D3DTSS_TEXTURETRANSFORMFLAGS,
    RENDER_STATE_COUNT,
};
use original::ff_state::{FfState, FfVsDirty};

use crate::call::Name;
use crate::floats::with_one_nan;
use crate::image::{self, TEXTURES, number32};

pub type RenderStates = [u32; RENDER_STATE_COUNT];

/// Direct3D's D3DTTFF_COUNT2; any number but 0 would do.
const COUNT2: u32 = 2;

/// The fields of an image's tail that are render states: where each stands, the render state, and whether it is a float.
const FIELDS: [(usize, u32, bool); 4] = [
    (image::FOG_START, D3DRS_FOGSTART, true),
    (image::FOG_END, D3DRS_FOGEND, true),
    (image::FOG_DENSITY, D3DRS_FOGDENSITY, true),
    (image::AMBIENT, D3DRS_AMBIENT, false),
];

/// The render state that a call sets, and what it dirties.
pub fn set_by(name: Name) -> Option<(usize, FfVsDirty)> {
    let (state, dirty) = match name {
        Name::SetFogStart => (D3DRS_FOGSTART, FfVsDirty::FOG),
        Name::SetFogEnd => (D3DRS_FOGEND, FfVsDirty::FOG),
        Name::SetFogDensity => (D3DRS_FOGDENSITY, FfVsDirty::FOG),
        Name::SetAmbient => (D3DRS_AMBIENT, FfVsDirty::AMBIENT),
        _ => return None,
    };
    Some((state as usize, dirty))
}

/// Those that an image's tail brings.
pub fn of_image(bytes: &[u8]) -> RenderStates {
    let mut states = [0; RENDER_STATE_COUNT];
    for (at, state, _) in FIELDS {
        states[state as usize] = number32(bytes, at);
    }
    states
}

/// Puts them into an image's tail.
pub fn put(states: &RenderStates, bytes: &mut [u8]) {
    for (at, state, float) in FIELDS {
        let word = states[state as usize];
        let word = if float { with_one_nan(word) } else { word };
        bytes[at..at + 4].copy_from_slice(&word.to_le_bytes());
    }
}

/// The texture mask, stage by stage.
pub fn set_texture_mask(rust: &mut FfState, mask: u8) {
    for stage in 0..TEXTURES {
        let flags = if mask >> stage & 1 == 0 { 0 } else { COUNT2 };
        rust.set_texture_stage_state(stage, D3DTSS_TEXTURETRANSFORMFLAGS as usize, flags);
    }
    assert_eq!(rust.tt_active_mask(), mask);
}
