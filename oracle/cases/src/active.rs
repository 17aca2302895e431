//! The lights that are packed under a key: eight of those that light, in a preview (document 02, T-01) the first four. The Rust
//! knows no preview: it is asked on a copy of its state in which all others are disabled.

use mtld3d_types::{D3DLIGHT_DIRECTIONAL, D3DLIGHT_POINT, D3DLIGHT9};
use original::ff_state::FfState;

use crate::image::SLOTS;
use crate::key::Key;

/// The transform states end here.
const STATES: u32 = 512;

/// The lights that light, and their indices: of the slots, then of `indices`, which are those from index 8 on, ascending.
fn lighting(
    rust: &FfState,
    indices: impl Iterator<Item = u32>,
) -> impl Iterator<Item = (u32, D3DLIGHT9)> {
    (0..SLOTS as u32)
        .chain(indices)
        .filter(|&index| rust.is_light_enabled_at(index))
        .filter_map(|index| Some((index, rust.get_light_at(index)?)))
        .filter(|(_, light)| (D3DLIGHT_POINT..=D3DLIGHT_DIRECTIONAL).contains(&light.type_))
}

/// The lights that are packed, at most `limit` of them.
pub fn active(rust: &FfState, indices: impl Iterator<Item = u32>, limit: usize) -> Vec<D3DLIGHT9> {
    let lights = lighting(rust, indices).map(|(_, light)| light);
    lights.take(limit).collect()
}

/// What the Rust answers of the lights of a draw under the key.
pub fn asked<T>(
    rust: &FfState,
    indices: impl Iterator<Item = u32> + Clone,
    key: Key,
    ask: impl FnOnce(&FfState) -> T,
) -> T {
    if key.preview == 0 {
        ask(rust)
    } else {
        ask(&limited(rust, indices, key.limit()))
    }
}

/// A copy of the state, made from its reads, in which of the lights that light all but the first `limit` are disabled.
fn limited(rust: &FfState, indices: impl Iterator<Item = u32> + Clone, limit: usize) -> FfState {
    let mut copy = FfState::new();
    for (state, matrix) in (0..STATES).filter_map(|state| Some((state, rust.transform(state)?))) {
        copy.set_transform(state, matrix);
    }
    copy.set_material(rust.material());
    for index in (0..SLOTS as u32).chain(indices.clone()) {
        if let Some(light) = rust.get_light_at(index) {
            copy.set_light_at(index, &light);
            copy.set_light_enabled_at(index, rust.is_light_enabled_at(index));
        }
    }
    for (index, _) in lighting(rust, indices).skip(limit) {
        copy.set_light_enabled_at(index, false);
    }
    copy
}
