//! What ff_state.rs needs for its pixel variants, which are not compared.

use mtld3d_types::RENDER_STATE_COUNT;

pub fn enum_value(_render_states: &[u32; RENDER_STATE_COUNT], _state: u32) -> u8 {
    unimplemented!("pixel variants are not compared");
}
