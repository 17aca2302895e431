//! What the original needs of the per-draw vertex state.

use mtld3d_types::RENDER_STATE_COUNT;

/// Shader text is not compared.
pub const VS_DRAW_MSL: &str = "";

/// No user clip planes: `build_vs_key` is the only public way to the compacted light masks, and
/// its count of clip planes is not compared.
pub fn clip_plane_count(_render_states: &[u32; RENDER_STATE_COUNT]) -> u8 {
    0
}
