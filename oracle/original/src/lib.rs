//! The original: windows/core/src/ff_state.rs, convert.rs and dxso/ff.rs of athei/mtld3d
//! 500615c3e2, compiled unchanged from where they lie (build.rs), against the shims of this
//! folder. The modules written here hold what the three files lean on and nothing more; what no
//! compared call reaches ends the program when it is called.

pub mod caps;
pub mod dxso;
pub mod render_state;
pub mod scratch;
pub mod state_trace;
pub mod vs_draw;

/// The log's name for this crate; every message is dropped.
pub const LOG_TARGET: &str = "mtld3d_core";

#[allow(warnings, clippy::all)]
mod unchanged {
    include!(concat!(env!("OUT_DIR"), "/ff_state.rs"));
    include!(concat!(env!("OUT_DIR"), "/convert.rs"));
}

pub use unchanged::{convert, ff_state};
