//! The vertex state of Direct3D 9's fixed-function pipeline, over a proved static library.
//!
//! A state is an [`FfImage`], 24,224 bytes that may be stored, sent and read in again. Every call is defined for
//! every argument: it is accepted, or answers with one [`Refusal`] and changes nothing.
//!
//! ```
//! use ff_state::{FfImage, Light, Matrix, Refusal};
//!
//! let mut state = FfImage::fresh();
//! state.set_transform(ff_state::D3DTS_VIEW, &Matrix::IDENTITY)?;
//! state.set_light_enabled_at(0, true)?;
//! assert_eq!(state.get_light_at(0), Ok(Light::default()));
//! assert_eq!(state.get_light_at(1), Err(Refusal::UndefinedLight));
//! # Ok::<(), Refusal>(())
//! ```
//!
//! The rows that a draw hands to its shader are packed section by section, under a [`VsKey`]:
//!
//! ```
//! use ff_state::{FfImage, VsKey};
//!
//! let state = FfImage::fresh();
//! let rows = state.fill_wv_section(&VsKey::default());
//! assert_eq!(rows[0], [1.0, 0.0, 0.0, 0.0]);
//! ```
//!
//! A [`Mirror`] of all these rows is kept up with the state by [`FfImage::refresh`], which writes the dirty sections alone:
//!
//! ```
//! use ff_state::{D3DTS_VIEW, FfImage, Matrix, Mirror, VsKey};
//!
//! let (mut state, mut mirror) = (FfImage::fresh(), Mirror::new());
//! assert_eq!(state.refresh(&VsKey::default(), &mut mirror), Ok(ff_state::ALL_DIRTY));
//! state.set_transform(D3DTS_VIEW, &Matrix::IDENTITY)?;
//! let written = ff_state::DIRTY_WV | ff_state::DIRTY_LIGHTS | ff_state::DIRTY_PALETTE;
//! assert_eq!(state.refresh(&VsKey::default(), &mut mirror), Ok(written));
//! assert_eq!(mirror.rows()[ff_state::ROW_WV], [1.0, 0.0, 0.0, 0.0]);
//! # Ok::<(), ff_state::Refusal>(())
//! ```
//!
//! A player that makes many calls in a frame holds an [`FfState`] instead, which is changed in place:
//!
//! ```
//! use ff_state::{D3DTS_VIEW, FfImage, FfState, MIRROR_FLOATS, Matrix, VsKey};
//!
//! let (mut state, mut mirror) = (FfState::fresh(), vec![0.0; MIRROR_FLOATS]);
//! state.set_transform(D3DTS_VIEW, &Matrix::IDENTITY)?;
//! assert_eq!(state.refresh(&VsKey::default(), &mut mirror), Ok(ff_state::ALL_DIRTY));
//! let image: FfImage = state.to_image();
//! assert_eq!(FfState::from_image(&image).to_image(), image);
//! # Ok::<(), ff_state::Refusal>(())
//! ```
//!
//! A draw that packs section by section without allocating has a `fill_*_section_into`:
//!
//! ```
//! use ff_state::{FfImage, Refusal, VsKey};
//!
//! let (state, mut rows) = (FfImage::fresh(), [[0.0; 4]; 4]);
//! state.fill_proj_section_into(&VsKey::default(), &mut rows)?;
//! assert_eq!(rows[3], [0.0, 0.0, 0.0, 1.0]);
//! # Ok::<(), Refusal>(())
//! ```
//!
//! A NaN of any bit pattern is a NaN: what is stored and answered is 0x7FC00000. A method that answers with no `Result` makes
//! a call that is proved to refuse nothing there; it panics if the library refuses all the same.

#![deny(missing_docs)]

mod arithmetic;
mod debug;
mod image;
mod layout;
mod mirror;
mod packing;
mod raw;
mod record;
mod records;
mod refusal;
mod render_states;
mod state;

pub use arithmetic::{cos, inverse, mat_mul, sqrt, transpose};
pub use image::{
    ALL_DIRTY, D3DTS_PROJECTION, D3DTS_TEXTURE0, D3DTS_VIEW, D3DTS_WORLD, DIRTY_AMBIENT, DIRTY_FOG,
    DIRTY_LIGHTS, DIRTY_MATERIAL, DIRTY_PALETTE, DIRTY_PROJ, DIRTY_TT, DIRTY_WV, FfImage,
    LightMasks, OVERFLOW_LIGHTS,
};
pub use layout::{
    BLEND_MATRICES, ENTRY_BYTES, INDEXED_MATRICES, LIGHT_ROWS, LIGHT_SLOTS, TEXTURE_STAGES,
    WORLD_MATRICES, image_at,
};
pub use mirror::{
    Mirror, ROW_AMBIENT, ROW_FOG, ROW_LIGHTS, ROW_MATERIAL, ROW_PALETTE, ROW_PROJ, ROW_TT, ROW_WV,
    ROWS,
};
pub use packing::{ROW_BYTES, Row, VsKey};
pub use record::{REPLAY_START_BITS, Recorder, replay_start};
pub use records::{
    Color, D3DLIGHT_DIRECTIONAL, D3DLIGHT_POINT, D3DLIGHT_SPOT, Light, Material, Matrix, Vector,
};
pub use refusal::Refusal;
pub use state::{FfState, MIRROR_FLOATS};

/// The version of the library that this crate was written for, 0xMMmmpp00: major, minor, patch. It is the crate's own.
pub const VERSION: u32 = raw::VERSION;

/// The version of the library that is linked, to be compared with [`VERSION`]: minor is raised whenever the image, the state
/// in memory or a call changes, so that the two are equal or the archives are not this crate's.
#[must_use]
pub fn version() -> u32 {
    raw::ff_state_version()
}
