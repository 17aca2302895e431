//! The shader translator's names around dxso/ff.rs. Shader text is not compared.

pub mod emit;
pub mod link;

#[allow(warnings, clippy::all)]
mod unchanged {
    pub use super::super::LOG_TARGET;
    pub use super::{emit, link};

    include!(concat!(env!("OUT_DIR"), "/ff.rs"));
}

pub use emit::{VariantFlags, VariantKey};
pub use link::{DeclUsage, MAX_LINKED_INPUTS, decl_passthrough_code};
pub use unchanged::ff::*;
