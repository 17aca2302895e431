//! Inputs, made from a seed, and the Rust's answers to them. Nothing here links our library, so
//! that a stored list of answers can be written without it.

mod active;
pub mod answers;
pub mod book;
pub mod call;
pub mod claim;
pub mod damage;
pub mod direction_inputs;
pub mod directions;
pub mod edges;
pub mod eight;
pub mod floats;
pub mod fractions;
pub mod image;
pub mod key;
mod keys;
pub mod lengths;
pub mod lists;
pub mod matrices;
pub mod model;
pub mod packs;
pub mod previews;
pub mod random;
pub mod records;
mod render_states;
pub mod section;
pub mod seen;
pub mod states;
pub mod world;
