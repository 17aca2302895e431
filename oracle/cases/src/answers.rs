//! The Rust's answers, as bits in which every NaN is the one of our library.

use mtld3d_types::D3DMATRIX;
use original::ff_state::FfState;

use crate::floats::with_one_nan;

/// A matrix by the bits of its 16 floats, row-major.
pub type Words = [u32; 16];

#[must_use]
pub fn sqrt(bits: u32) -> u32 {
    with_one_nan(f32::from_bits(bits).sqrt().to_bits())
}

#[must_use]
pub fn cos(bits: u32) -> u32 {
    with_one_nan(mtld3d_shared::trig::cos(f32::from_bits(bits)).to_bits())
}

#[must_use]
pub fn mat_mul(a: &Words, b: &Words) -> Words {
    words(&FfState::mat_mul(&matrix(a), &matrix(b)))
}

#[must_use]
pub fn transpose(m: &Words) -> Words {
    words(&FfState::transpose(&matrix(m)))
}

/// `None` is document 01's refusal 6.
#[must_use]
pub fn inverse(m: &Words) -> Option<Words> {
    FfState::inverse(&matrix(m)).map(|inverse| words(&inverse))
}

fn matrix(m: &Words) -> D3DMATRIX {
    D3DMATRIX {
        m: m.map(f32::from_bits),
    }
}

fn words(m: &D3DMATRIX) -> Words {
    m.m.map(|entry| with_one_nan(entry.to_bits()))
}
