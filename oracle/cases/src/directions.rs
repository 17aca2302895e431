//! Document 02, T-04: light directions of any finite length, read in exact fractions, and where the Rust is still their oracle.

use mtld3d_types::{D3DMATRIX, D3DVECTOR};
use original::ff_state::FfState;

use crate::floats::{SIGN, is_finite, is_nan, is_normal, is_zero, with_one_nan};
use crate::fractions::{self, digits, quotient, root, square, sum};

/// A direction in view space, by its bits.
pub type Direction = [u32; 3];

/// Document 01's steps, each rounded once.
pub struct Steps {
    pub squares: [u32; 3],
    pub sum: u32,
    /// "if it exceeds 0 divide, else 0,0,0": a NaN exceeds nothing.
    pub unit: Direction,
}

/// Document 01's steps of a direction as it stands.
#[must_use]
pub fn steps(d: Direction) -> Steps {
    let squares = d.map(square);
    let sum = squares.into_iter().fold(SIGN, sum);
    let length = root(sum);
    let unit = if is_zero(length) || is_nan(length) {
        [0; 3]
    } else {
        d.map(|x| quotient(x, length))
    };
    Steps { squares, sum, unit }
}

/// "Each finite, nonzero view-space direction is first scaled by a power of two that brings its largest component to at least
/// 1 and below 2 in magnitude, each component rounded once".
#[must_use]
pub fn scaled(d: Direction) -> Direction {
    if !d.into_iter().all(is_finite) || d.into_iter().all(is_zero) {
        return d;
    }
    let largest = d.map(digits).into_iter().max().unwrap_or(0);
    // 1 is 2^149 of the unit, and so has 150 digits.
    let power = 150 - largest as i32;
    d.map(|x| fractions::scaled(x, power))
}

/// What a light's direction packs: "then document 01's steps follow".
#[must_use]
pub fn unit(d: Direction) -> Direction {
    steps(scaled(d)).unit
}

/// "The Rust remains the oracle where each component is zero or has its square and quotient in the normal range, and the sum is
/// finite".
#[must_use]
pub fn rust_rules(d: Direction) -> bool {
    let Steps { squares, sum, unit } = steps(d);
    let in_range = |i: usize| is_zero(d[i]) || is_normal(squares[i]) && is_normal(unit[i]);
    (0..3).all(in_range) && is_finite(sum)
}

/// Whose answer is right.
#[derive(Clone, Copy, Debug, PartialEq, Eq)]
pub enum Rule {
    Rust,
    /// "elsewhere the definition rules".
    Definition,
    /// The Rust's still: "A direction with a NaN or infinity is treated as before."
    AsBefore,
}

#[must_use]
pub fn rule(d: Direction) -> Rule {
    if rust_rules(d) {
        Rule::Rust
    } else if d.into_iter().all(is_finite) {
        Rule::Definition
    } else {
        Rule::AsBefore
    }
}

/// The Rust's `view_transform_dir`, which is not public: its `mat_mul`, with a fourth product of -0.0, which adds nothing.
#[must_use]
pub fn in_view(view: &D3DMATRIX, d: &D3DVECTOR) -> Direction {
    let mut row = D3DMATRIX { m: [0.0; 16] };
    row.m[..4].copy_from_slice(&[d.x, d.y, d.z, -0.0]);
    let mut turned = *view;
    turned.m[12..].fill(0.0);
    let [x, y, z, ..] = FfState::mat_mul(&row, &turned).m;
    [x, y, z].map(|float| with_one_nan(float.to_bits()))
}
