//! The same loops over the Rust's calls.

use std::hint::black_box;

use mtld3d_types::D3DMATRIX;
use original::ff_state::FfState;

/// The bytes of our state.
pub const STATE: usize = 24_232;

/// The compiler takes four roots at a time here (`sqrtps`).
#[inline(never)]
pub fn sqrt(xs: &[f32], out: &mut [f32]) {
    for (x, root) in xs.iter().zip(out) {
        *root = x.sqrt();
    }
}

/// One root at a time (`sqrtss`): the compiler cannot see across a `black_box`.
#[inline(never)]
pub fn sqrt_scalar(xs: &[f32], out: &mut [f32]) {
    for (x, root) in xs.iter().zip(out) {
        *root = black_box(*x).sqrt();
    }
}

#[inline(never)]
pub fn sqrt_chain(xs: &[f32]) -> f32 {
    xs.iter().fold(0.0, |acc, x| (acc + x).sqrt())
}

#[inline(never)]
pub fn mat_mul(ms: &[D3DMATRIX], out: &mut [D3DMATRIX]) {
    for (pair, product) in ms.windows(2).zip(out) {
        *product = FfState::mat_mul(&pair[0], &pair[1]);
    }
}

#[inline(never)]
pub fn mat_mul_by_one(ms: &[D3DMATRIX], out: &mut [D3DMATRIX]) {
    let Some(view) = ms.first() else {
        return;
    };
    for (m, product) in ms.iter().zip(out) {
        *product = FfState::mat_mul(m, view);
    }
}

#[inline(never)]
pub fn mat_mul_chain(ms: &[D3DMATRIX], out: &mut [D3DMATRIX]) {
    let mut acc = D3DMATRIX::IDENTITY;
    for m in ms {
        acc = FfState::mat_mul(&acc, m);
    }
    if let Some(first) = out.first_mut() {
        *first = acc;
    }
}

#[inline(never)]
pub fn transpose(ms: &[D3DMATRIX], out: &mut [D3DMATRIX]) {
    for (m, transposed) in ms.iter().zip(out) {
        *transposed = FfState::transpose(m);
    }
}

#[inline(never)]
pub fn inverse(ms: &[D3DMATRIX], out: &mut [D3DMATRIX]) {
    for (m, inverse) in ms.iter().zip(out) {
        if let Some(answer) = FfState::inverse(m) {
            *inverse = answer;
        }
    }
}

/// The state goes through `black_box` at each turn, as a host holds it in memory: else the compiler could keep only the last
/// store.
/// Its fields are private, so that a light is switched by a call; ours stores the mask.
#[inline(never)]
pub fn vs_source_light_inputs(n: u32, index: u32) -> u32 {
    let mut s = FfState::new();
    for i in [0, 1, 2, 3, index] {
        s.set_light_enabled_at(i, true);
    }
    let mut sum = 0u32;
    for i in 0..n {
        let s = black_box(&mut s);
        s.set_light_enabled_at(i % 4, i / 4 % 2 == 1);
        sum = sum.wrapping_add(s.vs_source_light_inputs());
    }
    sum
}

/// A plain copy of as many bytes as our state has.
#[inline(never)]
pub fn copy(from: &[u8; STATE], to: &mut [u8; STATE]) {
    *to = *from;
}
