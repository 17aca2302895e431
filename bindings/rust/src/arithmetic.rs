//! The calls without a state.

use crate::raw;
use crate::records::Matrix;
use crate::refusal::Refusal;

/// a × b, each sum of products from −0.0 left to right, nothing fused.
#[must_use]
pub fn mat_mul(a: &Matrix, b: &Matrix) -> Matrix {
    let (a, b) = (a.to_bytes(), b.to_bytes());
    let mut out = [0; Matrix::BYTES];
    // SAFETY: each pointer goes with its array's length, and `out` overlaps neither factor.
    let answer = unsafe {
        raw::ff_mat_mul(
            a.as_ptr(),
            a.len(),
            b.as_ptr(),
            b.len(),
            out.as_mut_ptr(),
            out.len(),
        )
    };
    Refusal::of(answer).expect("every product of matrices is accepted");
    Matrix::from_bytes(&out)
}

/// Rows for columns.
#[must_use]
pub fn transpose(m: &Matrix) -> Matrix {
    let m = m.to_bytes();
    let mut out = [0; Matrix::BYTES];
    // SAFETY: as for `mat_mul`.
    let answer = unsafe { raw::ff_transpose(m.as_ptr(), m.len(), out.as_mut_ptr(), out.len()) };
    Refusal::of(answer).expect("every matrix is accepted");
    Matrix::from_bytes(&out)
}

/// The inverse by cofactors, or [`Refusal::Singular`].
pub fn inverse(m: &Matrix) -> Result<Matrix, Refusal> {
    let m = m.to_bytes();
    let mut out = [0; Matrix::BYTES];
    // SAFETY: as for `mat_mul`.
    let answer = unsafe { raw::ff_inverse(m.as_ptr(), m.len(), out.as_mut_ptr(), out.len()) };
    Refusal::of(answer)?;
    Ok(Matrix::from_bytes(&out))
}

/// IEEE 754's square root.
#[must_use]
pub fn sqrt(x: f32) -> f32 {
    f32::from_bits(raw::ff_sqrt(x.to_bits()))
}

/// The stand-in cosine, of an angle in radians.
#[must_use]
pub fn cos(x: f32) -> f32 {
    f32::from_bits(raw::ff_cos(x.to_bits()))
}
