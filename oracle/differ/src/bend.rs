//! The bends of the calls without an image.

use cases::answers::{self, Words};
use cases::floats::{INFINITY, NAN, ONE, SIGN, is_nan};

use crate::bends::Bend;
use crate::bent::{cofactor_inverse, cosine, product};
use crate::bytes;
use crate::host::{self, NO_INVERSE, WRONG_LENGTH};

pub fn sqrt(bend: Bend, bits: u32, answer: u32) -> u32 {
    let exponent = (bits >> 23) & 0xFF;
    match bend {
        Bend::SqrtUlp if bits >> 23 == 127 => answer + 1,
        Bend::SqrtTruncated if bits < INFINITY => {
            // Exact: a float's square has at most 48 bits, and its exponent fits f64.
            let root = f64::from(f32::from_bits(answer));
            if root * root > f64::from(f32::from_bits(bits)) {
                answer - 1
            } else {
                answer
            }
        }
        Bend::SqrtNegativeZero if bits == SIGN => 0,
        Bend::SqrtNegative if bits > SIGN && exponent == 0 => SIGN,
        Bend::SqrtSubnormal if exponent == 0 => bits & SIGN,
        Bend::SqrtInfinity if bits == INFINITY => NAN,
        Bend::SqrtNan if is_nan(bits) => bits | 0x0040_0000,
        _ => answer,
    }
}

pub fn cos(bend: Bend, bits: u32, answer: u32) -> u32 {
    match bend {
        Bend::CosCoefficient
        | Bend::CosHalfTurn
        | Bend::CosClosedTest
        | Bend::CosFused
        | Bend::CosQuotient => cosine(bits, Some(bend)),
        Bend::CosInfinity if bits == INFINITY => ONE,
        Bend::CosNan if is_nan(bits) => bits | 0x0040_0000,
        _ => answer,
    }
}

pub fn mat_mul(bend: Bend, a: &[u8], b: &[u8], out: &mut [u8]) -> u32 {
    match bend {
        Bend::ProductLength if a.len() == 65 => return host::mat_mul(&a[..64], b, out),
        Bend::ProductOutLength if out.len() == 65 => return host::mat_mul(a, b, &mut out[..64]),
        Bend::ProductWrites if b.len() == 63 && out.len() == 64 => {
            out[0] ^= 1;
            return WRONG_LENGTH;
        }
        _ => {}
    }
    let status = host::mat_mul(a, b, out);
    if status != 0 {
        return status;
    }
    let (x, y) = (bytes::words(a), bytes::words(b));
    let bent = match bend {
        Bend::ProductFromZero | Bend::ProductFused | Bend::ProductPairwise => {
            product(&x, &y, Some(bend))
        }
        Bend::ProductTransposed => answers::transpose(&answers::mat_mul(&x, &y)),
        Bend::ProductSwapped => answers::mat_mul(&y, &x),
        Bend::ProductNan => other_nan(bytes::words(out)),
        _ => return status,
    };
    out.copy_from_slice(&bytes::of(&bent));
    status
}

pub fn transpose(bend: Bend, m: &[u8], out: &mut [u8]) -> u32 {
    if bend == Bend::TransposeLength && m.len() == 65 {
        return host::transpose(&m[..64], out);
    }
    let status = host::transpose(m, out);
    if status != 0 {
        return status;
    }
    let words = bytes::words(out);
    let bent = match bend {
        Bend::TransposeIdentity => bytes::words(m),
        Bend::TransposeNan => other_nan(words),
        Bend::TransposeNegativeZero => words.map(|word| if word == SIGN { 0 } else { word }),
        Bend::TransposeGuard => {
            // SAFETY: every slice that the driver lends lies inside a longer buffer.
            unsafe { *out.as_mut_ptr().add(64) ^= 1 };
            return status;
        }
        _ => return status,
    };
    out.copy_from_slice(&bytes::of(&bent));
    status
}

pub fn inverse(bend: Bend, m: &[u8], out: &mut [u8]) -> u32 {
    let right = m.len() == bytes::MATRIX && out.len() == bytes::MATRIX;
    match bend {
        Bend::InverseLength if m.len() == 65 => return host::inverse(&m[..64], out),
        Bend::InverseOrder if !right && m.len() == bytes::MATRIX => {
            return if answers::inverse(&bytes::words(m)).is_some() {
                WRONG_LENGTH
            } else {
                NO_INVERSE
            };
        }
        _ => {}
    }
    let before = out.to_vec();
    let status = host::inverse(m, out);
    if !right {
        return status;
    }
    let given = bytes::words(m);
    let words = bytes::words(out);
    let bent = match bend {
        // The identity stands for whatever such a version would answer.
        Bend::InverseAcceptsSingular if status == NO_INVERSE && finite(&given) => identity(),
        Bend::InverseAcceptsInfinite if status == NO_INVERSE && !finite(&given) => identity(),
        Bend::InverseWrites if status == NO_INVERSE => {
            out.copy_from_slice(&bytes::of(&identity()));
            return status;
        }
        // Only a tiny determinant has an inverse that is not finite.
        Bend::InverseRefusesTiny if status == 0 && !finite(&words) => {
            out.copy_from_slice(before.as_slice());
            return NO_INVERSE;
        }
        Bend::InverseNan if status == 0 => other_nan(words),
        Bend::InverseTransposed if status == 0 => answers::transpose(&words),
        Bend::InverseFused
        | Bend::InverseFromZero
        | Bend::InverseDivides
        | Bend::InverseDeterminant => match cofactor_inverse(&given, Some(bend)) {
            Some(inverse) => inverse,
            None => {
                out.copy_from_slice(before.as_slice());
                return NO_INVERSE;
            }
        },
        _ => return status,
    };
    out.copy_from_slice(&bytes::of(&bent));
    0
}

fn finite(words: &Words) -> bool {
    words.iter().all(|word| word & INFINITY != INFINITY)
}

fn identity() -> Words {
    core::array::from_fn(|i| if i % 5 == 0 { ONE } else { 0 })
}

fn other_nan(words: Words) -> Words {
    words.map(|word| if is_nan(word) { NAN | SIGN } else { word })
}
