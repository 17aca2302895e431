//! The arithmetic of the bends: the cosine, the product and the inverse, each with one step bent.

use cases::answers::{self, Words};
use cases::floats::{HALF_TURN, NAN, QUARTER_TURN, TURN, random_cosine, with_one_nan};
use cases::matrices::{KINDS, factors};
use cases::random::Random;

use crate::bends::Bend;

/// Document 01's cosine with one thing bent.
pub fn cosine(bits: u32, bend: Option<Bend>) -> u32 {
    let y = f32::from_bits(bits).abs();
    if !y.is_finite() {
        return NAN;
    }
    let turn = f32::from_bits(TURN);
    let quarter_turn = f32::from_bits(QUARTER_TURN);
    let half_turn = match bend {
        Some(Bend::CosHalfTurn) => f32::from_bits(HALF_TURN - 1),
        _ => f32::from_bits(HALF_TURN),
    };
    let eighth = match bend {
        Some(Bend::CosCoefficient) => (1.0 / 40320.0f32).next_up(),
        _ => 1.0 / 40320.0,
    };
    let mut r = match bend {
        Some(Bend::CosQuotient) => y - turn * (y / turn).trunc(),
        _ => y % turn,
    };
    if r > half_turn {
        r = turn - r;
    }
    let negated = match bend {
        Some(Bend::CosClosedTest) => r >= quarter_turn,
        _ => r > quarter_turn,
    };
    let t = if negated { half_turn - r } else { r };
    let u = t * t;
    let step = |term: f32, factor: f32| match bend {
        Some(Bend::CosFused) => u.mul_add(factor, term),
        _ => term + u * factor,
    };
    let p = [-1.0 / 720.0, 1.0 / 24.0, -0.5, 1.0]
        .into_iter()
        .fold(eighth, |factor, term| step(term, factor));
    with_one_nan(if negated { -p } else { p }.to_bits())
}

/// The product with one thing bent.
pub fn product(a: &Words, b: &Words, bend: Option<Bend>) -> Words {
    core::array::from_fn(|i| {
        let x: [f32; 4] = core::array::from_fn(|k| f32::from_bits(a[i / 4 * 4 + k]));
        let y: [f32; 4] = core::array::from_fn(|k| f32::from_bits(b[4 * k + i % 4]));
        let pairs = x.into_iter().zip(y);
        let sum = match bend {
            Some(Bend::ProductFromZero) => pairs.fold(0.0, |sum, (x, y)| sum + x * y),
            Some(Bend::ProductFused) => pairs.fold(-0.0, |sum, (x, y)| x.mul_add(y, sum)),
            Some(Bend::ProductPairwise) => {
                (x[0] * y[0] + x[1] * y[1]) + (x[2] * y[2] + x[3] * y[3])
            }
            _ => pairs.fold(-0.0, |sum, (x, y)| sum + x * y),
        };
        with_one_nan(sum.to_bits())
    })
}

/// The inverse by cofactors with one thing bent. Row i of the answer leaves out column i; its
/// column j takes the row that shares a pair with row j, and the minors of the other pair.
pub fn cofactor_inverse(m: &Words, bend: Option<Bend>) -> Option<Words> {
    let at = |row: usize, column: usize| f32::from_bits(m[4 * row + column]);
    // The minor of columns p and q in rows 0 and 1, or in rows 2 and 3.
    let minor = |row: usize, p: usize, q: usize| match bend {
        Some(Bend::InverseFused) => {
            at(row, p).mul_add(at(row + 1, q), -(at(row + 1, p) * at(row, q)))
        }
        _ => at(row, p) * at(row + 1, q) - at(row + 1, p) * at(row, q),
    };
    let start = match bend {
        Some(Bend::InverseFromZero) => 0.0,
        _ => -0.0,
    };
    let upper = [(0, 1), (0, 2), (0, 3), (1, 2), (1, 3), (2, 3)];
    let lower = [(2, 3), (1, 3), (1, 2), (0, 3), (0, 2), (0, 1)];
    let terms: [f32; 6] = core::array::from_fn(|k| {
        let first = minor(0, upper[k].0, upper[k].1);
        let sign = if k == 1 || k == 4 { -first } else { first };
        sign * minor(2, lower[k].0, lower[k].1)
    });
    let sum = |terms: &[f32]| terms.iter().fold(start, |sum, term| sum + term);
    let determinant = match bend {
        Some(Bend::InverseDeterminant) => sum(&terms),
        _ => sum(&terms[..3]) + sum(&terms[3..]),
    };
    if determinant == 0.0 || !determinant.is_finite() {
        return None;
    }
    let reciprocal = 1.0 / determinant;
    Some(core::array::from_fn(|entry| {
        let (i, j) = (entry / 4, entry % 4);
        let left: Vec<usize> = (0..4).filter(|&column| column != i).collect();
        let (row, pair) = ([1, 0, 3, 2][j], [2, 2, 0, 0][j]);
        let signed = |k: usize| {
            let factor = at(row, left[k]);
            if (i + j + k).is_multiple_of(2) {
                factor
            } else {
                -factor
            }
        };
        let cofactor = sum(&[
            signed(0) * minor(pair, left[1], left[2]),
            signed(1) * minor(pair, left[0], left[2]),
            signed(2) * minor(pair, left[0], left[1]),
        ]);
        let answer = match bend {
            Some(Bend::InverseDivides) => cofactor / determinant,
            _ => cofactor * reciprocal,
        };
        with_one_nan(answer.to_bits())
    }))
}

/// Whether these three, with nothing bent, give the Rust's answers: only then does a bend show
/// that the driver sees what is bent, and not some slip made here.
pub fn straight() -> bool {
    (0..20_000).all(|input| {
        let mut random = Random::of_input(1, input);
        let angle = random_cosine(&mut random);
        let (a, b) = factors(KINDS[input as usize % KINDS.len()], &mut random);
        cosine(angle, None) == answers::cos(angle)
            && product(&a, &b, None) == answers::mat_mul(&a, &b)
            && cofactor_inverse(&a, None) == answers::inverse(&a)
    })
}
