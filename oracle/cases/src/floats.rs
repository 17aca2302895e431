//! Floats by their bits: what makes two alike, and the inputs that are worth trying.

use crate::random::Random;

/// The one NaN that our library answers with (document 01, "State image").
pub const NAN: u32 = 0x7FC0_0000;
pub const SIGN: u32 = 0x8000_0000;
pub const INFINITY: u32 = 0x7F80_0000;
pub const ONE: u32 = 0x3F80_0000;
/// The least normal float, and the largest float.
pub const NORMAL: u32 = 0x0080_0000;
pub const LARGEST: u32 = 0x7F7F_FFFF;

/// Document 01's constants of the cosine: T, then the bounds of its two tests.
pub const TURN: u32 = 0x40C9_0FDB;
pub const HALF_TURN: u32 = 0x4049_0FDB;
pub const QUARTER_TURN: u32 = 0x3FC9_0FDB;

/// One of each kind of float, and the kinds' borders.
pub const SPECIAL: [u32; 40] = [
    0x0000_0000, // +0
    0x8000_0000, // -0
    0x0000_0001, // least subnormal
    0x8000_0001,
    0x0000_0002,
    0x007F_FFFF, // largest subnormal
    0x807F_FFFF,
    0x0040_0000, // a subnormal power of two
    0x0080_0000, // least normal
    0x8080_0000,
    0x0080_0001,
    0x7F7F_FFFF, // largest finite
    0xFF7F_FFFF,
    0x7F00_0000, // 2^127
    0x7F80_0000, // infinities
    0xFF80_0000,
    0x7FC0_0000, // quiet NaNs
    0xFFC0_0000,
    0x7FFF_FFFF,
    0xFFFF_FFFF,
    0x7FC0_0001,
    0x7F80_0001, // signalling NaNs
    0xFF80_0001,
    0x7FBF_FFFF,
    0x3F80_0000, // 1 and its neighbours
    0xBF80_0000,
    0x3F80_0001,
    0x3F7F_FFFF,
    0x4000_0000, // 2
    0xC000_0000,
    0x3F00_0000, // 1/2
    0x4040_0000, // 3
    0x3EAA_AAAB, // near 1/3
    0x3F80_0800, // 1 + 2^-12: its square needs 25 bits
    0x3F7F_F000, // 1 - 2^-12
    0x1F80_0000, // 2^-64: its square is subnormal
    0x5F80_0000, // 2^64: its square overflows
    0x1A80_0000, // 2^-74: its square is 2^-148
    0x4B80_0000, // 2^24
    0x3586_37BD, // document 01's 1e-6
];

#[must_use]
pub const fn is_nan(bits: u32) -> bool {
    bits & !SIGN > INFINITY
}

#[must_use]
pub const fn is_finite(bits: u32) -> bool {
    bits & INFINITY != INFINITY
}

#[must_use]
pub const fn is_zero(bits: u32) -> bool {
    bits & !SIGN == 0
}

/// Finite, and 2^-126 or more in magnitude.
#[must_use]
pub const fn is_normal(bits: u32) -> bool {
    is_finite(bits) && bits & INFINITY != 0
}

/// Document 01: two floats are alike if their bits are equal or both are NaN.
#[must_use]
pub const fn alike(a: u32, b: u32) -> bool {
    a == b || (is_nan(a) && is_nan(b))
}

/// The bits as our library must answer them.
#[must_use]
pub const fn with_one_nan(bits: u32) -> u32 {
    if is_nan(bits) { NAN } else { bits }
}

/// The float's bits, of either sign, at which something may change: for every exponent the edges
/// of the significand, and every single bit of it.
pub fn exponent_edges() -> impl Iterator<Item = u32> {
    const MIDDLE: u32 = 0x0040_0000;
    const ONES: u32 = 0x007F_FFFF;
    let edges = [0, 1, 2, 3, ONES, ONES - 1, MIDDLE - 1, MIDDLE, MIDDLE + 1];
    let significands: Vec<u32> = edges
        .into_iter()
        .chain((0..23).map(|bit| 1 << bit))
        .collect();
    (0..=511u32).flat_map(move |top| {
        significands
            .clone()
            .into_iter()
            .map(move |significand| (top << 23) | significand)
    })
}

/// The bits within `reach` of `bits`, and `bits` itself.
pub fn neighbours(bits: u32, reach: i32) -> impl Iterator<Item = u32> {
    (-reach..=reach).map(move |by| bits.wrapping_add_signed(by))
}

/// A normal float of any sign with an exponent from `low` to `high`.
pub fn scaled(random: &mut Random, low: i32, high: i32) -> u32 {
    let exponent = (random.between(low, high) + 127) as u32;
    (random.word() & 0x807F_FFFF) | (exponent << 23)
}

/// The bits of `significand` * 2^`exponent`, where a float has that value.
#[must_use]
pub fn exact(significand: u32, exponent: i32) -> Option<u32> {
    // Every u32 and every power of two here is exact as f64, and so is the product.
    let wide = f64::from(significand) * 2f64.powi(exponent);
    let narrow = wide as f32;
    (narrow.is_finite() && f64::from(narrow) == wide).then(|| narrow.to_bits())
}

/// Roots: the edges, the subnormal powers of two, and the squares of all numbers of up to 12 bits
/// at every scale that holds them, each with its neighbours.
pub fn root_edges() -> impl Iterator<Item = u32> {
    let powers = (0..23).flat_map(|bit| neighbours(1 << bit, 2));
    // An even number is an odd one at another scale.
    let squares = (1..4096u32).step_by(2).flat_map(|n| {
        (-149..128)
            .filter_map(move |exponent| exact(n * n, exponent))
            .flat_map(|bits| neighbours(bits, 2))
    });
    SPECIAL
        .into_iter()
        .chain(exponent_edges())
        .chain(powers)
        .chain(squares)
}

/// Roots: any bits, or a float next to the square of a midpoint between two floats, where the
/// rounding of the root is hardest to get right.
pub fn random_root(random: &mut Random) -> u32 {
    if !random.chance(4) {
        return random.word();
    }
    let root = (1 << 23) | (random.word() & 0x007F_FFFF);
    let odd = u64::from(2 * root + 1);
    let square = odd * odd;
    let shift = 40 - square.leading_zeros();
    let low = (square >> shift) as u32 + random.below(2);
    // Any even scale keeps the root next to its midpoint.
    let scale = 2 * random.between(-75, 50) + (shift % 2) as i32;
    exact(low, scale).unwrap_or(low)
}

/// Cosines: the edges, the constants of document 01 and the multiples of T/8, with neighbours.
pub fn cosine_edges() -> impl Iterator<Item = u32> {
    let constants = [TURN, HALF_TURN, QUARTER_TURN]
        .into_iter()
        .flat_map(|bits| neighbours(bits, 64));
    // k * T is exact as f64 for these k, so the nearest float is one rounding away.
    let turn = f64::from(f32::from_bits(TURN));
    let eighths = (0..1 << 16).chain((16..29).map(|bit| 1 << bit));
    let multiples = eighths.flat_map(move |k: u32| {
        let angle = (f64::from(k) * turn / 8.0) as f32;
        neighbours(angle.to_bits(), 3)
    });
    SPECIAL
        .into_iter()
        .chain(exponent_edges())
        .chain(constants)
        .chain(multiples)
        .flat_map(|bits| [bits, bits ^ SIGN])
}

/// Cosines: any bits, or an angle within a few turns, where a light's cone lies.
pub fn random_cosine(random: &mut Random) -> u32 {
    match random.below(4) {
        0 => random.word(),
        1 => scaled(random, -16, 30),
        _ => scaled(random, -8, 4),
    }
}
