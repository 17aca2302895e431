//! Matrices of every kind that the arithmetic can tell apart.

use crate::answers::Words;
use crate::floats::{SPECIAL, exact, scaled};
use crate::random::Random;

#[derive(Clone, Copy, Debug, PartialEq, Eq)]
pub enum Kind {
    /// Small whole numbers, about a twentieth of them singular.
    Whole,
    /// Every entry one of `SPECIAL`.
    Special,
    /// Any bits.
    Any,
    /// Full significands of moderate size.
    Moderate,
    /// Moderate, but for one to three special entries.
    Sprinkled,
    /// The identity, but for a few entries.
    NearIdentity,
    /// A rotation about an axis with a translation: a world or view matrix.
    Rigid,
    /// A perspective or orthographic projection.
    Projection,
    /// Rank-deficient: equal rows, a row of zeros, a column of zeros, whole-number combinations.
    Singular,
    /// Singular, but for an entry that is an ulp off.
    NearlySingular,
    /// Entries near the largest float.
    Huge,
    /// Subnormal and other tiny entries.
    Tiny,
    /// Zeros of both signs, among them some ones.
    Zeros,
    /// Rows whose sums and minors cancel to 0 unless a product is fused into its sum.
    Cancelling,
    /// Powers of two of any size: determinants that underflow, overflow or are subnormal.
    Powers,
    /// Moderate, scaled so that the determinant is near the least or the largest float.
    Extreme,
}

pub const KINDS: [Kind; 16] = [
    Kind::Whole,
    Kind::Special,
    Kind::Any,
    Kind::Moderate,
    Kind::Sprinkled,
    Kind::NearIdentity,
    Kind::Rigid,
    Kind::Projection,
    Kind::Singular,
    Kind::NearlySingular,
    Kind::Huge,
    Kind::Tiny,
    Kind::Zeros,
    Kind::Cancelling,
    Kind::Powers,
    Kind::Extreme,
];

#[must_use]
pub fn matrix(kind: Kind, random: &mut Random) -> Words {
    match kind {
        Kind::Whole => whole(random, 4),
        Kind::Special => filled(random, |random| random.pick(&SPECIAL)),
        Kind::Any => filled(random, Random::word),
        Kind::Moderate => filled(random, moderate),
        Kind::Sprinkled => {
            let mut m = filled(random, moderate);
            for _ in 0..=random.below(3) {
                m[random.below(16) as usize] = random.pick(&SPECIAL);
            }
            m
        }
        Kind::NearIdentity => near_identity(random),
        Kind::Rigid => rigid(random),
        Kind::Projection => projection(random),
        Kind::Singular => singular(random),
        Kind::NearlySingular => {
            let mut m = singular(random);
            let at = random.below(16) as usize;
            m[at] = m[at].wrapping_add_signed(random.pick(&[-1, 1]));
            m
        }
        Kind::Huge => filled(random, |random| scaled(random, 120, 127)),
        Kind::Tiny => filled(random, |random| {
            if random.chance(2) {
                random.word() & 0x807F_FFFF
            } else {
                scaled(random, -126, -60)
            }
        }),
        Kind::Zeros => filled(random, |random| {
            random.pick(&[0, 0x8000_0000, 0, 0x8000_0000, 0x3F80_0000, 0xBF80_0000])
        }),
        Kind::Cancelling => cancelling(random),
        Kind::Powers => {
            let scale = random.between(-149, 127);
            let mut m = filled(
                random,
                |random| if random.chance(4) { 0x3F80_0000 } else { 0 },
            );
            for i in 0..4 {
                let exponent = (scale + random.between(-2, 2)).clamp(-149, 127);
                m[5 * i] = exact(1, exponent).unwrap_or(0x3F80_0000);
            }
            m
        }
        Kind::Extreme => {
            let scale = random.pick(&[-40, -38, -37, -36, -35, -32, 30, 31, 32, 33]);
            filled(random, |random| scaled(random, scale - 1, scale + 1))
        }
    }
}

/// Two factors. Of every eight pairs one has a product that cancels entry by entry.
#[must_use]
pub fn factors(kind: Kind, random: &mut Random) -> (Words, Words) {
    if random.chance(8) {
        return cancelling_factors(random);
    }
    let a = matrix(kind, random);
    let other = if random.chance(2) {
        kind
    } else {
        random.pick(&KINDS)
    };
    let b = matrix(other, random);
    if random.chance(2) { (a, b) } else { (b, a) }
}

fn filled(random: &mut Random, entry: impl Fn(&mut Random) -> u32) -> Words {
    core::array::from_fn(|_| entry(random))
}

fn moderate(random: &mut Random) -> u32 {
    scaled(random, -6, 6)
}

fn of(x: f64) -> u32 {
    (x as f32).to_bits()
}

fn whole(random: &mut Random, most: i32) -> Words {
    filled(random, |random| of(f64::from(random.between(-most, most))))
}

fn identity() -> Words {
    let mut m = [0; 16];
    for i in 0..4 {
        m[5 * i] = 0x3F80_0000;
    }
    m
}

fn near_identity(random: &mut Random) -> Words {
    let mut m = identity();
    for _ in 0..random.below(4) {
        let at = random.below(16) as usize;
        m[at] = match random.below(3) {
            0 => random.pick(&SPECIAL),
            1 => moderate(random),
            _ => of(f64::from(random.between(-9, 9))),
        };
    }
    m
}

fn rigid(random: &mut Random) -> Words {
    let angle = f64::from(random.below(1 << 20)) * 1e-5;
    let (sin, cos) = angle.sin_cos();
    let (i, j) = random.pick(&[(0, 1), (1, 2), (2, 0)]);
    let mut m = identity();
    m[5 * i] = of(cos);
    m[5 * j] = of(cos);
    m[4 * i + j] = of(sin);
    m[4 * j + i] = of(-sin);
    for entry in &mut m[12..15] {
        *entry = if random.chance(2) {
            of(f64::from(random.between(-100, 100)))
        } else {
            moderate(random)
        };
    }
    m
}

fn projection(random: &mut Random) -> Words {
    let near = f64::from(random.between(1, 1000)) / 64.0;
    let far = near + f64::from(random.between(1, 100_000)) / 16.0;
    let (w, h) = (
        f64::from(random.between(1, 4000)) / 512.0,
        f64::from(random.between(1, 4000)) / 512.0,
    );
    let depth = far / (far - near);
    let mut m = [0; 16];
    m[0] = of(w);
    m[5] = of(h);
    if random.chance(2) {
        m[10] = of(depth);
        m[11] = of(1.0);
        m[14] = of(-near * depth);
    } else {
        m[10] = of(1.0 / (far - near));
        m[14] = of(-near / (far - near));
        m[15] = of(1.0);
    }
    m
}

fn singular(random: &mut Random) -> Words {
    let mut m = if random.chance(2) {
        whole(random, 9)
    } else {
        filled(random, moderate)
    };
    let i = random.below(4) as usize;
    let j = (i + 1 + random.below(3) as usize) % 4;
    match random.below(4) {
        0 => m.copy_within(4 * i..4 * i + 4, 4 * j),
        1 => m[4 * i..4 * i + 4].fill(random.pick(&[0, 0x8000_0000])),
        2 => {
            for row in 0..4 {
                m[4 * row + i] = 0;
            }
        }
        _ => {
            m = whole(random, 9);
            let by = random.pick(&[-2.0, -1.0, 1.0, 2.0, 0.5]);
            for column in 0..4 {
                let entry = f32::from_bits(m[4 * i + column]) * by;
                m[4 * j + column] = entry.to_bits();
            }
        }
    }
    m
}

/// x, y and the rounded x * y, whose exact product almost never fits a float.
fn rounded_product(random: &mut Random) -> [u32; 3] {
    let x = if random.chance(4) {
        0x3F80_0800
    } else {
        scaled(random, -3, 3)
    };
    let y = scaled(random, -3, 3);
    [x, y, (f32::from_bits(x) * f32::from_bits(y)).to_bits()]
}

/// Blocks [x, x * y; 1, y], whose minors are 0 only without fusing, in the identity.
fn cancelling(random: &mut Random) -> Words {
    let mut m = if random.chance(2) {
        identity()
    } else {
        filled(random, moderate)
    };
    let i = random.below(3) as usize;
    let j = random.below(3) as usize;
    let [x, y, xy] = rounded_product(random);
    m[4 * i + j] = x;
    m[4 * i + j + 1] = xy;
    m[4 * i + j + 4] = 0x3F80_0000;
    m[4 * i + j + 5] = y;
    m
}

/// Row (x, -1, ..) times column (y, x * y, ..), the pair of terms at any two places of the sum.
fn cancelling_factors(random: &mut Random) -> (Words, Words) {
    let rest = random.chance(2);
    let mut a = if rest {
        [0; 16]
    } else {
        filled(random, moderate)
    };
    let mut b = if rest {
        [0; 16]
    } else {
        filled(random, moderate)
    };
    let row = 4 * random.below(4) as usize;
    let column = random.below(4) as usize;
    let i = random.below(4) as usize;
    let j = (i + 1 + random.below(3) as usize) % 4;
    let [x, y, xy] = rounded_product(random);
    a[row + i] = x;
    b[4 * i + column] = y;
    a[row + j] = 0xBF80_0000;
    b[4 * j + column] = xy;
    (a, b)
}
