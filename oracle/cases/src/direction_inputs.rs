//! Directions of lights, made from a seed: of document 02's domain, and outside it. The borders come first.

use crate::answers::Words;
use crate::directions::{Direction, Rule, rule};
use crate::eight::Eight;
use crate::floats::{INFINITY, LARGEST, NAN, NORMAL, ONE, SIGN, SPECIAL, scaled};
use crate::image::SLOTS;
use crate::random::Random;
use crate::seen::{LEAST, PAST};
use crate::states::{LONG, SHORT};

/// The directions of a batch, which are seen through one view: so many refreshes of eight lights.
pub const BATCH: usize = 64 * SLOTS;

const fn diagonal(ones: u32, beside: u32) -> Words {
    let mut m = [beside; 16];
    m[0] = ones;
    m[5] = ones;
    m[10] = ones;
    m[15] = ONE;
    m
}

/// The identity; the same with -0.0 beside its ones, which keeps other zeros' signs; one under which long directions overflow;
/// one under which x is a difference, and may be a NaN.
pub const VIEWS: [Words; 4] = {
    let mut difference = diagonal(ONE, 0);
    difference[0] = PAST;
    difference[4] = PAST | SIGN;
    [
        diagonal(ONE, 0),
        diagonal(ONE, SIGN),
        diagonal(PAST, 0),
        difference,
    ]
};

/// Directions that are the same for every seed, up to signs and the order of their components; those that proofs/Examples of
/// crates/directions computes are among them.
const EDGES: [[u32; 3]; 38] = [
    [0, 0, 0],
    [0, 0, ONE],
    [0, 0, 0x4000_0000],
    [ONE, ONE, ONE],
    // Squares at the least normal float.
    [0, 0, LEAST - 1],
    [0, 0, LEAST],
    [0, 0, LEAST + 1],
    [0, LEAST - 1, ONE],
    [0, LEAST, ONE],
    [LEAST, LEAST + 1, LEAST + 2],
    [LEAST, ONE, PAST - 1],
    // Squares and sums at the largest one: 2^52 more is still finite, 1.5 times that is not.
    [0, 0, PAST - 1],
    [0, 0, PAST],
    [0, 0x5980_0000, PAST - 1],
    [0, 0x59C0_0000, PAST - 1],
    [PAST - 1, PAST - 1, PAST - 1],
    // Quotients at the least normal float: 2^-63 over 2^63.
    [0, LEAST, 0x5F00_0000],
    [0, LEAST + 1, 0x5F00_0000],
    [0, LEAST, 0x5F00_0001],
    [LEAST, LEAST, 0x5F00_0001],
    // Subnormals.
    [0, 0, 1],
    [1, 1, 1],
    [1, 2, 3],
    [0, 1, NORMAL - 1],
    [NORMAL - 1, NORMAL - 1, NORMAL - 1],
    [0, 1, NORMAL],
    // Beside 2^127 a component is scaled by 2^-127: 2^-23 and three times that lie half-way, a little more or less does not.
    [0, 0x3400_0000, 0x7F00_0000],
    [0, 0x34C0_0000, 0x7F00_0000],
    [0x33FF_FFFF, 0x3400_0001, 0x7F00_0000],
    [0, 0x3380_0000, 0x7F00_0000],
    // The largest float.
    [LARGEST, LARGEST, LARGEST],
    [0, 1, LARGEST],
    [0, 0, LONG],
    [0, SHORT, LONG],
    [0x4040_0000, 0x4080_0000, 0x4140_0000],
    [0x3DCC_CCCD, 0x3DCC_CCCD, 0x3ECC_CCCD],
    [ONE, ONE, NAN],
    [ONE, ONE, INFINITY],
];

const ORDERS: [[usize; 3]; 6] = [
    [0, 1, 2],
    [0, 2, 1],
    [1, 0, 2],
    [1, 2, 0],
    [2, 0, 1],
    [2, 1, 0],
];

/// The edges in every order, with every sign.
#[must_use]
pub fn edges() -> Vec<Direction> {
    let all = EDGES
        .into_iter()
        .flat_map(|d| ORDERS.map(|order| order.map(|at| d[at])))
        .flat_map(|d| (0..8).map(move |signs| core::array::from_fn(|i| d[i] ^ (signs >> i << 31))))
        .collect();
    filled(all)
}

/// The directions of a batch, as they are seen through the view that is set: all of the domain, or as many that the definition
/// rules, with the NaNs and infinities that were drawn between them.
#[must_use]
pub fn batch(seed: u64, number: u64, inside: bool, eight: &Eight) -> Vec<Direction> {
    let mut random = Random::of_input(seed ^ 0x6469_7265, 2 * number + u64::from(inside));
    let (draw, wanted): (fn(&mut Random) -> Direction, Rule) = if inside {
        (of_domain, Rule::Rust)
    } else {
        (any, Rule::Definition)
    };
    let mut directions = Vec::with_capacity(BATCH);
    let mut found = 0;
    while found < BATCH {
        let d = turned(draw(&mut random), &mut random);
        let rule = rule(eight.in_view(d));
        found += usize::from(rule == wanted);
        if rule == wanted || !inside && rule == Rule::AsBefore {
            directions.push(d);
        }
    }
    filled(directions)
}

/// With some of them once more, so that each refresh has eight.
fn filled(mut directions: Vec<Direction>) -> Vec<Direction> {
    let lacking = directions.len().next_multiple_of(SLOTS) - directions.len();
    directions.extend_from_within(..lacking);
    directions
}

/// In another order and with other signs.
fn turned(d: Direction, random: &mut Random) -> Direction {
    let order = random.pick(&ORDERS);
    let signs = random.word();
    core::array::from_fn(|i| d[order[i]] ^ (signs << i & SIGN))
}

/// Three of about one size, of which the largest has the exponent.
fn of_one_size(random: &mut Random, exponent: i32, least: i32) -> Direction {
    core::array::from_fn(|_| scaled(random, least.max(exponent - 13), exponent))
}

/// A float a few places from this one.
fn beside(random: &mut Random, x: f64) -> u32 {
    (x as f32)
        .to_bits()
        .wrapping_add_signed(random.between(-3, 3))
}

/// The sum of squares is about 2^128.
fn full(random: &mut Random) -> Direction {
    let [x, y] = [(); 2].map(|()| scaled(random, 50, 63));
    let [a, b] = [x, y].map(|bits| f64::from(f32::from_bits(bits)));
    let rest = 2f64.powi(128) - a * a - b * b;
    [x, y, beside(random, rest.max(0.0).sqrt())]
}

/// A quotient is about 2^-126.
fn far(random: &mut Random) -> Direction {
    let x = scaled(random, 62, 63);
    let y = random.pick(&[0, x, LEAST]);
    let [a, b] = [x, y].map(|bits| f64::from(f32::from_bits(bits)));
    [x, y, beside(random, a.hypot(b) * 2f64.powi(-126))]
}

/// Mostly of the domain.
fn of_domain(random: &mut Random) -> Direction {
    let mut d = match random.below(8) {
        0..4 => {
            let exponent = random.between(-60, 63);
            of_one_size(random, exponent, -63)
        }
        4 => core::array::from_fn(|_| scaled(random, -63, 63)),
        5 => {
            let x = LEAST + random.below(4);
            let [y, z, _] = of_one_size(random, -60, -63);
            [x, y, random.pick(&[z, LEAST, ONE])]
        }
        6 => full(random),
        _ => far(random),
    };
    if random.chance(4) {
        d[0] = 0;
    }
    if random.chance(8) {
        d[1] = 0;
    }
    d
}

/// Of any kind.
fn any(random: &mut Random) -> Direction {
    let mut d = match random.below(12) {
        0 => core::array::from_fn(|_| random.word()),
        1 | 2 => {
            let exponent = random.between(64, 127);
            of_one_size(random, exponent, 0)
        }
        3 | 4 => {
            let exponent = random.between(-126, -64);
            of_one_size(random, exponent, -126)
        }
        5 => core::array::from_fn(|_| (random.word() & 0x007F_FFFF) >> random.below(24)),
        // Small ones beside a large one: the scaling rounds them.
        6..9 => {
            let exponent = random.between(20, 127);
            let small = |random: &mut Random| {
                let below = random.between(exponent - 152, exponent - 124);
                let digits = u32::MAX << random.below(24);
                scaled(random, below.max(-126), below.max(-126)) & digits
            };
            [
                scaled(random, exponent, exponent),
                small(random),
                small(random),
            ]
        }
        9 => core::array::from_fn(|_| random.pick(&SPECIAL)),
        10 => {
            let x = LEAST - 1 - random.below(3);
            let y = scaled(random, -63, 63);
            [x, y, random.pick(&[0, y, ONE])]
        }
        _ => {
            if random.chance(2) {
                full(random)
            } else {
                far(random)
            }
        }
    };
    if random.chance(4) {
        d[1] = 0;
    }
    if random.chance(8) {
        d[2] = 0;
    }
    d
}
