//! Directions in view space: who rules each, and the borders that it stands at.

use crate::directions::{Direction, Rule, Steps, rule, scaled, steps};
use crate::floats::{INFINITY, LARGEST, NORMAL, SIGN, is_finite, is_nan, is_zero};
use crate::fractions::{digits, lowest};

pub struct Seen {
    pub direction: Direction,
    pub rule: Rule,
    /// Document 01's steps of the direction as it stands.
    steps: Steps,
}

impl Seen {
    #[must_use]
    pub fn new(direction: Direction) -> Self {
        Self {
            direction,
            rule: rule(direction),
            steps: steps(direction),
        }
    }

    fn has(&self, magnitude: u32) -> bool {
        self.direction.iter().any(|x| x & !SIGN == magnitude)
    }

    fn packs(&self, magnitude: u32) -> bool {
        self.steps.unit.iter().any(|x| x & !SIGN == magnitude)
    }

    fn zeros(&self) -> usize {
        self.direction.into_iter().filter(|&x| is_zero(x)).count()
    }

    fn signed(&self, zero: u32) -> bool {
        self.zeros() < 3 && self.direction.contains(&zero)
    }

    /// Whether the components at these places grow in magnitude.
    fn grows(&self, [a, b, c]: [usize; 3]) -> bool {
        let m = self.direction.map(|x| x & !SIGN);
        m[a] < m[b] && m[b] < m[c]
    }

    /// Whether a component other than a zero has its lowest digit as many places below 2^-149 as is said, once it is scaled.
    fn falls(&self, below: impl Fn(i32) -> bool) -> bool {
        let largest = self.direction.map(digits).into_iter().max().unwrap_or(0);
        let power = 150 - largest as i32;
        self.direction
            .into_iter()
            .any(|x| !is_zero(x) && below(-(lowest(x) as i32 + power)))
    }

    fn vanishes(&self) -> bool {
        let scaled = scaled(self.direction);
        (0..3).any(|i| !is_zero(self.direction[i]) && is_zero(scaled[i]))
    }
}

/// A border, and whether a direction stands at it.
pub struct Border {
    pub words: &'static str,
    pub met: fn(&Seen) -> bool,
}

macro_rules! borders {
    ($name:ident { $($words:literal, $met:expr;)* }) => {
        pub const $name: &[Border] = &[$(Border { words: $words, met: $met },)*];
    };
}

/// 2^-63, the least magnitude whose square is normal, and 2^64, whose square overflows.
pub const LEAST: u32 = 0x2000_0000;
pub const PAST: u32 = 0x5F80_0000;

// Those of the domain.
borders!(INSIDE {
    "a component of 2^-63", |seen| seen.has(LEAST);
    "one just above 2^-63", |seen| seen.has(LEAST + 1);
    "one just below 2^64", |seen| seen.has(PAST - 1);
    "the sum of squares is the largest float", |seen| seen.steps.sum == LARGEST;
    "a quotient of 2^-126", |seen| seen.packs(NORMAL);
    "one just above 2^-126", |seen| seen.packs(NORMAL + 1);
    "0 beside others", |seen| seen.signed(0);
    "-0 beside others", |seen| seen.signed(SIGN);
    "one component alone", |seen| seen.zeros() == 2;
    "none but zeros", |seen| seen.zeros() == 3;
    "x < y < z", |seen| seen.grows([0, 1, 2]);
    "x < z < y", |seen| seen.grows([0, 2, 1]);
    "y < x < z", |seen| seen.grows([1, 0, 2]);
    "y < z < x", |seen| seen.grows([1, 2, 0]);
    "z < x < y", |seen| seen.grows([2, 0, 1]);
    "z < y < x", |seen| seen.grows([2, 1, 0]);
});

// Those outside it where the definition rules.
borders!(OUTSIDE {
    "a component just below 2^-63", |seen| seen.has(LEAST - 1);
    "one of 2^64", |seen| seen.has(PAST);
    "the sum of squares overflows, no square does", |seen| {
        seen.steps.sum == INFINITY && seen.steps.squares.into_iter().all(is_finite)
    };
    "a quotient just below 2^-126", |seen| seen.packs(NORMAL - 1);
    "none but subnormals", |seen| seen.direction.iter().all(|x| x & INFINITY == 0);
    "2^-149 alone", |seen| seen.has(1) && seen.zeros() == 2;
    "the largest float beside 2^-149", |seen| seen.has(LARGEST) && seen.has(1);
    "three of the largest float", |seen| seen.direction.iter().all(|x| x & !SIGN == LARGEST);
    "the scaling is exact", |seen| !seen.falls(|below| below > 0);
    "it rounds a component", |seen| seen.falls(|below| below > 0);
    "one that lies half-way", |seen| seen.falls(|below| below == 1);
    "it makes one 0", Seen::vanishes;
    "-0 beside others", |seen| seen.signed(SIGN);
});

// Those with a NaN or an infinity.
borders!(AS_BEFORE {
    "one NaN", |seen| seen.direction.into_iter().filter(|&x| is_nan(x)).count() == 1;
    "three NaNs", |seen| seen.direction.into_iter().all(is_nan);
    "an infinity and no NaN", |seen| !seen.direction.into_iter().any(is_nan) && seen.has(INFINITY);
    "-infinity", |seen| seen.direction.contains(&(INFINITY | SIGN));
    "an infinity beside a NaN", |seen| seen.direction.into_iter().any(is_nan) && seen.has(INFINITY);
});
