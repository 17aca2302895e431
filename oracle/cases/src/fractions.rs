//! Steps of binary32 arithmetic in exact fractions. A finite f32 is read by its bits as a whole number of 2^-149; a step's exact
//! answer is a whole number of a smaller unit, and is rounded once. No float of the machine takes part.

use crate::floats::{INFINITY, NAN, SIGN, is_finite, is_nan, is_zero};

/// A whole number of up to 640 binary digits, the lowest first.
struct Whole([u64; 10]);

impl Whole {
    /// n × 2^places.
    fn new(n: u128, places: u32) -> Self {
        let (first, by) = ((places / 64) as usize, places % 64);
        let mut words = [0; 10];
        // Of the shift what the lowest word has no room for goes to the next one.
        for (at, word) in [n as u64, (n >> 64) as u64].into_iter().enumerate() {
            let wide = u128::from(word) << by;
            if wide != 0 {
                words[first + at] |= wide as u64;
                words[first + at + 1] |= (wide >> 64) as u64;
            }
        }
        Self(words)
    }

    fn plus(&self, other: &Self) -> Self {
        let mut carry = false;
        Self(core::array::from_fn(|at| {
            let (sum, above) = self.0[at].overflowing_add(other.0[at]);
            let (sum, again) = sum.overflowing_add(u64::from(carry));
            carry = above || again;
            sum
        }))
    }

    /// How many binary digits it has.
    fn digits(&self) -> u32 {
        let top = self.0.iter().rposition(|&word| word != 0);
        top.map_or(0, |at| 64 * at as u32 + 64 - self.0[at].leading_zeros())
    }

    /// The digits from a place on, of which there are at most 64.
    fn from(&self, place: u32) -> u64 {
        let (at, by) = ((place / 64) as usize, place % 64);
        let word = |at: usize| u128::from(self.0.get(at).copied().unwrap_or(0));
        ((word(at + 1) << 64 | word(at)) >> by) as u64
    }

    fn any_below(&self, place: u32) -> bool {
        let (at, by) = ((place / 64) as usize, place % 64);
        self.0[..at].iter().any(|&word| word != 0) || self.0[at] & ((1 << by) - 1) != 0
    }
}

/// The float nearest to n × 2^-(149 + places), ties to even; where `more` says so, to a number above this one, by so little that
/// its digits are the same down to the first that is dropped. There is a place at least.
fn nearest(n: &Whole, places: u32, more: bool) -> u32 {
    // 24 digits are kept, and none below 2^-149.
    let dropped = n.digits().saturating_sub(24).max(places);
    let kept = n.from(dropped);
    let half = n.from(dropped - 1) & 1 == 1;
    let up = half && (more || n.any_below(dropped - 1) || kept & 1 == 1);
    // A 24th digit counts one into the exponent's field, and so does a carry out of the 24.
    let bits = (u64::from(dropped - places) << 23) + kept + u64::from(up);
    bits.min(u64::from(INFINITY)) as u32
}

/// The magnitude of a finite float: n × 2^places of 2^-149.
fn units(bits: u32) -> (u128, u32) {
    let (exponent, fraction) = ((bits & !SIGN) >> 23, u128::from(bits & 0x007F_FFFF));
    match exponent {
        0 => (fraction, 0),
        _ => (fraction | 0x0080_0000, exponent - 1),
    }
}

/// How many binary digits a finite float has, counted in 2^-149: 0 to 277, and 150 from 1 up to 2.
#[must_use]
pub fn digits(bits: u32) -> u32 {
    let (n, places) = units(bits);
    if n == 0 {
        0
    } else {
        128 - n.leading_zeros() + places
    }
}

/// The place of the lowest digit of a finite float that is not 0, counted in 2^-149.
#[must_use]
pub fn lowest(bits: u32) -> u32 {
    let (n, places) = units(bits);
    n.trailing_zeros() + places
}

/// A finite float times 2^power, which is -127 at least.
#[must_use]
pub fn scaled(x: u32, power: i32) -> u32 {
    const BELOW: u32 = 128;
    let (n, places) = units(x);
    let places = (places + BELOW).wrapping_add_signed(power);
    x & SIGN | nearest(&Whole::new(n, places), BELOW, false)
}

#[must_use]
pub fn square(x: u32) -> u32 {
    if is_nan(x) {
        return NAN;
    }
    if !is_finite(x) {
        return INFINITY;
    }
    let (n, places) = units(x);
    nearest(&Whole::new(n * n, 2 * places), 149, false)
}

/// The sum of two floats above 0 or zeros, the second of them +0.
#[must_use]
pub fn sum(a: u32, b: u32) -> u32 {
    if is_nan(a) || is_nan(b) {
        return NAN;
    }
    if !is_finite(a) || !is_finite(b) {
        return INFINITY;
    }
    let [a, b] = [a, b].map(units).map(|(n, at)| Whole::new(n, at + 1));
    nearest(&a.plus(&b), 1, false)
}

/// The root of a float above 0, or of +0.
#[must_use]
pub fn root(x: u32) -> u32 {
    if is_nan(x) || !is_finite(x) || is_zero(x) {
        return if is_nan(x) { NAN } else { x };
    }
    let (n, places) = units(x);
    // 2^(places - 149) is a square where places is odd; 2^102 is one too, and gives the root 51 digits more.
    let (n, places) = if places % 2 == 1 {
        (n, places + 1)
    } else {
        (2 * n, places)
    };
    let root = (n << 102).isqrt();
    let more = root * root != n << 102;
    // root × 2^(places / 2 - 75 - 51)
    nearest(&Whole::new(root, places / 2 + 24), 1, more)
}

/// A float over one above 0.
#[must_use]
pub fn quotient(x: u32, over: u32) -> u32 {
    let sign = x & SIGN;
    if is_nan(x) || is_nan(over) || !is_finite(x) && !is_finite(over) {
        return NAN;
    }
    if !is_finite(x) {
        return sign | INFINITY;
    }
    if !is_finite(over) {
        return sign;
    }
    let ((n, places), (m, below)) = (units(x), units(over));
    // n / m × 2^(places - below), which has 40 digits or more, or is 0
    let (whole, rest) = ((n << 64) / m, (n << 64) % m);
    sign | nearest(&Whole::new(whole, places + 254 - below), 169, rest != 0)
}
