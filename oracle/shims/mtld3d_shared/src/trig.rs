//! Document 01's stand-in for the cosine ("The arithmetic underneath"). The body of the
//! original's cosine is not among the published files; both sides use this one.

const TURN: f32 = f32::from_bits(0x40C9_0FDB);
const HALF_TURN: f32 = f32::from_bits(0x4049_0FDB);
const QUARTER_TURN: f32 = f32::from_bits(0x3FC9_0FDB);

/// The cosine of an angle in radians; NaN where the angle is not finite.
#[must_use]
pub fn cos(x: f32) -> f32 {
    if !x.is_finite() {
        return f32::NAN;
    }
    let y = x.abs();
    let mut r = y % TURN;
    if r > HALF_TURN {
        r = TURN - r;
    }
    if r > QUARTER_TURN {
        -polynomial(HALF_TURN - r)
    } else {
        polynomial(r)
    }
}

/// 1 + u(-1/2 + u(1/24 + u(-1/720 + u(1/40320)))) with u = t * t, innermost first.
///
/// One binding a step, so that each step is seen to be rounded once.
fn polynomial(t: f32) -> f32 {
    let u = t * t;
    let eighth = 1.0 / 40320.0;
    let sixth = -1.0 / 720.0;
    let fourth = 1.0 / 24.0;
    let second = -1.0 / 2.0;
    let p = u * eighth;
    let p = sixth + p;
    let p = u * p;
    let p = fourth + p;
    let p = u * p;
    let p = second + p;
    let p = u * p;
    1.0 + p
}
