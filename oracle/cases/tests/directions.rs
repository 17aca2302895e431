//! Document 02's T-04: the steps in exact fractions beside the machine's, and what directions pack.

use cases::call::{Call, Name};
use cases::directions::{Direction, Rule, rule, unit};
use cases::eight::Eight;
use cases::floats::{INFINITY, LARGEST, NAN, NORMAL, ONE, SIGN, SPECIAL, scaled, with_one_nan};
use cases::fractions;
use cases::key::Key;
use cases::model::Output;
use cases::random::Random;
use cases::seen::{LEAST, PAST};
use cases::states::{LONG, SHORT, directed, enable, set_light};
use cases::world::World;

/// What the model of the host packs of a light's direction: by the call that fills the section, and by a refresh.
fn packed(direction: Direction) -> Direction {
    let light = directed(3, direction);
    let mut world = World::after(&[set_light(0, &light), enable(0, 1)]);
    let mut rows = |name: Name| {
        let key = Key {
            light_active_mask: 1,
            ..Key::default()
        };
        match world.judge(&Call::keyed(name, key), None).answer {
            Ok(Output::Bytes(bytes)) => bytes,
            Ok(Output::Refreshed(_, mirror)) => mirror[15 * 16..].to_vec(),
            other => panic!("{other:?}"),
        }
    };
    let filled = rows(Name::FillLights);
    assert_eq!(rows(Name::Refresh)[..filled.len()], filled);
    let fours = filled[16..].as_chunks().0;
    core::array::from_fn(|i| u32::from_le_bytes(fours[i]))
}

/// What the unchanged Rust packs.
fn by_the_rust(direction: Direction) -> Direction {
    let rows = Eight::default().rows(&[direction; 8]);
    let [x, y, z, _] = rows[0][1];
    [x, y, z]
}

/// Each axis, with either sign.
fn axes(magnitude: u32) -> impl Iterator<Item = (usize, u32, Direction)> {
    (0..6).map(move |at| {
        let (axis, sign) = (at % 3, (at as u32 / 3) << 31);
        let mut direction = [0; 3];
        direction[axis] = magnitude | sign;
        (axis, sign, direction)
    })
}

/// Document 01's run-only case: "Document 01's 1e20 case now packs 1 on its axis." In the Rust the square overflows.
#[test]
fn a_direction_of_1e20_packs_1_where_the_rust_packs_zeros() {
    for (axis, sign, direction) in axes(LONG) {
        let mut expected = [0; 3];
        expected[axis] = sign;
        assert_eq!(by_the_rust(direction), expected);
        expected[axis] = ONE | sign;
        assert_eq!(packed(direction), expected);
    }
}

#[test]
fn the_least_direction_packs_1() {
    for (axis, sign, direction) in axes(1) {
        assert_eq!(by_the_rust(direction), [0; 3]);
        let mut expected = [0; 3];
        expected[axis] = ONE | sign;
        assert_eq!(packed(direction), expected);
    }
}

/// A small component beside a large one is rounded once, when it is scaled.
#[test]
fn a_long_direction_with_a_short_component() {
    assert_eq!(packed([LONG, SHORT, 0]), [ONE, 0x0001_16C2, 0]);
    assert_eq!(packed([1, 0, LARGEST]), [0, 0, ONE]);
    // A model's view has +0.0 beside its ones, so that -0.0 is kept beside a negative component alone.
    let [x, y, z] = [1 | SIGN, SIGN, LARGEST | SIGN];
    assert_eq!(packed([x, y, z]), [SIGN, SIGN, ONE | SIGN]);
}

#[test]
fn what_stays() {
    // P11.
    assert_eq!(packed([0, 0, 0x4000_0000]), [0, 0, ONE]);
    for direction in [
        [0, 0, 0x4000_0000],
        [0x4040_0000, 0x4080_0000, 0x4140_0000],
        [0, SIGN, 0],
        [NAN, ONE, ONE],
        [INFINITY, ONE, ONE | SIGN],
    ] {
        assert_eq!(packed(direction), by_the_rust(direction));
    }
    assert_eq!(unit([0, SIGN, 0]), [0; 3]);
    assert_eq!(unit([NAN, ONE, ONE]), [0; 3]);
    assert_eq!(unit([INFINITY, ONE, ONE | SIGN]), [NAN, 0, SIGN]);
}

/// The borders of the domain: squares, the sum, quotients.
#[test]
fn where_the_rust_rules() {
    let inside = [
        [0, SIGN, 0],
        [0, 0, LEAST],
        [0, 0, PAST - 1],
        [0, 0x5980_0000, PAST - 1],
        [0, LEAST, 0x5F00_0000],
    ];
    let outside = [
        [0, 0, LEAST - 1],
        [0, 0, PAST],
        [0, 0x59C0_0000, PAST - 1],
        [0, LEAST, 0x5F00_0001],
        [0, 1, ONE],
    ];
    for direction in inside {
        assert_eq!(rule(direction), Rule::Rust);
    }
    for direction in outside {
        assert_eq!(rule(direction), Rule::Definition);
    }
    for special in [NAN, INFINITY, INFINITY | SIGN] {
        assert_eq!(rule([ONE, special, 0]), Rule::AsBefore);
    }
}

fn float(bits: u32) -> f32 {
    f32::from_bits(bits)
}

/// Floats of every kind, mostly of about one size, so that sums and quotients are rounded.
fn pairs() -> impl Iterator<Item = (u32, u32)> {
    let special = SPECIAL.into_iter().flat_map(|x| SPECIAL.map(|y| (x, y)));
    let mut random = Random::new(4);
    let drawn = (0..2_000_000).map(move |at| {
        let x = match at % 4 {
            0 => random.word(),
            1 => random.word() & 0x007F_FFFF,
            2 => scaled(&mut random, -76, 64),
            _ => scaled(&mut random, -126, 127),
        };
        let near = (x >> 23 & 0xFF) as i32 - 127;
        let low = (near - 26).clamp(-126, 127);
        let y = match at % 3 {
            0 => random.word(),
            _ => scaled(&mut random, low, (near + 26).clamp(low, 127)),
        };
        (x, y)
    });
    special.chain(drawn)
}

#[test]
fn the_steps_are_the_machines() {
    let machine = |float: f32| with_one_nan(float.to_bits());
    for (x, y) in pairs() {
        assert_eq!(fractions::square(x), machine(float(x) * float(x)), "{x:x}");
        let (a, b) = (x & !SIGN, y & !SIGN);
        assert_eq!(
            fractions::sum(a, b),
            machine(float(a) + float(b)),
            "{a:x} + {b:x}"
        );
        assert_eq!(fractions::root(a), machine(float(a).sqrt()), "{a:x}");
        if b != 0 {
            let quotient = machine(float(x) / float(b));
            assert_eq!(fractions::quotient(x, b), quotient, "{x:x} / {b:x}");
        }
        // Scaling down by a power of two that is a float is one product.
        let power = -((y % 127) as i32);
        if float(x).is_finite() {
            let product = machine(float(x) * 2f32.powi(power));
            assert_eq!(fractions::scaled(x, power), product, "{x:x} × 2^{power}");
        }
    }
    assert_eq!(fractions::scaled(ONE, -127), NORMAL / 2);
    assert_eq!(fractions::scaled(1, 149), ONE);
    assert_eq!(fractions::sum(SIGN, 0), 0);
}
