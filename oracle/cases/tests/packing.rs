//! The model's rows beside document 01's cases.

use cases::call::{Call, Length, NAMES, Name};
use cases::key::Key;
use cases::model::Output;
use cases::section::Section;
use cases::states::{directed, enable, set_light, set_transform};
use cases::world::World;

/// The answer to a packing call on the state that the calls leave.
fn pack(calls: &[Call], name: Name, key: Key) -> Result<Output, u32> {
    let call = Call::keyed(name, key);
    World::after(calls).judge(&call, None).answer
}

/// The rows of a section, as floats.
fn rows(calls: &[Call], name: Name, key: Key) -> Vec<[f32; 4]> {
    let Ok(Output::Bytes(bytes)) = pack(calls, name, key) else {
        panic!("refused");
    };
    let floats = bytes
        .as_chunks()
        .0
        .iter()
        .map(|&four| f32::from_le_bytes(four));
    let floats: Vec<f32> = floats.collect();
    floats.as_chunks().0.to_vec()
}

const KEY: Key = Key::of([0; 8]);
const LIT: Key = Key {
    lighting_enabled: 1,
    ..KEY
};
const ONE_LIGHT: Key = Key {
    light_active_mask: 1,
    ..KEY
};

#[test]
fn p1_to_p6_row_counts() {
    let counts = [
        (KEY, 11),
        (LIT, 14),
        (
            Key {
                specular_enable: 1,
                ..LIT
            },
            15,
        ),
        (
            Key {
                light_active_mask: 1,
                ..LIT
            },
            21,
        ),
        (
            Key {
                light_active_mask: 0xFF,
                ..LIT
            },
            63,
        ),
        (
            Key {
                vertex_blend_indexed: 1,
                vertex_blend_count: 1,
                ..KEY
            },
            255,
        ),
        (
            Key {
                vertex_blend_count: 255,
                ..KEY
            },
            1115,
        ),
        (Key { has_rhw: 1, ..KEY }, 1),
    ];
    for (key, count) in counts {
        assert_eq!(
            pack(&[], Name::RowCount, key),
            Ok(Output::Number(count)),
            "{key:?}"
        );
    }
}

#[test]
fn p10_a_moved_world() {
    let mut m = [0; 16];
    for i in 0..4 {
        m[5 * i] = 1f32.to_bits();
    }
    m[12..15].copy_from_slice(&[5f32, 6.0, 7.0].map(f32::to_bits));
    let wv = rows(&[set_transform(256, &m)], Name::FillWv, KEY);
    assert_eq!(wv[0], [1.0, 0.0, 0.0, 5.0]);
    assert_eq!(wv[3], [0.0, 0.0, 0.0, 1.0]);
}

fn enabled(light: [u32; 26]) -> [Call; 2] {
    [set_light(0, &light), enable(0, 1)]
}

#[test]
fn p11_a_direction_and_p12_a_spot() {
    let lit = enabled(directed(3, [0, 0, 2f32.to_bits()]));
    let lights = rows(&lit, Name::FillLights, ONE_LIGHT);
    assert_eq!(lights[0][3], 3.0);
    assert_eq!(lights[1], [0.0, 0.0, 1.0, 1e-6]);

    let spot = enabled(directed(2, [0; 3]));
    let lights = rows(&spot, Name::FillLights, ONE_LIGHT);
    assert_eq!(lights[0][3], 2.0);
    assert_eq!(lights[3][3], -1_000_000.0);
    assert_eq!(lights[5][3], 1_000_000.0);
}

/// 4 goes before 5, 5 is an exact comparison, and a mask of 0 is never refused 5.
#[test]
fn refusals_of_packing() {
    let mut world = World::after(&[0, 1, 9].map(|index| enable(index, 1)));
    let mut lights = |mask: u8, lent: Length| {
        let key = Key {
            light_active_mask: mask,
            has_rhw: 1,
            ..KEY
        };
        let call = Call {
            lent,
            ..Call::keyed(Name::FillLights, key)
        };
        world.judge(&call, None).answer.map(|_| ())
    };
    for mask in 1..=255 {
        let expected = if mask == 7 { Ok(()) } else { Err(5) };
        assert_eq!(lights(mask, Length::Right), expected);
        assert_eq!(lights(mask, Length::Bytes(0)), Err(4));
    }
    assert_eq!(lights(0, Length::Right), Ok(()));
    assert_eq!(lights(0, Length::Bytes(96)), Err(4));
    for &name in NAMES.iter().filter(|name| name.takes_key()) {
        let judged = world.judge(&Call::plain(name), Some(&[]));
        assert_eq!(judged.answer, Err(9));
    }
    assert_eq!(Section::Tt.rows(LIT, 0), 0);
}
