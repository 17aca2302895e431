//! Prints the rows that the Rust packs of one scene, a row a line, as bits: what proofs/Scene of crates/rows and crates/light_rows
//! expects, in that order. Its inputs are small whole numbers that differ, so that no two can be exchanged unseen; then come two lights that
//! tell the orders of the sums. Last are the directions of proofs/Examples of crates/directions, each with what it packs: the
//! first three by the Rust, the others in exact fractions.

use cases::answers::Words;
use cases::call::{Call, Name};
use cases::directions::{Direction, rust_rules, unit};
use cases::eight::Eight;
use cases::floats::{INFINITY, LARGEST, NAN, ONE, SIGN};
use cases::image::number32;
use cases::key::Key;
use cases::model::Output;
use cases::states::{
    LONG, SHORT, enable, set_light, set_material, set_texture_mask, set_transform, set_value,
};
use cases::world::World;

const WORLD: [f32; 16] = [
    1.0, 2.0, 3.0, 4.0, 5.0, 6.0, 7.0, 8.0, 9.0, 10.0, 11.0, 12.0, 13.0, 14.0, 15.0, 16.0,
];
const SECOND_WORLD: [f32; 16] = [
    2.0, 0.0, 1.0, 3.0, 1.0, 5.0, 0.0, 2.0, 0.0, 7.0, 4.0, 1.0, 3.0, 1.0, 6.0, 0.0,
];
const VIEW: [f32; 16] = [
    0.0, 1.0, 0.0, 2.0, 3.0, 0.0, 1.0, 0.0, 0.0, 2.0, 0.0, 1.0, 5.0, 6.0, 7.0, 1.0,
];
const PROJECTION: [f32; 16] = [
    2.0, 3.0, 5.0, 7.0, 11.0, 13.0, 17.0, 19.0, 23.0, 29.0, 31.0, 37.0, 41.0, 43.0, 47.0, 53.0,
];
/// 2^24 swallows a 1 that is added to it.
const SWALLOWING: [f32; 16] = {
    const BIG: f32 = 16_777_216.0;
    [
        BIG, BIG, 1.0, 0.0, 1.0, 1.0, 0.0, 0.0, -BIG, 0.0, 0.0, 0.0, 5.0, -BIG, 0.0, 1.0,
    ]
};

/// Directions of document 02's domain: 3, 4, 12; P11; 0.1, 0.1, 0.4.
const BY_THE_RUST: [Direction; 3] = [
    [0x4040_0000, 0x4080_0000, 0x4140_0000],
    [0, 0, 0x4000_0000],
    [0x3DCC_CCCD, 0x3DCC_CCCD, 0x3ECC_CCCD],
];
/// Others, as they are seen: a -0.0 beside a positive component, or an infinity beside a finite one, takes another view than the
/// identity.
const IN_FRACTIONS: [Direction; 8] = [
    [LONG, 0, 0],
    [0, LONG | SIGN, 0],
    [0, 0, 1],
    [LONG, SHORT, 0],
    [1, SIGN, LARGEST],
    [0, SIGN, 0],
    [NAN, ONE, ONE],
    [INFINITY, ONE, ONE | SIGN],
];

fn print_direction(d: Direction, packed: Direction) {
    let words = d.into_iter().chain(packed).map(|word| match word {
        0 => " 0".to_string(),
        _ => format!(" 0x{word:08x}"),
    });
    println!("case{}", words.collect::<String>());
}

/// Lit by one light, in linear fog.
const LIT: Key = Key::of([0, 1, 1, 0, 0, 1, 3, 2]);

/// A spot light of 25 different numbers.
fn spot() -> [u32; 26] {
    let mut light = [0; 26];
    for (at, word) in light.iter_mut().enumerate().skip(1) {
        *word = (at as f32).to_bits();
    }
    light[0] = 2;
    light[24] = 0.5f32.to_bits();
    light[25] = 0.75f32.to_bits();
    light
}

/// A directional light of zeros but for these.
fn directional(position: [f32; 3], direction: [f32; 3]) -> [u32; 26] {
    let mut light = [0; 26];
    light[0] = 3;
    for axis in 0..3 {
        light[13 + axis] = position[axis].to_bits();
        light[16 + axis] = direction[axis].to_bits();
    }
    light
}

fn words(m: [f32; 16]) -> Words {
    m.map(f32::to_bits)
}

/// The rows of a section, by their bits.
fn packed(calls: &[Call], name: Name, key: Key) -> Vec<[u32; 4]> {
    let packed = World::after(calls)
        .judge(&Call::keyed(name, key), None)
        .answer;
    let Ok(Output::Bytes(bytes)) = packed else {
        panic!("refused");
    };
    let rows = bytes.as_chunks::<16>().0.iter();
    rows.map(|row| core::array::from_fn(|i| number32(row, 4 * i)))
        .collect()
}

/// Prints some rows of a section.
fn print(calls: &[Call], name: Name, rows: std::ops::Range<usize>) {
    for row in &packed(calls, name, LIT)[rows] {
        let row = row.map(|bits| format!("0x{bits:08X}"));
        println!("{}", row.join(" "));
    }
}

/// What proofs/Scene of crates/rows computes of T-05 beside the rows that are printed: mode 0, and other modes than the key's;
/// the texture matrices of the stages whose bits are set.
fn check(calls: &[Call]) {
    let fog = |fog_mode| packed(calls, Name::FillFog, Key { fog_mode, ..LIT });
    assert_eq!(fog(0), [[0; 4]]);
    for mode in [1, 255] {
        assert_eq!(fog(mode), fog(LIT.fog_mode));
    }
    let textures = packed(calls, Name::FillTt, LIT);
    let projection = packed(calls, Name::FillProj, LIT);
    assert_eq!(textures.len(), 12);
    assert!(textures[..4] == projection && textures[8..] == projection);
}

fn main() {
    let material = (1..=17).flat_map(|n| (n as f32).to_le_bytes()).collect();
    let calls = [
        set_transform(256, &words(WORLD)),
        set_transform(257, &words(SECOND_WORLD)),
        set_transform(2, &words(VIEW)),
        set_transform(3, &words(PROJECTION)),
        set_material(material),
        set_light(0, &spot()),
        enable(0, 1),
        // The second stage's bit is clear.
        set_transform(16, &words(PROJECTION)),
        set_transform(17, &words(WORLD)),
        set_transform(18, &words(PROJECTION)),
        set_transform(19, &words(VIEW)),
        set_texture_mask(5),
        set_value(Name::SetFogStart, 2f32.to_bits()),
        set_value(Name::SetFogEnd, 3f32.to_bits()),
        set_value(Name::SetFogDensity, 5f32.to_bits()),
        set_value(Name::SetAmbient, 0xFF80_4020),
    ];
    check(&calls);
    print(&calls, Name::FillProj, 0..4);
    print(&calls, Name::FillWv, 0..4);
    print(&calls, Name::FillPalette, 4..8);
    print(&calls, Name::FillTt, 4..8);
    print(&calls, Name::FillFog, 0..1);
    print(&calls, Name::FillMaterial, 0..5);
    print(&calls, Name::FillAmbient, 0..1);
    print(&calls, Name::FillLights, 0..6);
    let ordered = |view: [f32; 16], position, direction| {
        let calls = [
            set_transform(2, &words(view)),
            set_light(0, &directional(position, direction)),
            enable(0, 1),
        ];
        print(&calls, Name::FillLights, 0..2);
    };
    let mut identity = [0.0; 16];
    for i in 0..4 {
        identity[5 * i] = 1.0;
    }
    ordered(identity, [0.0; 3], [0.1, 0.1, 0.4]);
    ordered(SWALLOWING, [1.0; 3], [1.0; 3]);

    for direction in BY_THE_RUST {
        let mut eight = Eight::default();
        assert!(rust_rules(direction) && eight.in_view(direction) == direction);
        let [x, y, z, _] = eight.rows(&[direction; 8])[0][1];
        print_direction(direction, [x, y, z]);
    }
    for direction in IN_FRACTIONS {
        print_direction(direction, unit(direction));
    }
}
