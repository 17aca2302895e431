//! Document 02's T-05 on the model: fog, the ambient colour and the texture mask. The values expected are the paper's own, or
//! follow from it by whole numbers.

use cases::call::{Call, Length, Name};
use cases::damage::Damage;
use cases::image;
use cases::key::Key;
use cases::model::Output;
use cases::section::{EIGHT_BITS, MIRROR, ROW, Section};
use cases::states::{mark, refresh, set_texture_mask, set_transform, set_value};
use cases::world::{Judged, World};

const KEY: Key = Key::of([0; 8]);
const LIT: Key = Key {
    lighting_enabled: 1,
    ..KEY
};
const FOG: [Name; 3] = [Name::SetFogStart, Name::SetFogEnd, Name::SetFogDensity];
const START: u32 = 0x4000_0000;
const END: u32 = 0x4040_0000;
const DENSITY: u32 = 0x40A0_0000;
const COLOR: u32 = 0xFF80_4020;

const fn in_fog(fog_mode: u8) -> Key {
    Key { fog_mode, ..KEY }
}

/// Fog 2, 3, 5, the paper's colour, and a texture mask.
fn smoke(mask: u8) -> World {
    let mut calls: Vec<Call> = FOG
        .into_iter()
        .zip([START, END, DENSITY])
        .map(|(name, bits)| set_value(name, bits))
        .collect();
    calls.push(set_value(Name::SetAmbient, COLOR));
    calls.push(set_texture_mask(mask));
    World::after(&calls)
}

fn ask(world: &mut World, call: &Call) -> Judged {
    world.judge(call, None)
}

fn number(world: &mut World, call: &Call) -> u32 {
    match ask(world, call).answer {
        Ok(Output::Number(number)) => number,
        other => panic!("{other:?}"),
    }
}

fn rows(world: &mut World, name: Name, key: Key) -> Vec<[u32; 4]> {
    let Ok(Output::Bytes(bytes)) = ask(world, &Call::keyed(name, key)).answer else {
        panic!("refused");
    };
    let rows = bytes.chunks(ROW);
    rows.map(|row| core::array::from_fn(|i| image::number32(row, 4 * i)))
        .collect()
}

fn bits(judged: &Judged) -> u32 {
    match judged.answer {
        Ok(Output::Refreshed(bits, _)) => bits,
        _ => panic!("refused {}", judged.status()),
    }
}

/// "fog's dirty FOG, the colour's AMBIENT", "the mask's setter dirties TT"; an equal value too.
#[test]
fn each_setter_dirties_its_section() {
    let mut world = smoke(5);
    let take = Call::plain(Name::TakeFfVsDirty);
    assert_eq!(number(&mut world, &take), 255);
    let setters = [
        (set_value(FOG[0], START), 64),
        (set_value(FOG[1], 7), 64),
        (set_value(FOG[2], DENSITY), 64),
        (set_value(Name::SetAmbient, COLOR), 128),
        (set_texture_mask(5), 32),
        (set_texture_mask(0), 32),
        (set_texture_mask(0), 32),
    ];
    for (call, dirty) in setters {
        assert_eq!(ask(&mut world, &call).status(), 0);
        assert_eq!(number(&mut world, &take), dirty, "{call}");
    }
}

/// "three floats, colour u32, mask u32"; a NaN of any pattern is written as one.
#[test]
fn the_tail_of_an_image() {
    let mut world = smoke(0x85);
    let tail = |world: &World| -> Vec<u32> {
        let places = (24_204..24_224).step_by(4);
        places
            .map(|at| image::number32(world.image(), at))
            .collect()
    };
    assert_eq!(tail(&world), [START, END, DENSITY, COLOR, 0x85]);
    ask(&mut world, &set_value(Name::SetFogEnd, 0xFF80_0001));
    ask(&mut world, &set_value(Name::SetAmbient, 0xFF80_0001));
    assert_eq!(
        tail(&world),
        [START, 0x7FC0_0000, DENSITY, 0xFF80_0001, 0x85]
    );
    assert!(world.reads_as_written());
}

/// A setter on bytes that are no image is refused 9, and one on another image reads it in first.
#[test]
fn setters_on_other_images() {
    let names = [
        FOG[0],
        FOG[1],
        FOG[2],
        Name::SetAmbient,
        Name::SetTextureMask,
    ];
    for name in names {
        let mut world = smoke(1);
        let before = world.image().to_vec();
        let call = set_value(name, 3);
        let old = &before[..24_204];
        let mut masked = before.clone();
        Damage::word(24_220, 256).apply(&mut masked);
        for image in [&[][..], old, &masked] {
            assert_eq!(world.judge(&call, Some(image)).status(), 9, "{call}");
            assert!(world.image() == before);
        }
        let mut other = before.clone();
        Damage::word(24_220, 255).apply(&mut other);
        assert_eq!(world.judge(&call, Some(&other)).status(), 0);
        let expected = if name == Name::SetTextureMask { 3 } else { 255 };
        assert_eq!(image::number32(world.image(), 24_220), expected);
    }
}

/// "any dirty byte is read", "mark refuses above 255".
#[test]
fn eight_bits() {
    for dirty in 0..=255 {
        let mut image = smoke(0).image().to_vec();
        image[17_926] = dirty;
        let take = Call::plain(Name::TakeFfVsDirty);
        let judged = World::fresh().judge(&take, Some(&image));
        assert_eq!(judged.answer, Ok(Output::Number(dirty.into())));
    }
    let mut world = World::fresh();
    for number in [0, 63, 64, 255] {
        assert_eq!(ask(&mut world, &mark(number)).status(), 0, "{number}");
    }
    for number in [256, 257, u32::MAX] {
        assert_eq!(ask(&mut world, &mark(number)).status(), 7, "{number}");
    }
}

/// "Fog packs to row 8 by `fill_fog_section`": zeros in mode 0.
#[test]
fn fog_in_every_mode() {
    let mut world = smoke(0);
    for mode in 0..=255 {
        let row = if mode == 0 {
            [0; 4]
        } else {
            [START, END, DENSITY, 0]
        };
        let key = in_fog(mode);
        assert_eq!(number(&mut world, &Call::keyed(Name::FogRows, key)), 1);
        assert_eq!(rows(&mut world, Name::FillFog, key), [row], "mode {mode}");
    }
}

/// "ambient to row 9 through `d3dcolor_to_rgba_f32`".
#[test]
fn an_ambient_colour() {
    let mut world = smoke(0);
    let row = [0x3F00_8081, 0x3E80_8081, 0x3E00_8081, 0x3F80_0000];
    for key in [KEY, LIT, in_fog(3)] {
        assert_eq!(number(&mut world, &Call::keyed(Name::AmbientRows, key)), 1);
        assert_eq!(rows(&mut world, Name::FillAmbient, key), [row]);
    }
}

/// Row counts of every mask: 63 and four for each stage up to the highest bit, where that is past the other rows.
#[test]
fn texture_masks_and_row_counts() {
    let count = |world: &mut World, key| number(world, &Call::keyed(Name::RowCount, key));
    let eight = Key {
        light_active_mask: 0xFF,
        ..LIT
    };
    for (mask, unlit) in [(0, 11), (1, 67), (4, 75), (0x80, 95)] {
        let mut world = smoke(mask);
        assert_eq!(count(&mut world, KEY), unlit, "mask {mask}");
        // Fog reaches row 8, which the material is past.
        assert_eq!(count(&mut world, in_fog(3)), unlit, "mask {mask}");
        assert_eq!(count(&mut world, eight), unlit.max(63), "mask {mask}");
        assert_eq!(count(&mut world, Key { has_rhw: 1, ..KEY }), 1);
    }
    for mask in 1..=255u8 {
        let mut world = smoke(mask);
        let stages = mask.ilog2() + 1;
        let tt = Call::keyed(Name::TtRows, KEY);
        assert_eq!(number(&mut world, &tt), 4 * stages, "mask {mask}");
        assert_eq!(count(&mut world, KEY), 63 + 4 * stages, "mask {mask}");
    }
}

/// "texture matrices from row 63 by `fill_tt_section`": a stage whose bit is clear packs its matrix all the same, transposed.
#[test]
fn a_stage_whose_bit_is_clear() {
    let mut world = smoke(5);
    let matrix = |stage: u32| core::array::from_fn(|i| ((16 * stage + i as u32) as f32).to_bits());
    for stage in 0..8 {
        ask(&mut world, &set_transform(16 + stage, &matrix(stage)));
    }
    let found = rows(&mut world, Name::FillTt, KEY);
    assert_eq!(found.len(), 12);
    for (row, at) in found.iter().zip(0..) {
        let m: [u32; 16] = matrix(at / 4);
        let column = at as usize % 4;
        assert_eq!(
            *row,
            core::array::from_fn(|i| m[4 * i + column]),
            "row {at}"
        );
    }
}

/// The destination is as long as the rows; 9 before 4.
#[test]
fn lengths_of_the_three_sections() {
    let mut world = smoke(4);
    for (name, right) in [
        (Name::FillFog, ROW),
        (Name::FillAmbient, ROW),
        (Name::FillTt, 12 * ROW),
    ] {
        for length in [0, 1, ROW - 1, ROW, ROW + 1, 2 * ROW, 12 * ROW, 32 * ROW] {
            let call = Call {
                lent: Length::Bytes(length),
                ..Call::keyed(name, in_fog(1))
            };
            let expected = if length == right { 0 } else { 4 };
            assert_eq!(ask(&mut world, &call).status(), expected, "{call}");
            assert_eq!(world.judge(&call, Some(&[])).status(), 9);
        }
    }
}

/// The rows that each of them has in a mirror, and "`fog_mode` becomes a shape field".
#[test]
fn a_refresh_of_the_three_sections() {
    let mut world = smoke(5);
    let foreign = Call {
        overwrite: vec![(0, vec![0xFF; MIRROR])],
        ..refresh(in_fog(3))
    };
    let judged = ask(&mut world, &foreign);
    assert_eq!((bits(&judged), judged.due), (255, Some(EIGHT_BITS)));
    let written = [0..11, 63..75];
    for row in 0..MIRROR / ROW {
        let bytes = &world.mirror()[ROW * row..ROW * row + ROW];
        let inside = written.iter().any(|rows| rows.contains(&row));
        assert_eq!(bytes != [0xFF; ROW], inside, "row {row}");
    }
    for mode in [0, 1, 255] {
        assert_eq!(ask(&mut world, &refresh(in_fog(mode))).due, None);
        ask(&mut world, &mark(255));
        let judged = ask(&mut world, &refresh(in_fog(mode)));
        assert_eq!(judged.due, Some(EIGHT_BITS));
        assert!(world.stale(&judged, world.mirror()).is_none());
    }
}

/// "the texture mask, being state, needs no marking beyond its setter's"; an overwriting hits TT by the rows that it had at the last
/// accepted refresh.
#[test]
fn the_rows_of_tt_go_by_the_book() {
    let key = in_fog(3);
    let overwriting = |call: Call, row: usize| Call {
        overwrite: vec![(ROW * row, vec![0xFF; ROW])],
        ..call
    };
    let mut world = smoke(2);
    assert_eq!(ask(&mut world, &refresh(key)).due, Some(EIGHT_BITS));
    // Eight rows; the setter makes them twelve, which are written.
    let set = overwriting(set_texture_mask(4), 71);
    assert_eq!(ask(&mut world, &set).status(), 0);
    let judged = ask(&mut world, &refresh(key));
    assert_eq!((bits(&judged), judged.due), (32, Some(EIGHT_BITS)));
    assert!(world.stale(&judged, world.mirror()).is_none());
    // Twelve rows then: a hit, although the mask that is set before the next refresh has four alone.
    ask(&mut world, &overwriting(set_texture_mask(1), 71));
    let judged = ask(&mut world, &refresh(key));
    assert_eq!(judged.due, Some(EIGHT_BITS & !Section::Tt.bit()));
    ask(&mut world, &mark(32));
    assert_eq!(ask(&mut world, &refresh(key)).due, Some(EIGHT_BITS));
    let judged = ask(&mut world, &overwriting(refresh(key), 67));
    assert_eq!(judged.due, Some(EIGHT_BITS));
}

/// The book holds what the setters set: a mirror that lacks a change has wrong rows in its section.
#[test]
fn the_book_finds_stale_rows() {
    let doubled = core::array::from_fn(|i| if i % 5 == 0 { START } else { 0 });
    let changes = [
        (set_value(FOG[0], 1), Section::Fog, 1),
        (set_value(FOG[1], 1), Section::Fog, 1),
        (set_value(FOG[2], 1), Section::Fog, 1),
        (set_value(Name::SetAmbient, 1), Section::Ambient, 1),
        (set_transform(17, &doubled), Section::Tt, 4),
        (set_texture_mask(0x40), Section::Tt, 16),
    ];
    for (change, section, count) in changes {
        let mut world = smoke(5);
        ask(&mut world, &refresh(in_fog(3)));
        let before = world.mirror().to_vec();
        assert_eq!(ask(&mut world, &change).status(), 0);
        let judged = ask(&mut world, &refresh(in_fog(3)));
        assert_eq!(judged.due, Some(EIGHT_BITS));
        assert!(world.stale(&judged, world.mirror()).is_none());
        assert_eq!(
            world.stale(&judged, &before),
            Some((section, count)),
            "{change}"
        );
    }
}
