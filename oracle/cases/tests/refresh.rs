//! The model's refresh beside document 01's words, and the count of demand 3.

use cases::call::{Call, Length, Name};
use cases::damage::Damage;
use cases::image;
use cases::key::Key;
use cases::model::Output;
use cases::section::{EIGHT_BITS, MIRROR, ROW, Section};
use cases::states::{directed, enable, set_light, set_material, set_transform};
use cases::world::{Judged, World};

/// Lit with specular, three matrices; the mask is the state's own.
const KEY: Key = Key::of([0, 1, 1, 0, 0, 0, 0, 3]);

fn refresh(key: Key) -> Call {
    Call {
        own_mask: Some(0),
        ..Call::keyed(Name::Refresh, key)
    }
}

fn mark(bits: u32) -> Call {
    Call::numbered(Name::MarkFfVsDirty, bits)
}

fn overwriting(call: Call, row: usize) -> Call {
    Call {
        overwrite: vec![(ROW * row, vec![0xFF; ROW])],
        ..call
    }
}

fn ask(world: &mut World, call: &Call) -> Judged {
    world.judge(call, None)
}

fn bits(judged: &Judged) -> u32 {
    match judged.answer {
        Ok(Output::Refreshed(bits, _)) => bits,
        _ => panic!("refused {}", judged.status()),
    }
}

/// The world after a refresh of a mirror whose bytes are all 0xFF, with two lights.
fn refreshed() -> World {
    let mut world = World::after(&[enable(0, 1), enable(9, 1)]);
    let call = Call {
        overwrite: vec![(0, vec![0xFF; MIRROR])],
        ..refresh(KEY)
    };
    let judged = ask(&mut world, &call);
    assert_eq!((bits(&judged), judged.due), (255, Some(EIGHT_BITS)));
    assert_eq!(judged.call.key.light_active_mask, 3);
    world
}

#[test]
fn the_rows_that_a_refresh_writes() {
    let mut world = refreshed();
    let written = [0..4, 4..8, 8..9, 9..10, 10..15, 15..27, 95..107];
    for row in 0..MIRROR / ROW {
        let bytes = &world.mirror()[ROW * row..ROW * row + ROW];
        let inside = written.iter().any(|rows| rows.contains(&row));
        assert_eq!(bytes != [0xFF; ROW], inside, "row {row}");
    }
    let judged = ask(&mut world, &refresh(KEY));
    assert_eq!((bits(&judged), judged.due), (0, Some(EIGHT_BITS)));
    ask(&mut world, &mark(32));
    assert_eq!(bits(&ask(&mut world, &refresh(KEY))), 32);
}

/// 9, 4, 8, 5, the mask with LIGHTS clean too; bits stay untaken.
#[test]
fn refusals_in_order() {
    let mut world = refreshed();
    ask(&mut world, &mark(7));
    let status = |world: &mut World, rhw: u8, without: u8, lent: Length, image: Option<&[u8]>| {
        let call = Call {
            own_mask: Some(without),
            lent,
            ..refresh(Key {
                has_rhw: rhw,
                ..KEY
            })
        };
        let mirror = world.mirror().to_vec();
        let answer = world.judge(&call, image).status();
        assert!(world.mirror() == mirror);
        answer
    };
    for length in [0, 1, 16, 17_839, 17_841, 65_536 + 17_840] {
        let lent = Length::Bytes(length);
        assert_eq!(status(&mut world, 1, 1, lent, Some(&[])), 9);
        assert_eq!(status(&mut world, 1, 1, lent, None), 4);
    }
    assert_eq!(status(&mut world, 1, 1, Length::Right, None), 8);
    assert_eq!(status(&mut world, 0, 1, Length::Right, None), 5);
    assert_eq!(bits(&ask(&mut world, &refresh(KEY))), 7);
}

#[test]
fn an_overwriting_lets_off_what_it_hits_until_it_is_marked() {
    let mut world = refreshed();
    // Rows of no section: those between, and those behind the three matrices.
    for row in [27, 63, 94, 107, 1114] {
        let judged = ask(&mut world, &overwriting(refresh(KEY), row));
        assert_eq!(judged.due, Some(EIGHT_BITS), "row {row}");
        assert!(world.stale(&judged, world.mirror()).is_none());
    }
    let hit = [
        (3, Section::Wv),
        (4, Section::Proj),
        (8, Section::Fog),
        (9, Section::Ambient),
        (14, Section::Material),
        (26, Section::Lights),
        (106, Section::Palette),
    ];
    for (row, section) in hit {
        let judged = ask(&mut world, &overwriting(refresh(KEY), row));
        assert_eq!(judged.due, Some(EIGHT_BITS & !section.bit()));
        assert!(world.stale(&judged, world.mirror()).is_none());
        let all = Judged {
            due: Some(EIGHT_BITS),
            ..judged
        };
        assert_eq!(world.stale(&all, world.mirror()), Some((section, 1)));
        ask(&mut world, &mark(u32::from(section.bit())));
        let judged = ask(&mut world, &refresh(KEY));
        assert_eq!(judged.due, Some(EIGHT_BITS));
        assert!(world.stale(&judged, world.mirror()).is_none());
    }
}

#[test]
fn another_shape_and_an_image_read_in_need_marks() {
    let mut world = refreshed();
    let other = Key {
        specular_enable: 0,
        ..KEY
    };
    assert_eq!(ask(&mut world, &refresh(other)).due, None);
    // Not before all eight are marked is the count due again.
    assert_eq!(ask(&mut world, &refresh(other)).due, None);
    for bits in [254, 31, 63, 191, 223] {
        ask(&mut world, &mark(bits));
        assert_eq!(ask(&mut world, &refresh(other)).due, None);
    }
    ask(&mut world, &mark(15));
    ask(&mut world, &mark(0xF0));
    assert_eq!(ask(&mut world, &refresh(other)).due, Some(EIGHT_BITS));
    // A flag is set by any number.
    let same = Key {
        lighting_enabled: 128,
        ..other
    };
    assert_eq!(ask(&mut world, &refresh(same)).due, Some(EIGHT_BITS));

    let mut bytes = world.image().to_vec();
    Damage::word(image::MATERIAL, 0x4000_0000).apply(&mut bytes);
    let judged = world.judge(&refresh(same), Some(&bytes));
    assert_eq!(judged.due, None);
    // The bit was clean, so that the row is stale.
    let all = Judged {
        due: Some(EIGHT_BITS),
        ..judged
    };
    assert_eq!(
        world.stale(&all, world.mirror()),
        Some((Section::Material, 1))
    );
    ask(&mut world, &mark(255));
    assert_eq!(ask(&mut world, &refresh(same)).due, Some(EIGHT_BITS));
    ask(&mut world, &Call::plain(Name::TakeFfVsDirty));
    assert_eq!(ask(&mut world, &refresh(same)).due, None);
    ask(&mut world, &Call::plain(Name::ImageFresh));
    assert_eq!(ask(&mut world, &refresh(KEY)).due, Some(EIGHT_BITS));
}

/// The book takes the calls' arguments: a mirror that lacks a change has wrong rows in its section.
#[test]
fn the_book_finds_stale_rows() {
    let scaled = core::array::from_fn(|i| if i % 5 == 0 { 0x4000_0000 } else { 0 });
    let changes = [
        (set_transform(256, &scaled), Section::Wv, 4),
        (set_transform(3, &scaled), Section::Proj, 4),
        (set_material(vec![1; 68]), Section::Material, 5),
        (set_light(9, &directed(1, [0; 3])), Section::Lights, 3),
        (set_transform(257, &scaled), Section::Palette, 4),
    ];
    for (change, section, count) in changes {
        let mut world = refreshed();
        let before = world.mirror().to_vec();
        assert!(ask(&mut world, &change).answer.is_ok());
        let judged = ask(&mut world, &refresh(KEY));
        assert_eq!(judged.due, Some(EIGHT_BITS));
        assert!(world.stale(&judged, world.mirror()).is_none());
        assert_eq!(world.stale(&judged, &before), Some((section, count)));
    }
}
