//! Document 02's T-01 on the model: the lights of a preview, its mask, and the limit as a shape field.

use cases::call::{Call, Length, Name};
use cases::key::Key;
use cases::model::Output;
use cases::section::{EIGHT_BITS, MIRROR, ROW, Section};
use cases::states::{directed, enable, mark, refresh, set_light};
use cases::world::{Judged, World};

const LIT: Key = Key::of([0, 1, 0, 0, 0, 0, 0, 0]);
const PREVIEW: Key = Key { preview: 1, ..LIT };

/// A point light at x = `x`.
fn at(x: f32) -> [u32; 26] {
    let mut light = directed(1, [0; 3]);
    light[13] = x.to_bits();
    light
}

/// So many lights that light, from index 2 on, the n-th at x = n; one below that is off, and one that lights nothing.
fn in_a_row(count: u32) -> World {
    let mut calls = vec![
        enable(0, 0),
        set_light(1, &directed(0, [0; 3])),
        enable(1, 1),
    ];
    for n in (1..=count).rev() {
        calls.extend([set_light(n + 1, &at(n as f32)), enable(n + 1, 1)]);
    }
    World::after(&calls)
}

fn with_mask(key: Key, light_active_mask: u8) -> Key {
    Key {
        light_active_mask,
        ..key
    }
}

fn ask(world: &mut World, call: &Call) -> Judged {
    world.judge(call, None)
}

fn fill(world: &mut World, key: Key) -> Result<Vec<u8>, u32> {
    match ask(world, &Call::keyed(Name::FillLights, key)).answer? {
        Output::Bytes(bytes) => Ok(bytes),
        other => panic!("{other:?}"),
    }
}

fn number(world: &mut World, call: &Call) -> u32 {
    match ask(world, call).answer {
        Ok(Output::Number(number)) => number,
        other => panic!("{other:?}"),
    }
}

/// The first float of each light's rows: where it stands.
fn places(rows: &[u8]) -> Vec<f32> {
    let lights = rows.chunks(6 * ROW);
    lights
        .map(|rows| f32::from_le_bytes(*rows.first_chunk().expect("six rows")))
        .collect()
}

/// "The preview list is the first four of the full one": their rows are the Rust's of the main screen.
#[test]
fn the_first_four_of_nine() {
    let mut world = in_a_row(9);
    let eight = fill(&mut world, with_mask(LIT, 0xFF)).expect("the Rust's own mask");
    assert_eq!(places(&eight), [1.0, 2.0, 3.0, 4.0, 5.0, 6.0, 7.0, 8.0]);
    let four = fill(&mut world, with_mask(PREVIEW, 0x0F)).expect("the mask of four");
    assert_eq!(four.len(), 24 * ROW);
    assert!(four == eight[..24 * ROW]);
    // A flag is set by any number.
    for preview in [2, 128, 255] {
        let key = with_mask(Key { preview, ..LIT }, 0x0F);
        assert!(fill(&mut world, key).as_ref() == Ok(&four));
    }
}

/// "its mask has at most four bits, and refusal 5 compares with the mask under the caller's limit"; 0 stays accepted.
#[test]
fn masks_under_either_limit() {
    for (count, full, limited) in [
        (0, 0, 0),
        (3, 0x07, 0x07),
        (4, 0x0F, 0x0F),
        (5, 0x1F, 0x0F),
        (8, 0xFF, 0x0F),
        (9, 0xFF, 0x0F),
    ] {
        let mut world = in_a_row(count);
        for (key, right) in [(LIT, full), (PREVIEW, limited)] {
            for mask in 0..=255 {
                let expected = if mask == 0 || mask == right { 0 } else { 5 };
                let fill = Call::keyed(Name::FillLights, with_mask(key, mask));
                let judged = ask(&mut world, &fill);
                assert_eq!(judged.status(), expected, "{count} lights, {fill}");
                assert_eq!(judged.limited, count > 4 && key.preview != 0);
                let refresh = Call::keyed(Name::Refresh, with_mask(key, mask));
                assert_eq!(ask(&mut world, &refresh).status(), expected, "{refresh}");
                let short = Call {
                    lent: Length::Bytes(6 * ROW - 1),
                    ..fill
                };
                assert_eq!(ask(&mut world, &short).status(), 4);
            }
        }
    }
}

/// Rows and row count go by the mask alone, and the reads keep eight.
#[test]
fn what_keeps_eight() {
    let mut world = in_a_row(9);
    for key in [LIT, PREVIEW] {
        for (mask, rows, count) in [(0, 0, 14), (0x0F, 24, 39), (0xFF, 48, 63)] {
            let key = with_mask(key, mask);
            assert_eq!(
                number(&mut world, &Call::keyed(Name::LightsRows, key)),
                rows
            );
            assert_eq!(number(&mut world, &Call::keyed(Name::RowCount, key)), count);
        }
    }
    // Points alone: neither directional nor spots; two of the nine stand from index 8 on.
    let masks = Call::plain(Name::CompactedLightMasks);
    assert_eq!(number(&mut world, &masks), 0x0000_00FF);
    let inputs = Call::plain(Name::VsSourceLightInputs);
    assert_eq!(number(&mut world, &inputs), 0x0100_00FF);
}

/// 4, 8, 5 under the flag too; bits stay untaken.
#[test]
fn refused_refreshes_of_a_preview() {
    let mut world = in_a_row(9);
    let refresh = |has_rhw, mask, lent| Call {
        lent,
        ..Call::keyed(Name::Refresh, with_mask(Key { has_rhw, ..PREVIEW }, mask))
    };
    let short = Length::Bytes(MIRROR - ROW);
    assert_eq!(ask(&mut world, &refresh(1, 0xFF, short)).status(), 4);
    assert_eq!(
        ask(&mut world, &refresh(1, 0xFF, Length::Right)).status(),
        8
    );
    assert_eq!(
        ask(&mut world, &refresh(0, 0xFF, Length::Right)).status(),
        5
    );
    let judged = ask(&mut world, &refresh(0, 0x0F, Length::Right));
    assert!(matches!(judged.answer, Ok(Output::Refreshed(255, _))));
    let rows = &world.mirror()[Section::Lights.place(judged.call.key, 0)];
    assert_eq!(places(rows), [1.0, 2.0, 3.0, 4.0]);
}

/// "The limit joins the shape fields, so a mirror that changes limit needs marking like any other change."
#[test]
fn another_limit_needs_marks() {
    let mut world = in_a_row(9);
    assert_eq!(ask(&mut world, &refresh(LIT)).due, Some(EIGHT_BITS));
    assert_eq!(ask(&mut world, &refresh(PREVIEW)).due, None);
    ask(&mut world, &mark(255));
    assert_eq!(ask(&mut world, &refresh(PREVIEW)).due, Some(EIGHT_BITS));
    let same = Key {
        preview: 128,
        ..PREVIEW
    };
    assert_eq!(ask(&mut world, &refresh(same)).due, Some(EIGHT_BITS));
    // With four lights the mask is the same under either limit.
    for index in 6..=10 {
        ask(&mut world, &enable(index, 0));
    }
    assert_eq!(ask(&mut world, &refresh(PREVIEW)).due, Some(EIGHT_BITS));
    assert_eq!(ask(&mut world, &refresh(LIT)).due, None);
}

/// The book's packing is the preview's: of a mirror that has the first four lights, or that lacks a change of one.
#[test]
fn the_book_counts_a_previews_rows() {
    let mut world = in_a_row(9);
    let judged = ask(&mut world, &refresh(PREVIEW));
    assert_eq!(judged.due, Some(EIGHT_BITS));
    assert!(world.stale(&judged, world.mirror()).is_none());
    let mut last = world.mirror().to_vec();
    let full = fill(&mut world, with_mask(LIT, 0xFF)).expect("the Rust's own mask");
    last[Section::Lights.place(judged.call.key, 0)].copy_from_slice(&full[24 * ROW..]);
    // The lights differ in their first rows.
    assert_eq!(world.stale(&judged, &last), Some((Section::Lights, 4)));
    // The first one goes out, and each stands where the next did.
    let before = world.mirror().to_vec();
    ask(&mut world, &enable(2, 0));
    let judged = ask(&mut world, &refresh(PREVIEW));
    assert_eq!(judged.due, Some(EIGHT_BITS));
    assert!(world.stale(&judged, world.mirror()).is_none());
    assert_eq!(world.stale(&judged, &before), Some((Section::Lights, 4)));
}
