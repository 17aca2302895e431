//! The model beside document 01's cases and the papers' description of the image.

use cases::call::{Call, Name};
use cases::damage::Damage;
use cases::image::{self, Reason};
use cases::lists;
use cases::model::Output;
use cases::states::{self, directed};
use cases::world::World;

fn set_light(world: &mut World, index: u32, type_: u32) -> Result<Output, u32> {
    let call = states::set_light(index, &directed(type_, [0; 3]));
    world.judge(&call, None).answer
}

fn enable(world: &mut World, index: u32, enabled: u32) {
    let call = states::enable(index, enabled);
    assert!(world.judge(&call, None).answer.is_ok());
}

fn ask(world: &mut World, name: Name) -> Result<Output, u32> {
    world.judge(&Call::plain(name), None).answer
}

#[test]
fn p7_light_inputs() {
    let mut world = World::fresh();
    enable(&mut world, 0, 1);
    assert!(set_light(&mut world, 3, 2).is_ok());
    enable(&mut world, 3, 1);
    let mut inputs = |index: Option<u32>, enabled| {
        if let Some(index) = index {
            enable(&mut world, index, enabled);
            set_light(&mut world, index, 1).expect("there is room");
        }
        ask(&mut world, Name::VsSourceLightInputs)
    };
    assert_eq!(inputs(None, 0), Ok(Output::Number(0x0008_0109)));
    assert_eq!(inputs(Some(9), 1), Ok(Output::Number(0x0102_0107)));
    assert_eq!(inputs(Some(9), 0), Ok(Output::Number(0x0102_0103)));
}

#[test]
fn p8_transform_states() {
    let mut world = World::fresh();
    let mut set = |state| {
        world
            .judge(&Call::numbered(Name::SetTransform, state), None)
            .answer
    };
    assert_eq!(set(15), Err(1));
    assert_eq!(set(16), Ok(Output::Nothing));
    assert_eq!(set(511), Ok(Output::Nothing));
    assert_eq!(set(512), Err(1));
    let used = ask(&mut world, Name::WorldPaletteUsed);
    assert_eq!(used, Ok(Output::Number(256)));
}

#[test]
fn p9_room_for_lights() {
    let mut world = World::fresh();
    for entry in 1..=56 {
        assert!(set_light(&mut world, 100 - entry, 1).is_ok());
    }
    assert_eq!(set_light(&mut world, 100, 1), Err(3));
    assert!(set_light(&mut world, 99, 1).is_ok());
    assert!(set_light(&mut world, 7, 1).is_ok());
}

#[test]
fn the_fresh_image() {
    let mut expected = vec![0; 24_224];
    let one = 1f32.to_le_bytes();
    for matrix in 0..266 {
        for row in 0..4 {
            let at = 64 * matrix + 20 * row;
            expected[at..at + 4].copy_from_slice(&one);
        }
    }
    for slot in 0..8 {
        let light = 17_092 + 104 * slot;
        expected[light] = 3;
        // Diffuse red, green and blue, and the direction's z.
        for number in [1, 2, 3, 18] {
            let at = light + 4 * number;
            expected[at..at + 4].copy_from_slice(&one);
        }
    }
    expected[17_926] = 255;
    assert!(World::fresh().image() == expected);
}

/// An image with lights 0 and 9 defined; each damage gives the one reason beside it.
#[test]
fn each_reason_alone() {
    let mut world = World::fresh();
    enable(&mut world, 0, 1);
    enable(&mut world, 9, 1);
    let full = (0..56).fold(Damage::bytes(17_930, &[57, 0]), |damage, i| {
        damage.and(Damage::word(17_932 + 112 * i, 8 + i as u32))
    });
    let cases = [
        (Damage::length(24_223), Reason::Length),
        (Damage::length(24_225), Reason::Length),
        (Damage::length(24_204), Reason::Length),
        (Damage::bytes(17_927, &[1]), Reason::Zero),
        (Damage::bytes(17_928, &[0, 1]), Reason::Highest),
        (full, Reason::Count),
        (Damage::word(17_932, 7), Reason::Order),
        (Damage::word(17_936, 2), Reason::Enable),
        (Damage::bytes(24_203, &[1]), Reason::Unused),
        (Damage::bytes(17_924, &[3]), Reason::Enabled),
        (
            Damage::word(17_092 + 104 + 20, 0x8000_0000),
            Reason::Undefined,
        ),
        (Damage::word(0, 0x7FC0_0001), Reason::Nan),
        (Damage::word(17_932 + 12, 0xFFC0_0000), Reason::Nan),
        (Damage::word(24_204, 0x7FC0_0001), Reason::Nan),
        (Damage::word(24_208, 0x7F80_0001), Reason::Nan),
        (Damage::word(24_212, 0xFFC0_0000), Reason::Nan),
        (Damage::word(24_220, 256), Reason::Mask),
        (Damage::word(24_220, 0x8000_0000), Reason::Mask),
    ];
    for (damage, reason) in cases {
        let mut bytes = world.image().to_vec();
        damage.apply(&mut bytes);
        assert_eq!(image::reasons(&bytes), [reason], "{damage}");
    }
    // These leave an image: the one NaN, a type or a colour with a NaN's bits, another index, no bits, all bits, every mask.
    let kept = [
        Damage::word(0, 0x7FC0_0000),
        Damage::word(17_092, 0x7F80_0001),
        Damage::word(17_932, 8),
        Damage::bytes(17_928, &[255]),
        Damage::bytes(17_926, &[0]),
        Damage::bytes(17_926, &[255]),
        Damage::word(24_208, 0x7FC0_0000),
        Damage::word(24_216, 0x7FC0_0001),
        Damage::word(24_220, 255),
    ];
    for damage in kept {
        let mut bytes = world.image().to_vec();
        damage.apply(&mut bytes);
        assert_eq!(image::reasons(&bytes), [], "{damage}");
    }
}

#[test]
fn what_is_written_reads_as_it_was() {
    for number in 0..50 {
        let mut world = World::fresh();
        for call in lists::list(1, number) {
            world.judge(&call, None);
            assert!(world.reads_as_written(), "list {number}, {call}");
        }
    }
}
