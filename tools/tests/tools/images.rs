//! `image-show`: each reason for 9 by name and place, always as the library says.

use crate::common::{Seeded, file, folder, run};
use ff_state::{FfImage, Light, Material, Matrix};
use tools::places;
use tools::reasons::{Finding, Reason, agree, findings};

/// Lights 0, 2 and, from index 8 on, 9, 12 and 4,000,000,000; all but 2 and 12 enabled.
fn rich() -> FfImage {
    let mut image = FfImage::fresh();
    let mut matrix = Matrix::IDENTITY;
    matrix.m[3] = [5.0, 6.0, 7.0, 1.0];
    for state in [2, 3, 16, 256, 511] {
        image.set_transform(state, &matrix).unwrap();
    }
    image.set_material(&Material {
        power: f32::NAN,
        ..Material::default()
    });
    for (index, type_) in [
        (0, 3),
        (2, 1),
        (9, 2),
        (12, 7),
        (4_000_000_000, 0x7F80_0001),
    ] {
        image
            .set_light_at(
                index,
                &Light {
                    type_,
                    range: 10.0,
                    ..Light::default()
                },
            )
            .unwrap();
    }
    for index in [0, 9, 4_000_000_000] {
        image.set_light_enabled_at(index, true).unwrap();
    }
    image.set_fog_end(f32::NAN);
    image.set_texture_mask(0x81);
    image
}

/// The findings, which say what the library says.
fn found(bytes: &[u8]) -> Vec<Finding> {
    let found = findings(bytes);
    let answer = FfImage::from_bytes(bytes).map(|_| ());
    assert!(agree(&found, answer), "{answer:?}, {found:?}");
    found
}

/// The image with bytes put at a place.
fn with(place: usize, bytes: &[u8]) -> Vec<u8> {
    let mut image = rich().as_bytes().to_vec();
    image[place..place + bytes.len()].copy_from_slice(bytes);
    image
}

#[test]
fn images_have_no_reason() {
    for image in [FfImage::fresh(), rich()] {
        assert!(found(image.as_bytes()).is_empty());
    }
    // A type is a number and may have the bits of a NaN; every dirty byte is read.
    assert!(found(&with(places::LIGHTS, &[1, 0, 0x80, 0x7F])).is_empty());
    for byte in 0..=255 {
        assert!(found(&with(places::DIRTY, &[byte])).is_empty());
    }
}

/// Each damage on its own: the reason, and the place, which are worked out by hand from the papers' table.
#[test]
fn each_reason_is_named_at_its_place() {
    let nan = 0x7FC0_0001_u32.to_le_bytes();
    let entry = |i: usize| 17_932 + 112 * i;
    let slot = |i: usize| 17_092 + 104 * i;
    let damages: [(usize, &[u8], Reason, usize); 25] = [
        (17_927, &[1], Reason::ZeroByteSet, 17_927),
        (17_928, &[0, 1], Reason::IndexAbove255, 17_928),
        (17_930, &[57, 0], Reason::CountAbove56, 17_930),
        (17_930, &[0, 1], Reason::CountAbove56, 17_930),
        (entry(0), &[7, 0, 0, 0], Reason::NotAscending, entry(0)),
        (entry(1), &[9, 0, 0, 0], Reason::NotAscending, entry(1)),
        (entry(2), &[12, 0, 0, 0], Reason::NotAscending, entry(2)),
        (entry(0), &[255; 4], Reason::NotAscending, entry(1)),
        (entry(1) + 4, &[2], Reason::EnableNotFlag, entry(1) + 4),
        (entry(0) + 7, &[1], Reason::EnableNotFlag, entry(0) + 4),
        (entry(3), &[1], Reason::UnusedNotZero, entry(3)),
        (
            entry(55) + 111,
            &[1],
            Reason::UnusedNotZero,
            entry(55) + 111,
        ),
        (17_930, &[2, 0], Reason::UnusedNotZero, entry(2) + 1),
        (17_924, &[3], Reason::EnabledUndefined, 17_924),
        (17_925, &[4], Reason::EnabledUndefined, 17_924),
        (slot(1), &[1], Reason::UndefinedNotDefault, slot(1)),
        (
            slot(7) + 103,
            &[0x80],
            Reason::UndefinedNotDefault,
            slot(7) + 103,
        ),
        (17_925, &[1], Reason::UndefinedNotDefault, slot(2)),
        (0, &nan, Reason::AnotherNan, 0),
        (17_088, &[0, 0, 0xC0, 0xFF], Reason::AnotherNan, 17_088),
        (slot(0) + 4, &nan, Reason::AnotherNan, slot(0) + 4),
        (
            entry(2) + 108,
            &[1, 0, 0x80, 0x7F],
            Reason::AnotherNan,
            entry(2) + 108,
        ),
        (24_212, &nan, Reason::AnotherNan, 24_212),
        (24_221, &[1], Reason::MaskAbove255, 24_220),
        (24_223, &[128], Reason::MaskAbove255, 24_220),
    ];
    for (place, bytes, reason, at) in damages {
        let found = found(&with(place, bytes));
        let named = found.iter().any(|f| f.reason == reason && f.place == at);
        assert!(named, "{reason:?} at {at}: {found:?}");
        // What one damage does besides is said in the order of places.
        assert!(found.is_sorted_by_key(|f| f.place));
    }
    let image = rich();
    for length in [0, 1, 24_203, 24_204, 24_223] {
        let found = found(&image.as_bytes()[..length]);
        assert_eq!(
            (found[0].reason, found[0].place),
            (Reason::AnotherLength, length)
        );
    }
    let found = found(&[image.as_bytes().as_slice(), &[0]].concat());
    assert_eq!(
        (found[0].reason, found[0].place),
        (Reason::AnotherLength, 24_224)
    );
}

/// Bytes damaged at random, most where a reason looks: the verdicts are the library's each time, and every reason is met.
#[test]
fn damaged_at_random_the_verdict_is_the_librarys() {
    let mut seeded = Seeded(0x5EED_0001);
    let bases = [FfImage::fresh(), rich()];
    let ends = [17_092, 17_924, 17_932, 24_204, 24_224];
    let mut met = [0_u32; Reason::ALL.len()];
    let (mut accepted, mut refused) = (0, 0);
    for round in 0..8_000 {
        let mut bytes = bases[seeded.below(2)].as_bytes().to_vec();
        for _ in 0..=seeded.below(3) {
            let part = seeded.below(ends.len() + 2);
            let place = match part {
                0 => seeded.below(17_092),
                // The single numbers between the lights and the entries.
                5 => 17_924 + seeded.below(8),
                // The indices and enables of the entries in use.
                6 => 17_932 + 112 * seeded.below(3) + seeded.below(8),
                _ => ends[part - 1] + seeded.below(ends[part] - ends[part - 1]),
            };
            bytes[place] = seeded.of(&[0, 1, 2, 8, 57, 0x3F, 0x7F, 0x80, 0xC0, 0xFF, round as u8]);
        }
        let cut = if seeded.below(50) == 0 {
            seeded.below(bytes.len())
        } else {
            bytes.len()
        };
        let found = found(&bytes[..cut]);
        for finding in &found {
            met[finding.reason as usize] += 1;
        }
        if found.is_empty() {
            accepted += 1
        } else {
            refused += 1
        }
    }
    assert!(accepted > 500 && refused > 500, "{accepted}, {refused}");
    assert!(met.iter().all(|&times| times > 20), "{met:?}");
}

/// Random bytes of every class of length: no panic, and the verdict agrees.
#[test]
fn bytes_of_any_kind_are_described() {
    let mut seeded = Seeded(7);
    for length in [0, 1, 4, 64, 17_923, 24_204, 24_223, 24_224, 24_225, 30_000] {
        for _ in 0..5 {
            let bytes: Vec<u8> = (0..length).map(|_| seeded.next() as u8).collect();
            let text = tools::show::described("bytes", &bytes).unwrap();
            assert!(
                text.wrong && text.text.starts_with("bytes: refused 9, "),
                "{}",
                text.text
            );
        }
    }
}

#[test]
fn the_program_says_what_an_image_holds() {
    let folder = folder("image-show");
    let ran = run(
        "image-show",
        &[&file(&folder, "rich.image", rich().as_bytes())],
    );
    assert_eq!(ran.status, 0);
    for words in [
        "dirty sections   all eight (bits 255)",
        "highest index    255, of",
        "fog              start 0, end NaN, density 0",
        "texture mask     0x81: texture matrix 0, 7 in use",
        "view (state 2)\n",
        "world matrix 255 (state 511)\n",
        "world matrix 1 to 254: the identity",
        "lights     5 stored, 3 enabled, 3 of 56",
        "           0  yes       directional\n",
        "           2  no        point\n",
        "           9  yes       spot\n",
        "          12  no        type 7, lights nothing\n",
        "  4000000000  yes       type 2139095041, lights nothing\n",
        // Lights 0 and 9 light.
        "light_active_mask over them: 3, for a preview 3",
    ] {
        assert!(ran.out.contains(words), "{words}:\n{}", ran.out);
    }
}

#[test]
fn the_program_names_reasons_and_files() {
    let folder = folder("image-show-refused");
    let damaged = file(&folder, "damaged.image", &with(17_927, &[9]));
    let ran = run("image-show", &[&damaged]);
    assert_eq!(ran.status, 1);
    assert!(
        ran.out.contains(
            "refused 9, 1 reason:\n  byte 17927  zero byte set: the zero byte: 0x09, must be 0\n"
        ),
        "{}",
        ran.out
    );
    // Every float a NaN of another pattern: the list is cut, and says so.
    let ran = run(
        "image-show",
        &[&file(&folder, "nans.image", &[0xFF; 24_224])],
    );
    assert!(
        ran.status == 1 && ran.out.contains("\n  and "),
        "{}",
        ran.out
    );
    for (words, why) in [
        (vec![], "write one FILE"),
        (vec!["a", "b"], "write one FILE"),
        (vec!["--quick", "a"], "--quick is no option"),
        (vec!["no-such-file"], "no-such-file: "),
    ] {
        let ran = run("image-show", &words);
        assert!(
            ran.status == 2 && ran.err.starts_with(why) && ran.out.is_empty(),
            "{}",
            ran.err
        );
    }
    let ran = run("image-show", &["--help"]);
    assert!(ran.status == 0 && ran.out.starts_with("image-show FILE\n"));
}
