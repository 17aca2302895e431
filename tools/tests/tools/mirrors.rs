//! `mirror-check`: each wrong row, stale or dirty; files and keys that are none.

use crate::common::{Ran, Seeded, file, folder, run};
use ff_state::{D3DTS_WORLD, FfImage, Matrix, Mirror, VsKey};

/// A state with world matrix 0 a translation by 5, 6, 7 (document 01, P10), its mirror right under a lit key, and no bit dirty.
fn scene() -> (FfImage, Mirror) {
    let (mut image, mut mirror) = (FfImage::fresh(), Mirror::new());
    let mut world = Matrix::IDENTITY;
    world.m[3] = [5.0, 6.0, 7.0, 1.0];
    image.set_transform(D3DTS_WORLD, &world).unwrap();
    image.set_light_enabled_at(0, true).unwrap();
    let key = VsKey {
        lighting_enabled: true,
        light_active_mask: 1,
        ..VsKey::default()
    };
    assert_eq!(image.refresh(&key, &mut mirror), Ok(255));
    (image, mirror)
}

const KEY: [&str; 2] = ["lighting_enabled=1", "light_active_mask=1"];

fn check(name: &str, image: &[u8], mirror: &[u8], words: &[&str]) -> Ran {
    let folder = folder(name);
    let (image, mirror) = (
        file(&folder, "image", image),
        file(&folder, "mirror", mirror),
    );
    run(
        "mirror-check",
        &[&[image.as_str(), mirror.as_str()], words].concat(),
    )
}

#[test]
fn a_right_mirror_is_right() {
    let (image, mirror) = scene();
    for key in [
        KEY.as_slice(),
        &["lighting_enabled=1", "light_active_mask=auto", "--map"],
    ] {
        let ran = check("right", image.as_bytes(), mirror.as_bytes(), key);
        assert_eq!(ran.status, 0);
        assert!(ran.out.ends_with("\nNo row is wrong.\n"), "{}", ran.out);
        assert!(
            ran.out.contains("dirty sections: none\n")
                && ran.out.contains("  LIGHTS       15     6      0  clean\n")
        );
    }
}

#[test]
fn a_row_of_a_clean_section_is_stale() {
    let (image, mut mirror) = scene();
    mirror.as_mut_bytes()[..16].copy_from_slice(&[0, 0, 128, 63].repeat(4));
    // Row 15 + 5 is the light's last; row 1000 is of no section.
    mirror.as_mut_bytes()[16 * 20] = 1;
    mirror.as_mut_bytes()[16 * 1000] = 1;
    let ran = check("stale", image.as_bytes(), mirror.as_bytes(), &KEY);
    assert_eq!(ran.status, 1);
    let lines: Vec<String> = ran
        .out
        .lines()
        .map(|line| line.split_whitespace().collect::<Vec<_>>().join(" "))
        .collect();
    for words in [
        "0 WV stale expected 1 0 0 5",
        "found 1 1 1 1",
        "20 LIGHTS stale expected 0 0 0 0",
        "found 1e-45 0 0 0",
        "WV 0 4 1 clean: stale, a marking is missing",
        "LIGHTS 15 6 1 clean: stale, a marking is missing",
        "PROJ 4 4 0 clean",
    ] {
        assert!(
            lines.iter().any(|line| line == words),
            "{words}:\n{}",
            ran.out
        );
    }
    assert!(
        ran.out.contains("2 rows stale in WV LIGHTS.")
            && ran.out.contains("ff_mark_ff_vs_dirty with 9 "),
        "{}",
        ran.out
    );
    assert!(!ran.out.contains("1000"));
}

#[test]
fn a_row_of_a_dirty_section_waits_for_the_refresh() {
    let (mut image, mirror) = scene();
    image.set_transform(D3DTS_WORLD, &Matrix::IDENTITY).unwrap();
    let ran = check("dirty", image.as_bytes(), mirror.as_bytes(), &KEY);
    assert_eq!(ran.status, 0, "{}", ran.out);
    assert!(ran.out.contains("dirty sections: WV PALETTE\n"));
    assert!(
        ran.out.contains("    0  WV        dirty   expected"),
        "{}",
        ran.out
    );
    assert!(
        ran.out
            .contains("No row is stale: 3 rows wrong in dirty sections. Next: refresh"),
        "{}",
        ran.out
    );
    // A stale row beside dirty ones counts.
    let mut mirror = mirror;
    mirror.as_mut_bytes()[16 * 9] = 1;
    let ran = check("dirty-and-stale", image.as_bytes(), mirror.as_bytes(), &KEY);
    assert!(
        ran.status == 1 && ran.out.contains("1 row stale in AMBIENT."),
        "{}",
        ran.out
    );
}

#[test]
fn the_picture_shows_each_row_and_is_written_as_svg() {
    let (mut image, mut mirror) = scene();
    mirror.as_mut_bytes()[16 * 4] = 1;
    image.mark_ff_vs_dirty(1).unwrap();
    mirror.as_mut_bytes()[16 * 3] = 1;
    let svg = folder("svg").join("mirror.svg");
    let words = [KEY.as_slice(), &["--map", "--svg", svg.to_str().unwrap()]].concat();
    let ran = check("map", image.as_bytes(), mirror.as_bytes(), &words);
    assert_eq!(ran.status, 1);
    for line in [
        "  WV           0  ...d\n",
        "  PROJ         4  #...\n",
        "  MATERIAL    10  ....-\n",
    ] {
        assert!(ran.out.contains(line), "{line}:\n{}", ran.out);
    }
    let drawing = std::fs::read_to_string(svg).unwrap();
    assert!(drawing.contains("<title>rows 4 to 4: stale</title>") && drawing.ends_with("</svg>\n"));
}

#[test]
fn what_is_no_input_is_said() {
    let (image, mirror) = scene();
    let (image, mirror) = (image.as_bytes().as_slice(), mirror.as_bytes().as_slice());
    let longer = [mirror, &[0]].concat();
    for length in [0, 1, 16, 17_839] {
        let ran = check("cut", image, &mirror[..length], &KEY);
        assert!(
            ran.status == 2
                && ran
                    .err
                    .contains(&format!("{length} bytes, a mirror has 17840")),
            "{}",
            ran.err
        );
    }
    for (image, mirror, words, why) in [
        (
            image,
            longer.as_slice(),
            KEY.as_slice(),
            "17841 bytes, a mirror has 17840: 1115 rows of 4 floats",
        ),
        (
            &image[..24_204],
            mirror,
            &KEY,
            "refused 9: the bytes are no state image: tools/run image-show",
        ),
        (mirror, image, &KEY, "refused 9"),
        (&[], mirror, &KEY, "refused 9"),
        (
            image,
            mirror,
            &["light_active_mask=2"],
            "light_active_mask=2: refused 5",
        ),
        (
            image,
            mirror,
            &["light_active_mask=2"],
            "write 1, 0 or auto",
        ),
        (
            image,
            mirror,
            &["has_rhw=1"],
            "has_rhw=1: such a draw reads no section",
        ),
        (
            image,
            mirror,
            &["lighting"],
            "'lighting' is no word of a key",
        ),
        (image, mirror, &["--svg"], "--svg wants a file behind it"),
        (
            image,
            mirror,
            &["--svg", "no/such/folder/x.svg"],
            "no/such/folder/x.svg: ",
        ),
    ] {
        let ran = check("no-input", image, mirror, words);
        assert!(
            ran.status == 2 && ran.err.contains(why) && ran.out.is_empty(),
            "{why}: {}",
            ran.err
        );
    }
    assert!(
        run("mirror-check", &["one"])
            .err
            .contains("write an IMAGE and a MIRROR")
    );
    assert!(
        run("mirror-check", &["none", "none"])
            .err
            .contains("none: ")
    );
    assert!(
        run("mirror-check", &["--help"])
            .out
            .contains("light_active_mask")
    );
}

/// Any bytes of the right length are a mirror; NaNs of every pattern among them.
#[test]
fn any_floats_are_a_mirror() {
    let (image, _) = scene();
    let mut seeded = Seeded(11);
    for round in 0..10 {
        let bytes: Vec<u8> = (0..Mirror::BYTES)
            .map(|_| if round < 5 { 0xFF } else { seeded.next() as u8 })
            .collect();
        let key = [
            "vertex_blend_count=255",
            "lighting_enabled=1",
            "light_active_mask=1",
            "--map",
        ];
        let ran = check("any", image.as_bytes(), &bytes, &key);
        // 4 + 4 + 1 + 1 + 4 + 6 + 0 + 1,020 rows.
        assert!(
            ran.status == 1
                && ran
                    .out
                    .contains("\n1040 rows stale in WV PROJ FOG AMBIENT MATERIAL LIGHTS PALETTE."),
            "{}",
            ran.out
        );
    }
}
