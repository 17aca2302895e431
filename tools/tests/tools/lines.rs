//! `calls-replay`: lines outside the format, each told by its number, and lists that are cut or garbled.

use crate::common::{Seeded, file, folder, run};
use crate::lists::replay;
use tools::list;
use tools::replay::World;
use tools::report::replayed;

#[test]
fn lines_outside_the_format_are_told_by_number_and_nothing_is_written() {
    let out = folder("written");
    let written = ["image", "mirror", "record"].map(|name| out.join(name));
    let [image, mirror, record] = written.each_ref().map(|path| path.to_str().unwrap());
    let options = [
        "--write-image",
        image,
        "--write-mirror",
        mirror,
        "--record",
        record,
    ];
    for (line, why) in [
        ("reset", "reset: is no call: calls-replay --help lists them"),
        ("Refresh", "Refresh: is no call"),
        ("set_transform", "set_transform: write a STATE and a MATRIX"),
        (
            "set_transform 2",
            "set_transform: a matrix has 16 floats, not 0",
        ),
        (
            "set_transform eye identity",
            "set_transform: 'eye' is no number",
        ),
        (
            "set_transform 2 identity 1",
            "set_transform: a matrix has 16 floats, not 2",
        ),
        (
            "multiply_transform 2 translation 1 2",
            "multiply_transform: translation has 3 floats, not 2",
        ),
        (
            "set_transform 2 1 0 0 0 0 1 0 0 0 0 1 0 0 0 0 x",
            "set_transform: 'x' is no float",
        ),
        (
            "set_transform 4294967296 identity",
            "set_transform: 4294967296 is too large",
        ),
        (
            "set_material diffuse=1,1,1",
            "set_material: diffuse: diffuse has 4 floats, not 3",
        ),
        (
            "set_material power=1 power=2",
            "set_material: power stands twice",
        ),
        (
            "set_material gloss=1",
            "set_material: 'gloss=1' is no field",
        ),
        ("set_light_at", "set_light_at: write the light's INDEX"),
        (
            "set_light_at 0 kind=spot",
            "set_light_at: 'kind=spot' is no field",
        ),
        (
            "set_light_at 0 type=sun",
            "set_light_at: type: 'sun' is no number",
        ),
        ("set_light_at -1", "set_light_at: '-1' is no number"),
        (
            "set_light_at 0 attenuation=1",
            "set_light_at: attenuation: attenuation has 3 floats, not 1",
        ),
        (
            "set_light_enabled_at 0",
            "set_light_enabled_at: write 0 or 1",
        ),
        (
            "set_light_enabled_at 0 yes",
            "set_light_enabled_at: write 0 or 1",
        ),
        (
            "set_fog_start",
            "set_fog_start: wants one word behind it, not 0",
        ),
        (
            "set_fog_end 1 2",
            "set_fog_end: wants one word behind it, not 2",
        ),
        (
            "set_fog_density 1e39",
            "set_fog_density: 1e39 is beyond every float",
        ),
        (
            "set_ambient 0x123456789",
            "set_ambient: 0x123456789 is too large",
        ),
        (
            "set_texture_mask 256",
            "set_texture_mask: 256 is too large: write 255 at most",
        ),
        ("mark", "mark: write dirty bits, names of sections, or all"),
        ("mark WV NIL", "mark: 'NIL' is no section"),
        ("mark 1 2", "mark: '1' is no section"),
        ("take 1", "take: has nothing behind it"),
        ("refresh lit=1", "refresh: 'lit=1' is no word of a key"),
        ("overwrite", "overwrite: write a ROW and four FLOATs"),
        (
            "overwrite 1115 0 0 0 0",
            "overwrite: 1115 is too large: write 1114 at most",
        ),
        ("overwrite 6..5 0 0 0 0", "overwrite: 6..5 has no row"),
        ("overwrite 5 0 0 0", "overwrite: a row has 4 floats, not 3"),
        ("read_in", "read_in: write file PATH, or bytes"),
        ("read_in file", "read_in: write file PATH"),
        ("read_in file no-such-file", "read_in: "),
        ("read_in bytes 5", "read_in: '5' is no PLACE:HEX"),
        ("read_in bytes 5:1", "read_in: '5:1' is no PLACE:HEX"),
        ("read_in bytes 5:xx", "read_in: '5:xx' is no PLACE:HEX"),
        (
            "read_in bytes 24223:0000",
            "read_in: '24223:0000' is no PLACE:HEX",
        ),
        (
            "read_in bytes 24224:00",
            "read_in: '24224:00' is no PLACE:HEX",
        ),
    ] {
        let ran = replay(
            "format",
            &format!("# a comment\nrefresh # another\r\n{line}\nrefresh\n"),
            &options,
        );
        assert_eq!((ran.status, ran.out.as_str()), (2, ""), "{line}");
        let (path, told) = ran.err.split_once(":3: ").unwrap_or_default();
        assert!(
            path.ends_with("/list.calls") && told.starts_with(why),
            "{line}: {}",
            ran.err
        );
        assert!(written.iter().all(|path| !path.exists()), "{line}");
    }
    // Several lines are told at once.
    let ran = replay("many", &"nothing\n".repeat(30), &[]);
    assert_eq!(ran.err.lines().count(), 10);
    assert!(
        ran.err
            .ends_with("list.calls:10: nothing: is no call: calls-replay --help lists them\n")
    );
    let ran = run(
        "calls-replay",
        &[&file(&out, "bytes.calls", b"refresh\n\xFF\xFE\n")],
    );
    assert!(
        ran.status == 2 && ran.err.contains("bytes.calls:2: not UTF-8 text"),
        "{}",
        ran.err
    );
    for (words, why) in [
        (vec![], "write one LIST"),
        (vec!["a", "b"], "write one LIST"),
        (vec!["no-such-file"], "no-such-file: "),
        (vec!["--image"], "--image wants a file"),
    ] {
        let ran = run("calls-replay", &words);
        assert!(ran.status == 2 && ran.err.contains(why), "{}", ran.err);
    }
    // A start that is none: as before, nothing is written.
    let short = file(&out, "short", &[0; 100]);
    for (option, why) in [
        ("--image", "refused 9"),
        ("--mirror", "100 bytes, a mirror has 17840"),
    ] {
        let ran = replay(
            "start",
            "refresh\n",
            &[&[option, short.as_str()], options.as_slice()].concat(),
        );
        assert!(ran.status == 2 && ran.err.contains(why), "{}", ran.err);
        assert!(written.iter().all(|path| !path.exists()));
    }
    assert!(
        run("calls-replay", &["--help"])
            .out
            .contains("read_in bytes [PLACE:HEX ...]")
    );
}

/// A list cut anywhere, and one with bytes exchanged: read or told, never a panic.
#[test]
fn cut_and_garbled_lists_are_read_or_told() {
    let scene = include_bytes!("../../samples/scene.calls").as_slice();
    let none = |_: &str| Err("no file".to_string());
    let (mut read, mut told) = (0, 0);
    let mut seeded = Seeded(3);
    for cut in 0..scene.len() {
        let mut garbled = scene.to_vec();
        for _ in 0..3 {
            garbled[seeded.below(scene.len())] = seeded.of(b" \n#=,:.0x9-\xFF");
        }
        for bytes in [&scene[..cut], &garbled] {
            match list::read("list", bytes, none) {
                Err(why) => {
                    assert!(why.lines().all(|line| line.starts_with("list:")), "{why}");
                    told += 1;
                }
                Ok(lines) => {
                    replayed(World::fresh(), &lines, true).unwrap();
                    read += 1;
                }
            }
        }
    }
    assert!(read > 100 && told > 100, "{read}, {told}");
}
