//! Lists from a seed: those that keep demand 3's conditions are right, those that leave a row wrong are explained, and each one
//! recorded and replayed again leaves the same image and mirror.

use crate::common::{Seeded, file, folder, run};
use ff_state::{FfImage, Light, Material, Matrix, Mirror, Recorder, VsKey};
use tools::list::{self, Line};
use tools::recording::recorded;
use tools::replay::World;
use tools::report::{Replayed, replayed};

fn lines(text: &[u8]) -> Vec<Line> {
    list::read("list", text, |path| Err(format!("{path}: no file here"))).unwrap()
}

fn replay(lines: &[Line], keep_going: bool) -> Replayed {
    replayed(World::fresh(), lines, keep_going).unwrap()
}

/// A list of some calls. Where it keeps the conditions it marks every section behind a reading in and an overwriting and before
/// a refresh under another key, names no mask that lights change, and takes no bits; other refreshes have what the calls dirtied.
fn random_list(seeded: &mut Seeded, calls: usize, keeps: bool) -> String {
    let mut list = String::new();
    let mut key = String::new();
    for _ in 0..calls {
        let float = |seeded: &mut Seeded| {
            seeded.of(&[
                "0",
                "-0",
                "1",
                "0.5",
                "-3.25",
                "1e20",
                "0x7FC00001",
                "0x7F800000",
            ])
        };
        let index = |seeded: &mut Seeded| seeded.of(&["0", "1", "7", "8", "9", "4000000000"]);
        let mark = if keeps || seeded.below(3) == 0 {
            "\nmark all"
        } else {
            ""
        };
        let line = match seeded.below(16) {
            0 | 1 => {
                let call = seeded.of(&["set", "multiply"]);
                let state = seeded.of(&["2", "3", "16", "23", "256", "257", "300", "15", "512"]);
                let [x, y, z] = [(); 3].map(|()| float(seeded));
                format!("{call}_transform {state} translation {x} {y} {z}")
            }
            2 => format!(
                "set_material diffuse={0},{0},1,{0} power={0}",
                float(seeded)
            ),
            3 => {
                let kind = seeded.of(&["point", "spot", "directional", "7"]);
                format!(
                    "set_light_at {} type={kind} direction={},1,0 theta={}",
                    index(seeded),
                    float(seeded),
                    float(seeded)
                )
            }
            4 | 5 => format!("set_light_enabled_at {} {}", index(seeded), seeded.below(2)),
            6 => format!(
                "set_fog_{} {}",
                seeded.of(&["start", "end", "density"]),
                float(seeded)
            ),
            7 => format!("set_ambient {}", seeded.next()),
            8 => format!("set_texture_mask {}", seeded.below(256)),
            9 => format!("mark {}", seeded.below(260)),
            10 if !keeps => "take".into(),
            11 => {
                let bytes = seeded.of(&[
                    "17926:00",
                    "17926:10 24216:0a0b0c0d",
                    "17926:0000f0",
                    "17927:01",
                    "24204:0000803f 17926:00",
                ]);
                format!("read_in bytes {bytes}{mark}")
            }
            12 => {
                let row = seeded.below(120);
                format!(
                    "overwrite {row}..{} {} 2 3 4{mark}",
                    row + seeded.below(8),
                    float(seeded)
                )
            }
            13 => {
                let flags = [
                    "has_rhw",
                    "lighting_enabled",
                    "specular_enable",
                    "vertex_blend_indexed",
                    "preview",
                ];
                let flags =
                    flags.map(|name| format!("{name}={} ", usize::from(seeded.below(4) == 0)));
                let mask = if keeps {
                    seeded.of(&["0", "1", "3"])
                } else {
                    seeded.of(&["auto", "auto", "0", "3"])
                };
                let mark = if keeps {
                    "mark all
"
                } else {
                    ""
                };
                key = format!(
                    "{}light_active_mask={mask} fog_mode={} vertex_blend_count={}",
                    flags.concat(),
                    seeded.below(2),
                    seeded.of(&[0, 0, 1, 5, 255])
                );
                format!("{mark}refresh {key}")
            }
            _ => format!("refresh {key}"),
        };
        list.push_str(&line);
        list.push('\n');
    }
    list
}

#[test]
fn lists_that_keep_the_conditions_are_right() {
    let (mut seeded, mut idle) = (Seeded(21), 0);
    for _ in 0..60 {
        let list = random_list(&mut seeded, 60, true);
        let replay = replay(&lines(list.as_bytes()), false);
        assert!(!replay.wrong, "{list}\n{}", replay.text);
        // A section that a refresh does not write has no sign behind its count.
        idle += replay.text.matches("0/4  ").count();
    }
    assert!(idle > 100, "{idle}");
}

/// Demand 3: a wrong row needs a broken condition or an overwriting, and a marking of every section and a refresh recover.
#[test]
fn a_wrong_row_has_a_cause_and_a_marking_mends_it() {
    let mut seeded = Seeded(22);
    let mut causes = [0; 4];
    for _ in 0..200 {
        let list = random_list(&mut seeded, 40, false);
        let replay = replay(&lines(list.as_bytes()), false);
        let Some((_, why)) = replay.text.split_once("\nWhy: ") else {
            continue;
        };
        assert!(
            !why.starts_with("the list breaks none"),
            "{list}\n{}",
            replay.text
        );
        assert!(
            why.contains("Tried: with 'mark all' just before")
                && why.contains("no row is wrong after it"),
            "{list}\n{}",
            replay.text
        );
        for (times, words) in causes.iter_mut().zip([
            "the key's shape changed",
            "took the mark",
            "an image was read in",
            "overwrote rows",
        ]) {
            *times += u32::from(why.contains(words));
        }
    }
    assert!(causes.iter().all(|&times| times > 5), "{causes:?}");
}

#[test]
fn a_recorded_list_leaves_the_same_image_and_mirror() {
    let mut seeded = Seeded(23);
    for keeps in [true, false].repeat(40) {
        let list = random_list(&mut seeded, 40, keeps);
        let lines_before = lines(list.as_bytes());
        let (text, image, mirror) = recorded(&lines_before, &World::fresh().mirror).unwrap();
        let before = replay(&lines_before, true).world;
        let after = replay(&lines(&text), true).world;
        for world in [&before, &after] {
            assert!(world.image == image && world.mirror == mirror, "{list}");
        }
        // And what is recorded from the record is the record.
        assert_eq!(
            recorded(&lines(&text), &World::fresh().mirror).unwrap().0,
            text
        );
    }
}

/// A program of its own, whose mirror begins as zeros and is overwritten where the recorder does not see it.
#[test]
fn a_program_records_itself_and_is_replayed() {
    let (mut state, mut mirror) = (Recorder::new(Vec::new()), Mirror::new());
    let mut world = Matrix::IDENTITY;
    let mut light = Light {
        type_: 2,
        theta: 0.5,
        phi: f32::NAN,
        ..Light::default()
    };
    for frame in 0..20_u32 {
        world.m[3] = [0.1 * frame as f32, 1e-7, -0.0, 1.0];
        state.multiply_transform(256 + frame % 3, &world).unwrap();
        light.position.x = 0.3 * frame as f32;
        state.set_light_at(5 + frame, &light).unwrap();
        state
            .set_light_enabled_at(5 + frame, frame % 2 == 0)
            .unwrap();
        let masks = state.compacted_light_masks();
        let key = VsKey {
            lighting_enabled: true,
            light_active_mask: masks.active,
            vertex_blend_count: 3,
            ..VsKey::default()
        };
        if frame == 7 {
            mirror.as_mut_bytes()[40..90].fill(0xEE);
        }
        state.mark_ff_vs_dirty(255).unwrap();
        state.refresh(&key, &mut mirror).unwrap();
    }
    let saved = state.as_bytes().to_vec();
    state.read_in(&saved).unwrap();
    let (image, text) = state.finish().unwrap();
    let replay = replay(&lines(&text), false);
    assert!(!replay.wrong, "{}", replay.text);
    assert!(replay.world.image == image && replay.world.mirror == mirror);
}

/// A light and a material of which each number is another one, with floats that have no short decimals.
#[test]
fn every_number_is_recorded_as_it_is() {
    let bytes: Vec<u8> = (1..27_u32)
        .flat_map(|i| (0x3DCC_CCCD + 0x1_0001 * i).to_le_bytes())
        .collect();
    let light = Light::from_bytes(bytes.as_slice().try_into().unwrap());
    let material = Material::from_bytes(bytes[..Material::BYTES].try_into().unwrap());
    let matrix = Matrix::from_bytes(bytes[..Matrix::BYTES].try_into().unwrap());
    let mut state = Recorder::new(Vec::new());
    state.set_light_at(3, &light).unwrap();
    state.set_material(&material);
    state.set_transform(300, &matrix).unwrap();
    let (image, text) = state.finish().unwrap();
    let replayed = replay(&lines(&text), false).world.image;
    assert!(replayed == image);
    assert_eq!(
        replayed.get_light_at(3).unwrap().to_bytes().as_slice(),
        bytes
    );
    assert_eq!(
        replayed.material().to_bytes().as_slice(),
        &bytes[..Material::BYTES]
    );
    assert_eq!(
        replayed.transform(300).unwrap().to_bytes().as_slice(),
        &bytes[..Matrix::BYTES]
    );
}

/// The files that the program writes: image and mirror as they are at the end, and the record, which leaves the same.
#[test]
fn the_program_writes_what_it_is_asked_to() {
    let folder = folder("written-files");
    let mut clean = FfImage::fresh();
    clean.take_ff_vs_dirty();
    file(&folder, "clean.image", clean.as_bytes());
    let list = file(&folder, "list.calls", b"set_fog_start 0.1\nrefresh\nread_in file clean.image\nmark all\nset_ambient 7\nrefresh fog_mode=2\n");
    let path = |name: &str| folder.join(name).to_str().unwrap().to_string();
    let names = ["--write-image", "--write-mirror", "--record"];
    let write = |list: &str, round: &str| {
        let paths = names.map(|name| path(&format!("{round}{name}")));
        let mut words = vec![list];
        for (name, path) in names.iter().zip(&paths) {
            words.extend([*name, path.as_str()]);
        }
        let ran = run("calls-replay", &words);
        assert_eq!(ran.status, 0, "{}", ran.out);
        paths.map(|path| std::fs::read(path).unwrap())
    };
    let first = write(&list, "first");
    let second = write(&path("first--record"), "second");
    assert!(first == second);
    assert_eq!((first[0].len(), first[1].len()), (24_224, 17_840));
    // Fog mode 2 of a fresh fog: row 8 is zeros; ambient 7 is blue 7/255.
    assert_eq!(first[1][128..144], [0; 16]);
    assert_eq!(first[1][152..156], (7.0_f32 / 255.0).to_le_bytes());
    // Written also where a row is wrong, and looked at with mirror-check.
    let list = file(
        &folder,
        "stale.calls",
        b"set_material ambient=1,1,1,1\nrefresh\nrefresh lighting_enabled=1\n",
    );
    let (image, mirror) = (path("stale.image"), path("stale.mirror"));
    let ran = run(
        "calls-replay",
        &[&list, "--write-image", &image, "--write-mirror", &mirror],
    );
    assert_eq!(ran.status, 1);
    let ran = run("mirror-check", &[&image, &mirror, "lighting_enabled=1"]);
    assert!(
        ran.status == 1 && ran.out.contains("3 rows stale in MATERIAL."),
        "{}",
        ran.out
    );
}
