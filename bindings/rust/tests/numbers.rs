//! A number stands in one place, the tables of crates/; the header and this crate repeat it and are held to it here.

use std::collections::BTreeMap;
use std::fs;
use std::path::Path;

use ff_state::*;

fn text(path: &str) -> String {
    let root = Path::new(env!("CARGO_MANIFEST_DIR")).join("../..");
    fs::read_to_string(root.join(path)).unwrap_or_else(|error| panic!("{path}: {error}"))
}

fn number(digits: &str) -> usize {
    let digits = digits.replace('_', "");
    digits
        .parse()
        .unwrap_or_else(|_| panic!("{digits} is no number"))
}

/// The constants of the header that are written as decimal numbers.
fn header() -> BTreeMap<String, usize> {
    let text = text("include/ff_state.h");
    let parts = text.split(['\n', ',', '{', '}']).map(str::trim);
    let constants = parts.filter_map(|part| part.split_once(" = "));
    let decimal = constants.filter_map(|(name, rest)| {
        let digits: String = rest.chars().take_while(char::is_ascii_digit).collect();
        let value = digits.parse().ok()?;
        Some((name.strip_prefix("FF_")?.to_string(), value))
    });
    decimal.collect()
}

/// The values of the header's constants of these names, with this before each.
fn named(before: &str, names: &[&str]) -> Vec<usize> {
    let header = header();
    let value = |name: &&str| match header.get(&format!("{before}{name}")) {
        Some(&value) => value,
        None => panic!("the header has no FF_{before}{name}"),
    };
    names.iter().map(value).collect()
}

/// How many of the header's constants begin so.
fn beginning(before: &str) -> usize {
    header()
        .keys()
        .filter(|name| name.starts_with(before))
        .count()
}

/// The places of a definition that reads a record's fields at `at + n`, the first at `at`.
fn fields_at(path: &str, definition: &str) -> Vec<usize> {
    let text = text(path);
    let body = text.split_once(definition).expect("the definition").1;
    let places = body.split(" bytes ").skip(1).filter_map(|rest| {
        let rest = rest.trim_start_matches('(').strip_prefix("at")?;
        match rest.strip_prefix(" + ") {
            Some(rest) => Some(number(rest.split(')').next()?)),
            None => Some(0),
        }
    });
    places.collect()
}

#[test]
fn an_images_fields_lie_where_the_format_has_them() {
    let table = text("crates/image/specs/Format.antt");
    let rows = table
        .lines()
        .filter_map(|line| line.trim_start_matches(['∷', ' ']).strip_prefix("field "));
    let mut places: Vec<usize> = rows
        .map(|row| number(row.split(' ').next().unwrap()))
        .collect();
    // One field of the table has fog's three floats and the ambient colour.
    let fog = places
        .iter()
        .position(|&place| place == image_at::FOG_START)
        .expect("fog's place");
    let states = fields_at(
        "crates/codec/specs/RenderStates.antt",
        "states_at bytes at =",
    );
    places.splice(fog..=fog, states.iter().map(|at| image_at::FOG_START + at));

    let here = [
        image_at::VIEW,
        image_at::PROJECTION,
        image_at::WORLD,
        image_at::TEXTURE,
        image_at::MATERIAL,
        image_at::LIGHTS,
        image_at::ENABLED,
        image_at::DEFINED,
        image_at::DIRTY,
        image_at::ZERO,
        image_at::HIGHEST_WORLD,
        image_at::OVERFLOW_COUNT,
        image_at::ENTRIES,
        image_at::FOG_START,
        image_at::FOG_END,
        image_at::FOG_DENSITY,
        image_at::AMBIENT,
        image_at::TEXTURE_MASK,
    ];
    let names = [
        "VIEW",
        "PROJECTION",
        "WORLD",
        "TEXTURE",
        "MATERIAL",
        "LIGHTS",
        "ENABLED",
        "DEFINED",
        "DIRTY",
        "ZERO",
        "HIGHEST_WORLD",
        "OVERFLOW_COUNT",
        "ENTRIES",
        "FOG_START",
        "FOG_END",
        "FOG_DENSITY",
        "AMBIENT",
        "TEXTURE_MASK",
    ];
    assert_eq!(here[..], places[..]);
    assert_eq!(named("IMAGE_AT_", &names), places);
    assert_eq!(beginning("IMAGE_AT_"), places.len());
    assert_eq!(named("", &["IMAGE_BYTES"]), [FfImage::BYTES]);
    assert_eq!(image_at::TEXTURE_MASK + 4, FfImage::BYTES);
}

#[test]
fn a_records_fields_lie_where_the_codec_has_them() {
    let light = [
        "TYPE",
        "DIFFUSE",
        "SPECULAR",
        "AMBIENT",
        "POSITION",
        "DIRECTION",
        "RANGE",
        "FALLOFF",
        "ATTENUATION0",
        "ATTENUATION1",
        "ATTENUATION2",
        "THETA",
        "PHI",
    ];
    let places = fields_at("crates/codec/specs/Light.antt", "light_at bytes at =");
    assert_eq!(named("LIGHT_AT_", &light), places);
    assert_eq!(beginning("LIGHT_AT_"), places.len());
    assert_eq!(named("", &["LIGHT_BYTES"]), [Light::BYTES]);

    let material = ["DIFFUSE", "AMBIENT", "SPECULAR", "EMISSIVE", "POWER"];
    let places = fields_at("crates/codec/specs/Material.antt", "material_at bytes at =");
    assert_eq!(named("MATERIAL_AT_", &material), places);
    assert_eq!(beginning("MATERIAL_AT_"), places.len());
    assert_eq!(named("", &["MATERIAL_BYTES"]), [Material::BYTES]);

    let places = fields_at("crates/codec/specs/Entry.antt", "entry_at bytes at =");
    assert_eq!(named("ENTRY_AT_", &["INDEX", "ENABLED", "LIGHT"]), places);
    assert_eq!(places[2] + Light::BYTES, ENTRY_BYTES);
    assert_eq!(
        named("", &["ENTRY_BYTES", "MATRIX_BYTES"]),
        [ENTRY_BYTES, Matrix::BYTES]
    );
}

#[test]
fn sections_have_the_bits_and_rows_of_the_table() {
    let table = text("crates/sections/specs/Sections.antt");
    let value = |definition: &str, section: &str| {
        let line = format!("{definition} {section} = ");
        let row = table.lines().find_map(|row| row.strip_prefix(&line));
        number(row.unwrap_or_else(|| panic!("no {line}")))
    };
    let sections = [
        ("Wv", "WV", DIRTY_WV, ROW_WV),
        ("Proj", "PROJ", DIRTY_PROJ, ROW_PROJ),
        ("Fog", "FOG", DIRTY_FOG, ROW_FOG),
        ("Ambient", "AMBIENT", DIRTY_AMBIENT, ROW_AMBIENT),
        ("Material", "MATERIAL", DIRTY_MATERIAL, ROW_MATERIAL),
        ("Lights", "LIGHTS", DIRTY_LIGHTS, ROW_LIGHTS),
        ("Tt", "TT", DIRTY_TT, ROW_TT),
        ("Palette", "PALETTE", DIRTY_PALETTE, ROW_PALETTE),
    ];
    for (section, name, bit, row) in sections {
        let table = [value("bit_of", section), value("first_row", section)];
        assert_eq!(table, [bit as usize, row], "{name} of the crate");
        let header = [named("DIRTY_", &[name]), named("ROW_", &[name])].concat();
        assert_eq!(header, table, "{name} of the header");
    }
    let all: u32 = sections.iter().map(|&(_, _, bit, _)| bit).sum();
    assert_eq!(
        (ALL_DIRTY, named("DIRTY_", &["ALL"])),
        (all, vec![all as usize])
    );
    assert_eq!(named("", &["ROWS", "ROW_BYTES"]), [ROWS, ROW_BYTES]);
    let mirror = named("", &["MIRROR_BYTES", "MIRROR_FLOATS"]);
    assert_eq!(mirror, [Mirror::BYTES, MIRROR_FLOATS]);
}

#[test]
fn counts_are_the_same_in_the_header_and_here() {
    let names = [
        "WORLD_MATRICES",
        "TEXTURE_STAGES",
        "LIGHT_SLOTS",
        "OVERFLOW_LIGHTS",
        "INDEXED_MATRICES",
        "BLEND_MATRICES",
        "LIGHT_ROWS",
    ];
    let here = [
        WORLD_MATRICES,
        TEXTURE_STAGES,
        LIGHT_SLOTS,
        OVERFLOW_LIGHTS,
        INDEXED_MATRICES,
        BLEND_MATRICES,
        LIGHT_ROWS,
    ];
    assert_eq!(named("", &names), here);
    // Two of them, and one that this crate does not name, in the table of keys.
    let keys = text("crates/sections/specs/Key.antt");
    for (preview, name) in [(true, "PREVIEW_LIGHTS"), (false, "LIGHT_SLOTS")] {
        let line = format!("limit_of {preview} = {}", named("", &[name])[0]);
        assert!(keys.lines().any(|row| row == line), "no line {line}");
    }
    // What they count, in the image's table.
    assert_eq!(
        image_at::WORLD + WORLD_MATRICES * Matrix::BYTES,
        image_at::TEXTURE
    );
    assert_eq!(
        image_at::TEXTURE + TEXTURE_STAGES * Matrix::BYTES,
        image_at::MATERIAL
    );
    assert_eq!(
        image_at::LIGHTS + LIGHT_SLOTS * Light::BYTES,
        image_at::ENABLED
    );
    assert_eq!(
        image_at::ENTRIES + OVERFLOW_LIGHTS * ENTRY_BYTES,
        image_at::FOG_START
    );
    assert_eq!(ROW_LIGHTS + LIGHT_SLOTS * LIGHT_ROWS, ROW_TT);
    assert_eq!(ROW_PALETTE + 4 * BLEND_MATRICES, ROWS);
    let indexed = VsKey {
        vertex_blend_count: 1,
        vertex_blend_indexed: true,
        ..VsKey::default()
    };
    assert_eq!(
        FfImage::fresh().palette_section_rows(&indexed),
        4 * INDEXED_MATRICES
    );
}

#[test]
fn the_version_is_the_headers_the_crates_and_the_librarys() {
    let header = text("include/ff_state.h");
    let line = header
        .lines()
        .find_map(|line| line.strip_prefix("#define FF_STATE_VERSION 0x"));
    let digits = line.expect("FF_STATE_VERSION").trim_end_matches('u');
    assert_eq!(u32::from_str_radix(digits, 16), Ok(VERSION));
    assert_eq!(version(), VERSION);
    let [major, minor, patch, rest] = VERSION.to_be_bytes();
    assert_eq!(
        (format!("{major}.{minor}.{patch}"), rest),
        (env!("CARGO_PKG_VERSION").to_string(), 0)
    );
}
