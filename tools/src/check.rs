//! `mirror-check`: the wrong rows of a mirror, beside the full packing of an image under a key.

use std::fmt::Write as _;
use std::path::Path;

use ff_state::{FfImage, Mirror, VsKey};

use crate::command::{Args, Found, read_short, write};
use crate::compare::{WrongRow, counts, wrong_rows};
use crate::fields::Fields;
use crate::key::{self, with_mask_of};
use crate::map::{self, Kind};
use crate::sections::{self, Packing, SECTIONS, packed};
use crate::words::{columns, counted};

#[must_use]
pub fn help() -> String {
    format!(
        "\
mirror-check IMAGE MIRROR [KEY...] [--map] [--svg FILE]

Compares a dump of a mirror (17840 bytes: 1115 rows of 4 little-endian floats) with the rows that an image packs under a
key, and prints each wrong row with its number, its section, and the expected and found floats. A wrong row whose section
is dirty is mended by the next refresh; one whose section is clean is stale: a marking is missing.
  --map         draws the mirror, a sign a row
  --svg FILE    writes the drawing as SVG

{}
Status: 0 no row is stale, 1 some are, 2 bad usage, a file that cannot be read, an image or a key that is refused.
",
        key::HELP
    )
}

pub fn tool(words: Vec<String>) -> Result<Found, String> {
    let args = Args::part(words, &["--map"], &["--svg"])?;
    let [image_path, mirror_path, key_words @ ..] = args.plain.as_slice() else {
        return Err(
            "write an IMAGE and a MIRROR: mirror-check IMAGE MIRROR [KEY...] (--help says more)"
                .into(),
        );
    };
    let key = key::read(key_words.iter().map(String::as_str))?;
    let image = read_image(image_path)?;
    let mirror = read_mirror(mirror_path)?;
    let key = key.on(&image);
    let packing = packing_under(&image, &key)?;
    let wrong = wrong_rows(&packing, &mirror);
    let dirty = u32::from(Fields::read(&image).dirty);
    let kinds = map::kinds(&packing, &wrong, dirty);

    let mut text = format!(
        "image {image_path}, dirty sections: {}\nmirror {mirror_path}\nkey {}; a draw under it reads {} rows\n",
        sections::names(dirty),
        key::words(&key),
        image.vs_row_count(&key)
    );
    rows(&mut text, &wrong, dirty);
    summary(&mut text, &packing, &wrong, dirty);
    if args.has("--map") {
        text.push('\n');
        text.push_str(&map::drawn(&kinds));
    }
    if let Some(path) = args.value("--svg") {
        write(
            path,
            map::svg(&kinds, &format!("mirror {mirror_path}")).as_bytes(),
        )?;
        let _ = writeln!(text, "\ndrawing written to {path}");
    }
    let stale = kinds.iter().filter(|&&kind| kind == Kind::Stale).count();
    text.push('\n');
    text.push_str(&next(&wrong, dirty, stale));
    Ok(Found {
        text,
        wrong: stale != 0,
    })
}

/// The image of a file.
pub fn read_image(path: &str) -> Result<FfImage, String> {
    let bytes = read_short(Path::new(path))?;
    let refused = |refusal| format!("{path}: {refusal}: tools/run image-show {path} says why");
    FfImage::from_bytes(&bytes).map_err(refused)
}

/// The mirror of a file.
pub fn read_mirror(path: &str) -> Result<Mirror, String> {
    let bytes = read_short(Path::new(path))?;
    let mut mirror = Mirror::new();
    if bytes.len() != Mirror::BYTES {
        return Err(format!(
            "{path}: {} bytes, a mirror has {}: {} rows of 4 floats",
            bytes.len(),
            Mirror::BYTES,
            Mirror::ROWS
        ));
    }
    mirror.as_mut_bytes().copy_from_slice(&bytes);
    Ok(mirror)
}

/// The packing under a key that a refresh would accept.
fn packing_under(image: &FfImage, key: &VsKey) -> Result<Packing, String> {
    if key.has_rhw {
        return Err("has_rhw=1: such a draw reads no section, and a refresh under it is refused 8: write the key of the last accepted refresh".into());
    }
    packed(image, key).map_err(|refusal| {
        let mask = with_mask_of(image, key).light_active_mask;
        format!(
            "light_active_mask={}: {refusal}: write {mask}, 0 or auto",
            key.light_active_mask
        )
    })
}

fn rows(text: &mut String, wrong: &[WrongRow], dirty: u32) {
    if wrong.is_empty() {
        return;
    }
    let _ = writeln!(
        text,
        "\n  row  section           {:<8} {:>13} {:>13} {:>13} {:>13}",
        "", "x", "y", "z", "w"
    );
    for row in wrong {
        let state = if map::kind(row, dirty) == Kind::Stale {
            "stale"
        } else {
            "dirty"
        };
        let name = SECTIONS[row.section].name;
        let _ = writeln!(
            text,
            "{:>5}  {name:<8}  {state:<7} {:<8} {}",
            row.row,
            "expected",
            columns(&row.expected)
        );
        let _ = writeln!(text, "{:>24} {:<8} {}", "", "found", columns(&row.found));
    }
}

fn summary(text: &mut String, packing: &Packing, wrong: &[WrongRow], dirty: u32) {
    let _ = writeln!(text, "\n  section   first  rows  wrong  the section is");
    for ((section, rows), wrong) in SECTIONS.iter().zip(packing).zip(counts(wrong)) {
        let state = match (dirty & section.bit != 0, wrong) {
            (true, 0) => "dirty",
            (true, _) => "dirty: the next refresh mends it",
            (false, 0) => "clean",
            (false, _) => "clean: stale, a marking is missing",
        };
        let _ = writeln!(
            text,
            "  {:<8}  {:>5}  {:>4}  {wrong:>5}  {state}",
            section.name,
            section.first,
            rows.len()
        );
    }
}

fn next(wrong: &[WrongRow], dirty: u32, stale: usize) -> String {
    if wrong.is_empty() {
        return "No row is wrong.\n".into();
    }
    if stale == 0 {
        return format!(
            "No row is stale: {} wrong in dirty sections. Next: refresh under this key.\n",
            counted(wrong.len(), "row")
        );
    }
    let bits = wrong.iter().map(|row| SECTIONS[row.section].bit & !dirty);
    let bits = bits.fold(0, |all, bit| all | bit);
    format!(
        "{} stale in {}. Next: see that the key is that of the last accepted refresh; ff_mark_ff_vs_dirty with {bits} and a refresh mend the rows;\n\
         tools/run calls-replay names the call that lacked its mark.\n",
        counted(stale, "row"),
        sections::names(bits)
    )
}
