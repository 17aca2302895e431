//! `image-show`: an image in words.

use std::fmt::Write as _;
use std::path::Path;

use ff_state::{Color, FfImage, Light, Material, Matrix, Vector, VsKey};

use crate::command::{Args, Found, read_short};
use crate::fields::{Entry, Fields};
use crate::key::with_mask_of;
use crate::places;
use crate::reasons::{Finding, Reason, agree, findings};
use crate::sections;
use crate::words::{columns, counted, ranges, shown};

pub const HELP: &str = "\
image-show FILE

Says what a state image holds: matrices, material, lights with their enables and kinds, dirty sections, highest index,
fog, ambient colour, texture mask. Of bytes that are no image it says each reason why the library refuses them 9, and the
byte's place, counted from 0.

Status: 0 an image, 1 bytes that are refused, 2 bad usage or a file that cannot be read.
";

/// More findings than this are counted and not listed.
const LISTED: usize = 40;

pub fn tool(words: Vec<String>) -> Result<Found, String> {
    let args = Args::part(words, &[], &[])?;
    let [path] = args.plain.as_slice() else {
        return Err("write one FILE: image-show FILE (--help says more)".into());
    };
    described(path, &read_short(Path::new(path))?)
}

/// The text on bytes, and whether they are refused.
pub fn described(name: &str, bytes: &[u8]) -> Result<Found, String> {
    let findings = findings(bytes);
    let read = FfImage::from_bytes(bytes);
    if !agree(
        &findings,
        read.as_ref().map(|_| ()).map_err(|&refusal| refusal),
    ) {
        return Err(format!(
            "{name}: the library answers {:?} and this tool finds {findings:?}: one of them is wrong, please report it with the file",
            read.map(|_| "accepted")
        ));
    }
    Ok(match read {
        Ok(image) => Found {
            text: accepted(name, &image),
            wrong: false,
        },
        Err(_) => Found {
            text: refused(name, &findings),
            wrong: true,
        },
    })
}

/// A reason in a line: its place, its name, whose byte it is, what stands there.
#[must_use]
pub fn reason_line(finding: &Finding) -> String {
    let Finding {
        reason,
        place,
        found,
    } = finding;
    let whose = match reason {
        Reason::AnotherLength => String::new(),
        _ => format!("{}: ", places::what(*place)),
    };
    format!("byte {place:>5}  {}: {whose}{found}", reason.name())
}

fn refused(name: &str, findings: &[Finding]) -> String {
    let mut text = format!(
        "{name}: refused 9, {}:\n",
        counted(findings.len(), "reason")
    );
    for finding in findings.iter().take(LISTED) {
        let _ = writeln!(text, "  {}", reason_line(finding));
    }
    if findings.len() > LISTED {
        let _ = writeln!(text, "  and {} more", findings.len() - LISTED);
    }
    text.push_str("Next: every call on these bytes is refused 9 and changes nothing; go back to an image that the library wrote, or mend the bytes above.\n");
    text
}

fn accepted(name: &str, image: &FfImage) -> String {
    let fields = Fields::read(image);
    let mut text = format!("{name}: an image of {} bytes\n\n", places::LENGTH);
    let dirty = u32::from(fields.dirty);
    let _ = writeln!(
        text,
        "dirty sections   {} (bits {dirty})",
        sections::names(dirty)
    );
    let _ = writeln!(
        text,
        "highest index    {}, of the world matrices that were ever set",
        fields.highest
    );
    let [start, end, density] = fields.fog.map(shown);
    let _ = writeln!(
        text,
        "fog              start {start}, end {end}, density {density}"
    );
    let [blue, green, red, alpha] = fields.ambient.to_le_bytes();
    let _ = writeln!(
        text,
        "ambient colour   0x{:08X}: red {red}, green {green}, blue {blue}, alpha {alpha}",
        fields.ambient
    );
    let _ = writeln!(text, "texture mask     {}", stages(fields.texture_mask));
    transforms(&mut text, &fields);
    material(&mut text, &fields.material);
    lights(&mut text, image, &fields);
    text.push_str("\nNext: tools/run mirror-check compares a dump of a mirror with this image, under the key of its last refresh.\n");
    text
}

fn stages(mask: u8) -> String {
    let set: Vec<usize> = (0..8).filter(|i| mask & (1 << i) != 0).collect();
    if set.is_empty() {
        "0: no texture matrix in use".into()
    } else {
        format!("0x{mask:02X}: texture matrix {} in use", ranges(&set))
    }
}

fn transforms(text: &mut String, fields: &Fields) {
    one_matrix(text, "view (state 2)", &fields.view);
    one_matrix(text, "projection (state 3)", &fields.projection);
    for (name, first, matrices) in [
        ("world matrix", 256, &fields.palette),
        ("texture matrix", 16, &fields.texture),
    ] {
        let plain = |m: &Matrix| m.to_bytes() == Matrix::IDENTITY.to_bytes();
        for (i, matrix) in matrices.iter().enumerate().filter(|(_, m)| !plain(m)) {
            one_matrix(text, &format!("{name} {i} (state {})", first + i), matrix);
        }
        let others: Vec<usize> = (0..matrices.len())
            .filter(|&i| plain(&matrices[i]))
            .collect();
        if !others.is_empty() {
            let _ = writeln!(text, "\n{name} {}: the identity", ranges(&others));
        }
    }
}

fn one_matrix(text: &mut String, name: &str, matrix: &Matrix) {
    if matrix.to_bytes() == Matrix::IDENTITY.to_bytes() {
        let _ = writeln!(text, "\n{name}: the identity");
        return;
    }
    let _ = writeln!(text, "\n{name}");
    for row in &matrix.m {
        let _ = writeln!(text, "  {}", columns(row));
    }
}

fn rgba(c: Color) -> String {
    columns(&[c.r, c.g, c.b, c.a])
}

fn xyz(v: Vector) -> String {
    columns(&[v.x, v.y, v.z])
}

fn material(text: &mut String, m: &Material) {
    let _ = writeln!(
        text,
        "\nmaterial   {:>13} {:>13} {:>13} {:>13}",
        "red", "green", "blue", "alpha"
    );
    for (name, color) in [
        ("diffuse", m.diffuse),
        ("ambient", m.ambient),
        ("specular", m.specular),
        ("emissive", m.emissive),
    ] {
        let _ = writeln!(text, "  {name:<8} {}", rgba(color));
    }
    let _ = writeln!(text, "  {:<8} {}", "power", columns(&[m.power]));
}

/// What a type lights, in a word.
#[must_use]
pub fn kind(type_: u32) -> String {
    match type_ {
        1 => "point".into(),
        2 => "spot".into(),
        3 => "directional".into(),
        other => format!("type {other}, lights nothing"),
    }
}

fn lights(text: &mut String, image: &FfImage, fields: &Fields) {
    let stored = fields.lights();
    let enabled = stored.iter().filter(|entry| entry.enabled).count();
    let _ = writeln!(
        text,
        "\nlights     {} stored, {enabled} enabled, {} of 56 places from index 8 on taken",
        stored.len(),
        fields.entries.len()
    );
    if !stored.is_empty() {
        let _ = writeln!(text, "  {:>10}  {:<8}  kind", "index", "enabled");
    }
    for Entry {
        index,
        enabled,
        light,
    } in &stored
    {
        let enabled = if *enabled { "yes" } else { "no" };
        let _ = writeln!(
            text,
            "  {index:>10}  {enabled:<8}  {}{}",
            kind(light.type_),
            default_word(light)
        );
    }
    let mask = |preview| {
        with_mask_of(
            image,
            &VsKey {
                preview,
                ..VsKey::default()
            },
        )
        .light_active_mask
    };
    let _ = writeln!(
        text,
        "  a key's light_active_mask over them: {}, for a preview {} (or 0)",
        mask(false),
        mask(true)
    );
    for Entry { index, light, .. } in stored
        .iter()
        .filter(|entry| default_word(&entry.light).is_empty())
    {
        let _ = writeln!(text, "\nlight {index}, {}", kind(light.type_));
        for (name, color) in [
            ("diffuse", light.diffuse),
            ("specular", light.specular),
            ("ambient", light.ambient),
        ] {
            let _ = writeln!(text, "  {name:<11} {}", rgba(color));
        }
        for (name, vector) in [("position", light.position), ("direction", light.direction)] {
            let _ = writeln!(text, "  {name:<11} {}", xyz(vector));
        }
        let _ = writeln!(text, "  attenuation {}", columns(&light.attenuation));
        let _ = writeln!(
            text,
            "  range {}, falloff {}, theta {}, phi {}",
            shown(light.range),
            shown(light.falloff),
            shown(light.theta),
            shown(light.phi)
        );
    }
}

fn default_word(light: &Light) -> &'static str {
    if light.to_bytes() == Light::default().to_bytes() {
        ", the default light"
    } else {
        ""
    }
}
