//! A list of calls: its format, read line by line.

use ff_state::{
    ALL_DIRTY, D3DTS_PROJECTION, D3DTS_VIEW, D3DTS_WORLD, FfImage, Light, Material, Matrix, Mirror,
};

use crate::key::{self, KeyWords};
use crate::records::{floats, light, material, matrix};
use crate::sections;
use crate::words::{cut, float, number};

/// The format, for the help of `calls-replay`.
pub const HELP: &str = "\
A LIST is text, one call a line, words parted by blanks; # begins a comment. Numbers are decimal, or hexadecimal behind 0x.
A FLOAT is decimal (-1.5e3), or its 32 bits behind 0x (0x7F800000). ROWs go from 0 to 1114.
  set_transform STATE MATRIX          STATE: a number, or view, projection, world (256)
  multiply_transform STATE MATRIX     MATRIX: 16 FLOATs row by row, or identity, or translation X Y Z
  set_material NAME=R,G,B,A ...       diffuse, ambient, specular, emissive; power=FLOAT; left out: 0
  set_light_at INDEX NAME=VALUE ...   type=NUMBER or point, spot, directional; diffuse, specular, ambient =R,G,B,A;
                                      position, direction =X,Y,Z; attenuation=A,B,C; range, falloff, theta, phi =FLOAT;
                                      left out: the default light's
  set_light_enabled_at INDEX 0|1
  set_fog_start FLOAT                 also set_fog_end, set_fog_density
  set_ambient NUMBER                  0xAARRGGBB
  set_texture_mask NUMBER             0 to 255
  mark NUMBER                         dirty bits; or section names (mark WV LIGHTS); or all
  take                                takes the dirty bits, as no list of demand 3 does
  refresh [KEY...]
  overwrite ROW X Y Z W               someone else writes a row; ROW..ROW for several, the last included
  read_in file PATH                   reads an image in; PATH has no blank and counts from the list's folder
  read_in bytes [PLACE:HEX ...]       the fresh image's bytes, with these from each place on
";

#[derive(Clone, Debug)]
pub enum Call {
    SetTransform(u32, Matrix),
    MultiplyTransform(u32, Matrix),
    SetMaterial(Material),
    SetLightAt(u32, Box<Light>),
    SetLightEnabledAt(u32, bool),
    SetFogStart(f32),
    SetFogEnd(f32),
    SetFogDensity(f32),
    SetAmbient(u32),
    SetTextureMask(u8),
    Mark(u32),
    Take,
    Refresh(KeyWords),
    /// The first row, the last, and the floats that each gets.
    Overwrite(usize, usize, [f32; 4]),
    ReadIn(Box<[u8]>),
}

/// A call and where it stands.
#[derive(Clone, Debug)]
pub struct Line {
    pub number: usize,
    pub text: String,
    pub call: Call,
}

/// More wrong lines than this are not told.
const TOLD: usize = 10;

/// Every line of a list, or what is wrong with its first wrong lines. `file` hands over what a path names.
pub fn read(
    name: &str,
    bytes: &[u8],
    file: impl Fn(&str) -> Result<Vec<u8>, String>,
) -> Result<Vec<Line>, String> {
    let (mut lines, mut troubles) = (Vec::new(), Vec::new());
    for (place, line) in bytes.split(|&byte| byte == b'\n').enumerate() {
        let number = place + 1;
        match read_line(line, &file) {
            Ok(None) => {}
            Ok(Some((text, call))) => lines.push(Line { number, text, call }),
            Err(why) => troubles.push(format!("{name}:{number}: {why}")),
        }
        if troubles.len() == TOLD {
            break;
        }
    }
    if troubles.is_empty() {
        Ok(lines)
    } else {
        Err(troubles.join("\n"))
    }
}

type Read = Option<(String, Call)>;

fn read_line(line: &[u8], file: &impl Fn(&str) -> Result<Vec<u8>, String>) -> Result<Read, String> {
    let line = std::str::from_utf8(line)
        .map_err(|_| "not UTF-8 text: write the call in plain letters".to_string())?;
    let line = line.split('#').next().unwrap_or("").trim();
    let words: Vec<&str> = line.split_whitespace().collect();
    let Some((&name, rest)) = words.split_first() else {
        return Ok(None);
    };
    let call = read_call(name, rest, file).map_err(|why| format!("{}: {why}", cut(name)))?;
    Ok(Some((line.into(), call)))
}

fn read_call(
    name: &str,
    rest: &[&str],
    file: &impl Fn(&str) -> Result<Vec<u8>, String>,
) -> Result<Call, String> {
    let one = || match rest {
        [word] => Ok(*word),
        _ => Err(format!("wants one word behind it, not {}", rest.len())),
    };
    Ok(match name {
        "set_transform" => {
            let (state, rest) = state(rest)?;
            Call::SetTransform(state, matrix(rest)?)
        }
        "multiply_transform" => {
            let (state, rest) = state(rest)?;
            Call::MultiplyTransform(state, matrix(rest)?)
        }
        "set_material" => Call::SetMaterial(material(rest)?),
        "set_light_at" => {
            let (index, rest) = index(rest)?;
            Call::SetLightAt(index, Box::new(light(rest)?))
        }
        "set_light_enabled_at" => {
            let (index, rest) = index(rest)?;
            match rest {
                ["0"] => Call::SetLightEnabledAt(index, false),
                ["1"] => Call::SetLightEnabledAt(index, true),
                _ => return Err("write 0 or 1 behind the index, and nothing else".into()),
            }
        }
        "set_fog_start" => Call::SetFogStart(float(one()?)?),
        "set_fog_end" => Call::SetFogEnd(float(one()?)?),
        "set_fog_density" => Call::SetFogDensity(float(one()?)?),
        "set_ambient" => Call::SetAmbient(number(one()?, u32::MAX)?),
        "set_texture_mask" => Call::SetTextureMask(number(one()?, 255)? as u8),
        "mark" => Call::Mark(bits(rest)?),
        "take" if rest.is_empty() => Call::Take,
        "take" => return Err("has nothing behind it".into()),
        "refresh" => Call::Refresh(key::read(rest.iter().copied())?),
        "overwrite" => overwrite(rest)?,
        "read_in" => Call::ReadIn(image(rest, file)?.into()),
        _ => return Err("is no call: calls-replay --help lists them".into()),
    })
}

fn state<'a, 'b>(rest: &'a [&'b str]) -> Result<(u32, &'a [&'b str]), String> {
    let Some((word, rest)) = rest.split_first() else {
        return Err("write a STATE and a MATRIX".into());
    };
    let state = match *word {
        "view" => D3DTS_VIEW,
        "projection" => D3DTS_PROJECTION,
        "world" => D3DTS_WORLD,
        word => number(word, u32::MAX)?,
    };
    Ok((state, rest))
}

fn index<'a, 'b>(rest: &'a [&'b str]) -> Result<(u32, &'a [&'b str]), String> {
    let Some((word, rest)) = rest.split_first() else {
        return Err("write the light's INDEX".into());
    };
    Ok((number(word, u32::MAX)?, rest))
}

fn bits(rest: &[&str]) -> Result<u32, String> {
    match rest {
        [] => Err("write dirty bits, names of sections, or all".into()),
        ["all"] => Ok(ALL_DIRTY),
        [word] if word.starts_with(|c: char| c.is_ascii_digit()) => number(word, u32::MAX),
        names => names.iter().try_fold(0, |bits, name| {
            let section = sections::named(name).ok_or_else(|| {
                format!("'{}' is no section: write WV PROJ FOG AMBIENT MATERIAL LIGHTS TT PALETTE, dirty bits, or all", cut(name))
            })?;
            Ok(bits | section.bit)
        }),
    }
}

fn overwrite(rest: &[&str]) -> Result<Call, String> {
    let Some((place, four)) = rest.split_first() else {
        return Err("write a ROW and four FLOATs".into());
    };
    let (first, last) = place.split_once("..").unwrap_or((place, place));
    let row = |word| number(word, Mirror::ROWS as u32 - 1).map(|row| row as usize);
    let (first, last) = (row(first)?, row(last)?);
    if last < first {
        return Err(format!(
            "{first}..{last} has no row: write the lower one first"
        ));
    }
    Ok(Call::Overwrite(first, last, floats("a row", four)?))
}

/// The bytes that are read in, an image or not.
fn image(
    rest: &[&str],
    file: &impl Fn(&str) -> Result<Vec<u8>, String>,
) -> Result<Vec<u8>, String> {
    match rest {
        ["file", path] => file(path),
        ["bytes", patches @ ..] => {
            let mut bytes = FfImage::fresh().as_bytes().to_vec();
            for word in patches {
                patch(&mut bytes, word)?;
            }
            Ok(bytes)
        }
        _ => Err("write file PATH, or bytes and PLACE:HEX words".into()),
    }
}

fn patch(bytes: &mut [u8], word: &str) -> Result<(), String> {
    let wrong = || {
        format!(
            "'{}' is no PLACE:HEX: write a place below {} and two digits a byte, all within the image",
            cut(word),
            FfImage::BYTES
        )
    };
    let (place, digits) = word.split_once(':').ok_or_else(wrong)?;
    let place = number(place, FfImage::BYTES as u32 - 1).map_err(|_| wrong())? as usize;
    let digits = digits.as_bytes();
    let end = place + digits.len() / 2;
    if digits.is_empty() || digits.len() % 2 != 0 || end > bytes.len() {
        return Err(wrong());
    }
    let digit = |d: u8| char::from(d).to_digit(16).ok_or_else(wrong);
    for (byte, pair) in bytes[place..end].iter_mut().zip(digits.chunks(2)) {
        *byte = (16 * digit(pair[0])? + digit(pair[1])?) as u8;
    }
    Ok(())
}
