//! Matrices, materials and lights as words of a list.

use ff_state::{Color, Light, Material, Matrix, Vector};

use crate::words::{cut, float, number};

/// "identity", "translation X Y Z", or sixteen floats row by row.
pub fn matrix(words: &[&str]) -> Result<Matrix, String> {
    match words {
        ["identity"] => Ok(Matrix::IDENTITY),
        ["translation", place @ ..] => {
            let [x, y, z] = floats("translation", place)?;
            let mut matrix = Matrix::IDENTITY;
            matrix.m[3] = [x, y, z, 1.0];
            Ok(matrix)
        }
        _ => {
            let floats: [f32; 16] = floats("a matrix", words)?;
            Ok(Matrix {
                m: std::array::from_fn(|i| std::array::from_fn(|j| floats[4 * i + j])),
            })
        }
    }
}

/// As many floats as asked for.
pub fn floats<const N: usize>(what: &str, words: &[&str]) -> Result<[f32; N], String> {
    if words.len() != N {
        return Err(format!("{what} has {N} floats, not {}", words.len()));
    }
    let mut floats = [0.0; N];
    for (place, word) in floats.iter_mut().zip(words) {
        *place = float(word)?;
    }
    Ok(floats)
}

fn list<const N: usize>(name: &str, value: &str) -> Result<[f32; N], String> {
    let words: Vec<&str> = value.split(',').collect();
    floats(name, &words)
}

fn color(name: &str, value: &str) -> Result<Color, String> {
    let [r, g, b, a] = list(name, value)?;
    Ok(Color { r, g, b, a })
}

fn vector(name: &str, value: &str) -> Result<Vector, String> {
    let [x, y, z] = list(name, value)?;
    Ok(Vector { x, y, z })
}

/// Words NAME=VALUE, each name once; `set` answers whether it knows the name.
fn named<'a>(
    words: &[&'a str],
    names: &str,
    mut set: impl FnMut(&'a str, &'a str) -> Result<bool, String>,
) -> Result<(), String> {
    let mut met = Vec::new();
    for word in words {
        let (name, value) = word.split_once('=').unwrap_or((word, ""));
        if met.contains(&name) {
            return Err(format!("{name} stands twice: write it once"));
        }
        if !set(name, value).map_err(|why| format!("{name}: {why}"))? {
            return Err(format!(
                "'{}' is no field: write NAME=VALUE with one of {names}",
                cut(word)
            ));
        }
        met.push(name);
    }
    Ok(())
}

/// A material; what is left out is 0.
pub fn material(words: &[&str]) -> Result<Material, String> {
    let mut m = Material::default();
    named(
        words,
        "diffuse, ambient, specular, emissive, power",
        |name, value| {
            match name {
                "diffuse" => m.diffuse = color(name, value)?,
                "ambient" => m.ambient = color(name, value)?,
                "specular" => m.specular = color(name, value)?,
                "emissive" => m.emissive = color(name, value)?,
                "power" => m.power = float(value)?,
                _ => return Ok(false),
            }
            Ok(true)
        },
    )?;
    Ok(m)
}

/// A light; what is left out is the default light's.
pub fn light(words: &[&str]) -> Result<Light, String> {
    let mut l = Light::default();
    let names = "type, diffuse, specular, ambient, position, direction, range, falloff, attenuation, theta, phi";
    named(words, names, |name, value| {
        match name {
            "type" => l.type_ = kind(value)?,
            "diffuse" => l.diffuse = color(name, value)?,
            "specular" => l.specular = color(name, value)?,
            "ambient" => l.ambient = color(name, value)?,
            "position" => l.position = vector(name, value)?,
            "direction" => l.direction = vector(name, value)?,
            "range" => l.range = float(value)?,
            "falloff" => l.falloff = float(value)?,
            "attenuation" => l.attenuation = list(name, value)?,
            "theta" => l.theta = float(value)?,
            "phi" => l.phi = float(value)?,
            _ => return Ok(false),
        }
        Ok(true)
    })?;
    Ok(l)
}

fn kind(value: &str) -> Result<u32, String> {
    match value {
        "point" => Ok(ff_state::D3DLIGHT_POINT),
        "spot" => Ok(ff_state::D3DLIGHT_SPOT),
        "directional" => Ok(ff_state::D3DLIGHT_DIRECTIONAL),
        _ => number(value, u32::MAX),
    }
}

#[cfg(test)]
mod tests {
    use super::*;

    fn words(text: &str) -> Vec<&str> {
        text.split_whitespace().collect()
    }

    /// Each number another one, in the papers' order: "type, diffuse, specular, ambient (rgba each), position, direction, range,
    /// falloff, attenuation 0 to 2, theta, phi", and "diffuse, ambient, specular, emissive, power".
    #[test]
    fn each_field_has_its_place() {
        let text = "phi=25 theta=24 attenuation=21,22,23 falloff=20 range=19 direction=16,17,18 position=13,14,15 \
                    ambient=9,10,11,12 specular=5,6,7,8 diffuse=1,2,3,4 type=spot";
        let mut numbers = vec![2_u32];
        numbers.extend((1..26).map(|i: u32| (i as f32).to_bits()));
        let bytes: Vec<u8> = numbers.iter().flat_map(|n| n.to_le_bytes()).collect();
        assert_eq!(light(&words(text)).unwrap().to_bytes().as_slice(), bytes);

        let text =
            "power=17 emissive=13,14,15,16 specular=9,10,11,12 ambient=5,6,7,8 diffuse=1,2,3,4";
        let bytes: Vec<u8> = (1..18_u8)
            .flat_map(|i| f32::from(i).to_le_bytes())
            .collect();
        assert_eq!(material(&words(text)).unwrap().to_bytes().as_slice(), bytes);

        let text = "0 1 2 3 4 5 6 7 8 9 10 11 12 13 14 15";
        let bytes: Vec<u8> = (0..16_u8)
            .flat_map(|i| f32::from(i).to_le_bytes())
            .collect();
        assert_eq!(matrix(&words(text)).unwrap().to_bytes().as_slice(), bytes);
        assert_eq!(
            matrix(&words("translation 5 6 7")).unwrap().m[3],
            [5.0, 6.0, 7.0, 1.0]
        );
        assert_eq!(light(&[]), Ok(Light::default()));
        assert_eq!(
            ["point", "spot", "directional", "9"].map(kind),
            [Ok(1), Ok(2), Ok(3), Ok(9)]
        );
    }
}
