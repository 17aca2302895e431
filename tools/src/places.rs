//! Where the fields of an image stand: document 01, 'State image', and document 02, T-05. This table is read from the papers and
//! shares nothing with the library.

pub const VIEW: usize = 0;
pub const PROJECTION: usize = 64;
pub const PALETTE: usize = 128;
pub const TEXTURE: usize = 16_512;
pub const MATERIAL: usize = 17_024;
pub const LIGHTS: usize = 17_092;
pub const ENABLED: usize = 17_924;
pub const DEFINED: usize = 17_925;
pub const DIRTY: usize = 17_926;
pub const ZERO: usize = 17_927;
pub const HIGHEST: usize = 17_928;
pub const COUNT: usize = 17_930;
pub const ENTRIES: usize = 17_932;
pub const FOG: usize = 24_204;
pub const AMBIENT: usize = 24_216;
pub const MASK: usize = 24_220;
pub const LENGTH: usize = 24_224;

/// The bytes of a matrix, of a light, of an entry: its index, its enable and a light.
pub const MATRIX_BYTES: usize = 64;
pub const LIGHT_BYTES: usize = 104;
pub const ENTRY_BYTES: usize = 112;

/// "56 entries".
pub const MOST_ENTRIES: usize = 56;

const RGBA: [&str; 4] = ["r", "g", "b", "a"];
const XYZ: [&str; 3] = ["x", "y", "z"];

/// What the byte at a place belongs to.
#[must_use]
pub fn what(place: usize) -> String {
    match place {
        VIEW..PROJECTION => matrix("view", place - VIEW),
        PROJECTION..PALETTE => matrix("projection", place - PROJECTION),
        PALETTE..TEXTURE => {
            let i = (place - PALETTE) / MATRIX_BYTES;
            matrix(
                &format!("world matrix {i} (state {})", 256 + i),
                place - PALETTE,
            )
        }
        TEXTURE..MATERIAL => {
            let i = (place - TEXTURE) / MATRIX_BYTES;
            matrix(
                &format!("texture matrix {i} (state {})", 16 + i),
                place - TEXTURE,
            )
        }
        MATERIAL..LIGHTS => format!("material, {}", material((place - MATERIAL) / 4)),
        LIGHTS..ENABLED => {
            let at = place - LIGHTS;
            format!(
                "light {}, {}",
                at / LIGHT_BYTES,
                light(at % LIGHT_BYTES / 4)
            )
        }
        ENABLED => "the enabled byte".into(),
        DEFINED => "the defined byte".into(),
        DIRTY => "the dirty byte".into(),
        ZERO => "the zero byte".into(),
        HIGHEST..COUNT => "the highest palette index".into(),
        COUNT..ENTRIES => "the count of entries".into(),
        ENTRIES..FOG => {
            let at = place - ENTRIES;
            let field = match at % ENTRY_BYTES / 4 {
                0 => "index".into(),
                1 => "enable".into(),
                number => light(number - 2),
            };
            format!("entry {}, {field}", at / ENTRY_BYTES)
        }
        FOG..AMBIENT => format!("fog {}", ["start", "end", "density"][(place - FOG) / 4]),
        AMBIENT..MASK => "the ambient colour".into(),
        MASK..LENGTH => "the texture mask".into(),
        _ => "behind the image's end".into(),
    }
}

fn matrix(name: &str, at: usize) -> String {
    let number = at % MATRIX_BYTES / 4;
    format!("{name}, row {} column {}", number / 4, number % 4)
}

fn material(number: usize) -> String {
    let colors = ["diffuse", "ambient", "specular", "emissive"];
    match colors.get(number / 4) {
        Some(color) => format!("{color} {}", RGBA[number % 4]),
        None => "power".into(),
    }
}

/// The number of a light that stands there: "type, diffuse, specular, ambient (rgba each), position, direction, range, falloff,
/// attenuation 0 to 2, theta, phi".
fn light(number: usize) -> String {
    match number {
        0 => "type".into(),
        1..=12 => {
            let color = ["diffuse", "specular", "ambient"][(number - 1) / 4];
            format!("{color} {}", RGBA[(number - 1) % 4])
        }
        13..=18 => {
            let vector = ["position", "direction"][(number - 13) / 3];
            format!("{vector} {}", XYZ[(number - 13) % 3])
        }
        19 => "range".into(),
        20 => "falloff".into(),
        21..=23 => format!("attenuation {}", number - 21),
        24 => "theta".into(),
        _ => "phi".into(),
    }
}

#[cfg(test)]
mod tests {
    use super::*;

    /// Places worked out by hand from the paper's table.
    #[test]
    fn a_byte_is_named_by_its_field() {
        for (place, name) in [
            (0, "view, row 0 column 0"),
            (63, "view, row 3 column 3"),
            (64 + 4 * 6, "projection, row 1 column 2"),
            (
                128 + 64 * 255 + 60,
                "world matrix 255 (state 511), row 3 column 3",
            ),
            (
                16_512 + 64 * 7,
                "texture matrix 7 (state 23), row 0 column 0",
            ),
            (17_024 + 4 * 4, "material, ambient r"),
            (17_091, "material, power"),
            (17_092, "light 0, type"),
            (17_092 + 104 + 16, "light 1, diffuse a"),
            (17_092 + 104 * 7 + 4 * 18, "light 7, direction z"),
            (17_923, "light 7, phi"),
            (17_924, "the enabled byte"),
            (17_925, "the defined byte"),
            (17_926, "the dirty byte"),
            (17_927, "the zero byte"),
            (17_929, "the highest palette index"),
            (17_931, "the count of entries"),
            (17_932, "entry 0, index"),
            (17_932 + 112 + 4, "entry 1, enable"),
            (17_932 + 112 * 55 + 8 + 4 * 21, "entry 55, attenuation 0"),
            (24_203, "entry 55, phi"),
            (24_208, "fog end"),
            (24_219, "the ambient colour"),
            (24_223, "the texture mask"),
            (24_224, "behind the image's end"),
        ] {
            assert_eq!(what(place), name, "{place}");
        }
    }
}
