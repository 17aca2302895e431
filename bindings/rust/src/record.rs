//! A recorder: a state whose changing calls are written down, a line each, as `tools/run calls-replay` reads them.

use std::fmt::Write as _;
use std::io::{self, Write};
use std::ops::Deref;

use crate::image::FfImage;
use crate::mirror::Mirror;
use crate::packing::{ROW_BYTES, VsKey};
use crate::records::{Color, Light, Material, Matrix, Vector};
use crate::refusal::Refusal;

/// The bits of each float of the mirror that a replay starts with: no float that a scene is likely to hold, so that a row
/// which no refresh has written is seen.
pub const REPLAY_START_BITS: u32 = 0xCDCD_CDCD;

/// The mirror that a replay starts with.
#[must_use]
pub fn replay_start() -> Mirror {
    let mut mirror = Mirror::new();
    for four in mirror.as_mut_bytes().as_chunks_mut().0 {
        *four = REPLAY_START_BITS.to_le_bytes();
    }
    mirror
}

/// An [`FfImage`] that writes each changing call down before it makes it, refused ones too. Reads and fills are the image's own.
///
/// ```
/// use ff_state::{FfImage, Mirror, Recorder, VsKey};
///
/// let (mut state, mut mirror) = (Recorder::new(Vec::new()), Mirror::new());
/// state.set_light_enabled_at(0, true)?;
/// let key = VsKey { light_active_mask: state.compacted_light_masks().active, ..VsKey::default() };
/// state.refresh(&key, &mut mirror)?;
/// let (_, list): (FfImage, Vec<u8>) = state.finish().expect("a vector takes every byte");
/// assert!(list.ends_with(b"set_light_enabled_at 0 1\noverwrite 0..1114 0.0 0.0 0.0 0.0\nrefresh light_active_mask=1\n"));
/// # Ok::<(), ff_state::Refusal>(())
/// ```
///
/// A mirror is seen at each refresh: rows that are not as the last refresh left them are written down as overwritten, just before
/// that refresh ([`Recorder::overwritten`] does it at once). Before the first one this gives the rows that the mirror began with.
///
/// Where the list cannot be written the calls go on, unrecorded, and [`Recorder::finish`] answers with the error.
#[derive(Debug)]
pub struct Recorder<W: Write> {
    image: FfImage,
    /// The mirror as a replay of the list has it.
    seen: Mirror,
    out: W,
    failed: Option<io::Error>,
}

impl<W: Write> Deref for Recorder<W> {
    type Target = FfImage;

    fn deref(&self) -> &FfImage {
        &self.image
    }
}

impl<W: Write> Recorder<W> {
    /// A fresh state, whose calls go to `out`. Hand it a [`io::BufWriter`] around a file.
    pub fn new(out: W) -> Self {
        let mut recorder = Self {
            image: FfImage::fresh(),
            seen: replay_start(),
            out,
            failed: None,
        };
        recorder.line("# calls on a fresh state; tools/run calls-replay --help describes them");
        recorder
    }

    /// The state, and what was written to, flushed; or the first error of writing.
    pub fn finish(mut self) -> io::Result<(FfImage, W)> {
        if let Some(error) = self.failed {
            return Err(error);
        }
        self.out.flush()?;
        Ok((self.image, self.out))
    }

    /// Reads an image in, or answers with [`Refusal::NoImage`] and stays as it was.
    pub fn read_in(&mut self, bytes: &[u8]) -> Result<(), Refusal> {
        let line = if bytes.len() == FfImage::BYTES {
            format!("read_in bytes{}", patches(bytes))
        } else {
            format!("# read_in of {} bytes, refused 9", bytes.len())
        };
        self.line(&line);
        self.image = FfImage::from_bytes(bytes)?;
        Ok(())
    }

    /// As [`FfImage::set_transform`].
    pub fn set_transform(&mut self, state: u32, matrix: &Matrix) -> Result<(), Refusal> {
        self.line(&format!(
            "set_transform {state} {}",
            floats(matrix.m.as_flattened(), " ")
        ));
        self.image.set_transform(state, matrix)
    }

    /// As [`FfImage::multiply_transform`].
    pub fn multiply_transform(&mut self, state: u32, matrix: &Matrix) -> Result<(), Refusal> {
        self.line(&format!(
            "multiply_transform {state} {}",
            floats(matrix.m.as_flattened(), " ")
        ));
        self.image.multiply_transform(state, matrix)
    }

    /// As [`FfImage::set_material`].
    pub fn set_material(&mut self, material: &Material) {
        self.line(&format!(
            "set_material diffuse={} ambient={} specular={} emissive={} power={}",
            rgba(material.diffuse),
            rgba(material.ambient),
            rgba(material.specular),
            rgba(material.emissive),
            float(material.power)
        ));
        self.image.set_material(material);
    }

    /// As [`FfImage::set_light_at`].
    pub fn set_light_at(&mut self, index: u32, light: &Light) -> Result<(), Refusal> {
        self.line(&format!(
            "set_light_at {index} type={} diffuse={} specular={} ambient={} position={} direction={} range={} falloff={} attenuation={} theta={} phi={}",
            light.type_,
            rgba(light.diffuse),
            rgba(light.specular),
            rgba(light.ambient),
            xyz(light.position),
            xyz(light.direction),
            float(light.range),
            float(light.falloff),
            floats(&light.attenuation, ","),
            float(light.theta),
            float(light.phi)
        ));
        self.image.set_light_at(index, light)
    }

    /// As [`FfImage::set_light_enabled_at`].
    pub fn set_light_enabled_at(&mut self, index: u32, enabled: bool) -> Result<(), Refusal> {
        self.line(&format!(
            "set_light_enabled_at {index} {}",
            u8::from(enabled)
        ));
        self.image.set_light_enabled_at(index, enabled)
    }

    /// As [`FfImage::set_fog_start`].
    pub fn set_fog_start(&mut self, start: f32) {
        self.line(&format!("set_fog_start {}", float(start)));
        self.image.set_fog_start(start);
    }

    /// As [`FfImage::set_fog_end`].
    pub fn set_fog_end(&mut self, end: f32) {
        self.line(&format!("set_fog_end {}", float(end)));
        self.image.set_fog_end(end);
    }

    /// As [`FfImage::set_fog_density`].
    pub fn set_fog_density(&mut self, density: f32) {
        self.line(&format!("set_fog_density {}", float(density)));
        self.image.set_fog_density(density);
    }

    /// As [`FfImage::set_ambient`].
    pub fn set_ambient(&mut self, color: u32) {
        self.line(&format!("set_ambient 0x{color:08X}"));
        self.image.set_ambient(color);
    }

    /// As [`FfImage::set_texture_mask`].
    pub fn set_texture_mask(&mut self, mask: u8) {
        self.line(&format!("set_texture_mask {mask}"));
        self.image.set_texture_mask(mask);
    }

    /// As [`FfImage::mark_ff_vs_dirty`].
    pub fn mark_ff_vs_dirty(&mut self, bits: u32) -> Result<(), Refusal> {
        self.line(&format!("mark {bits}"));
        self.image.mark_ff_vs_dirty(bits)
    }

    /// As [`FfImage::take_ff_vs_dirty`].
    pub fn take_ff_vs_dirty(&mut self) -> u32 {
        self.line("take");
        self.image.take_ff_vs_dirty()
    }

    /// As [`FfImage::refresh`].
    pub fn refresh(&mut self, key: &VsKey, mirror: &mut Mirror) -> Result<u32, Refusal> {
        self.overwritten(mirror);
        self.line(&format!("refresh{}", key_words(key)));
        let answer = self.image.refresh(key, mirror);
        self.seen.clone_from(mirror);
        answer
    }

    /// Writes the rows down that are not as the last refresh left them.
    pub fn overwritten(&mut self, mirror: &Mirror) {
        let rows = |mirror: &Mirror| mirror.as_bytes().as_chunks::<ROW_BYTES>().0.to_vec();
        let (before, now) = (rows(&self.seen), rows(mirror));
        let mut row = 0;
        while row < Mirror::ROWS {
            if now[row] == before[row] {
                row += 1;
                continue;
            }
            let alike = (row + 1..Mirror::ROWS).take_while(|&i| now[i] == now[row]);
            let last = alike.last().unwrap_or(row);
            let place = if last == row {
                row.to_string()
            } else {
                format!("{row}..{last}")
            };
            let four = now[row].as_chunks().0;
            let four: Vec<f32> = four.iter().map(|&b| f32::from_le_bytes(b)).collect();
            self.line(&format!("overwrite {place} {}", floats(&four, " ")));
            row = last + 1;
        }
        self.seen.clone_from(mirror);
    }

    fn line(&mut self, line: &str) {
        if self.failed.is_none() {
            self.failed = writeln!(self.out, "{line}").err();
        }
    }
}

/// A float in the shortest decimals that mean it, or in its bits.
fn float(x: f32) -> String {
    if x.is_finite() {
        format!("{x:?}")
    } else {
        format!("0x{:08X}", x.to_bits())
    }
}

fn floats(floats: &[f32], between: &str) -> String {
    let words: Vec<String> = floats.iter().map(|&x| float(x)).collect();
    words.join(between)
}

fn rgba(c: Color) -> String {
    floats(&[c.r, c.g, c.b, c.a], ",")
}

fn xyz(v: Vector) -> String {
    floats(&[v.x, v.y, v.z], ",")
}

/// The fields of a key that are not 0, each behind a space.
fn key_words(key: &VsKey) -> String {
    let fields = [
        ("has_rhw", u8::from(key.has_rhw)),
        ("lighting_enabled", u8::from(key.lighting_enabled)),
        ("specular_enable", u8::from(key.specular_enable)),
        ("vertex_blend_indexed", u8::from(key.vertex_blend_indexed)),
        ("preview", u8::from(key.preview)),
        ("light_active_mask", key.light_active_mask),
        ("fog_mode", key.fog_mode),
        ("vertex_blend_count", key.vertex_blend_count),
    ];
    let set = fields.iter().filter(|(_, value)| *value != 0);
    set.map(|(name, value)| format!(" {name}={value}"))
        .collect()
}

/// Where an image's bytes are not the fresh image's: each run as its place and its bytes in hexadecimal, behind a space.
fn patches(bytes: &[u8]) -> String {
    let fresh = FfImage::fresh();
    let (mut words, mut within) = (String::new(), false);
    for (place, (byte, plain)) in bytes.iter().zip(fresh.as_bytes()).enumerate() {
        let differs = byte != plain;
        if differs && !within {
            write!(words, " {place}:").expect("a string takes every word");
        }
        if differs {
            write!(words, "{byte:02x}").expect("a string takes every word");
        }
        within = differs;
    }
    words
}

#[cfg(test)]
mod tests {
    use super::*;
    use crate::image::{D3DTS_VIEW, D3DTS_WORLD};

    fn written(record: impl FnOnce(&mut Recorder<Vec<u8>>)) -> Vec<String> {
        let mut recorder = Recorder::new(Vec::new());
        record(&mut recorder);
        let (_, list) = recorder.finish().unwrap();
        let list = String::from_utf8(list).unwrap();
        list.lines().skip(1).map(String::from).collect()
    }

    #[test]
    fn a_call_is_a_line_refused_ones_too() {
        let mut matrix = Matrix::IDENTITY;
        matrix.m[3] = [0.1, -0.0, 1e20, 1.0];
        let lines = written(|state| {
            state.set_transform(D3DTS_VIEW, &matrix).unwrap();
            assert_eq!(
                state.multiply_transform(15, &Matrix::IDENTITY),
                Err(Refusal::UnknownState)
            );
            state.set_material(&Material {
                power: f32::INFINITY,
                ..Material::default()
            });
            state.set_light_at(9, &Light::default()).unwrap();
            state.set_light_enabled_at(9, true).unwrap();
            state.set_fog_start(f32::from_bits(0xFFC0_0001));
            state.set_fog_end(2.5);
            state.set_fog_density(1e-9);
            state.set_ambient(0xFF80_4020);
            state.set_texture_mask(5);
            assert_eq!(state.mark_ff_vs_dirty(256), Err(Refusal::UnknownBits));
            assert_eq!(state.take_ff_vs_dirty(), 255);
        });
        assert_eq!(
            lines,
            [
                "set_transform 2 1.0 0.0 0.0 0.0 0.0 1.0 0.0 0.0 0.0 0.0 1.0 0.0 0.1 -0.0 1e20 1.0",
                "multiply_transform 15 1.0 0.0 0.0 0.0 0.0 1.0 0.0 0.0 0.0 0.0 1.0 0.0 0.0 0.0 0.0 1.0",
                "set_material diffuse=0.0,0.0,0.0,0.0 ambient=0.0,0.0,0.0,0.0 specular=0.0,0.0,0.0,0.0 emissive=0.0,0.0,0.0,0.0 power=0x7F800000",
                "set_light_at 9 type=3 diffuse=1.0,1.0,1.0,0.0 specular=0.0,0.0,0.0,0.0 ambient=0.0,0.0,0.0,0.0 position=0.0,0.0,0.0 direction=0.0,0.0,1.0 range=0.0 falloff=0.0 attenuation=0.0,0.0,0.0 theta=0.0 phi=0.0",
                "set_light_enabled_at 9 1",
                "set_fog_start 0xFFC00001",
                "set_fog_end 2.5",
                "set_fog_density 1e-9",
                "set_ambient 0xFF804020",
                "set_texture_mask 5",
                "mark 256",
                "take",
            ]
        );
    }

    #[test]
    fn rows_that_another_wrote_stand_before_the_refresh_that_sees_them() {
        let mut mirror = replay_start();
        let lines = written(|state| {
            let key = VsKey {
                lighting_enabled: true,
                fog_mode: 3,
                ..VsKey::default()
            };
            assert_eq!(state.refresh(&key, &mut mirror), Ok(255));
            for byte in &mut mirror.as_mut_bytes()[16..48] {
                *byte = 0;
            }
            state.overwritten(&mirror);
            mirror.as_mut_bytes()[16 * 1114..].copy_from_slice(&[0, 0, 128, 63].repeat(4));
            assert_eq!(state.refresh(&key, &mut mirror), Ok(0));
            assert_eq!(state.refresh(&key, &mut mirror), Ok(0));
        });
        let refresh = "refresh lighting_enabled=1 fog_mode=3";
        assert_eq!(
            lines,
            [
                refresh,
                "overwrite 1..2 0.0 0.0 0.0 0.0",
                "overwrite 1114 1.0 1.0 1.0 1.0",
                refresh,
                refresh,
            ]
        );
    }

    #[test]
    fn an_image_is_written_as_its_bytes_that_are_not_fresh() {
        let mut image = FfImage::fresh();
        image
            .set_transform(D3DTS_WORLD + 3, &Matrix::IDENTITY)
            .unwrap();
        image.take_ff_vs_dirty();
        let mut damaged = *image.as_bytes();
        damaged[17_927] = 0xAB;
        let lines = written(|state| {
            assert_eq!(state.read_in(image.as_bytes()), Ok(()));
            assert_eq!(state.read_in(&damaged), Err(Refusal::NoImage));
            assert_eq!(state.read_in(&damaged[..7]), Err(Refusal::NoImage));
            assert_eq!(state.as_bytes(), image.as_bytes());
        });
        assert_eq!(
            lines,
            [
                "read_in bytes 17926:00 17928:03",
                "read_in bytes 17926:00ab03",
                "# read_in of 7 bytes, refused 9",
            ]
        );
    }

    /// A file that is full: the calls go on, and the end tells.
    #[test]
    fn an_error_of_writing_is_kept_for_the_end() {
        struct Full(usize);
        impl Write for Full {
            fn write(&mut self, bytes: &[u8]) -> io::Result<usize> {
                if self.0 < bytes.len() {
                    return Err(io::Error::from(io::ErrorKind::StorageFull));
                }
                self.0 -= bytes.len();
                Ok(bytes.len())
            }
            fn flush(&mut self) -> io::Result<()> {
                Ok(())
            }
        }
        let mut state = Recorder::new(Full(80));
        for index in 0..9 {
            state.set_light_enabled_at(index, true).unwrap();
        }
        assert_eq!(state.compacted_light_masks().active, 255);
        let error = state.finish().map(|_| ()).unwrap_err();
        assert_eq!(error.kind(), io::ErrorKind::StorageFull);
    }
}
