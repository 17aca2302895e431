//! The running image, item, key and mirror of the sample, and its lines: crates/replay_lines/src/lib.rt has their form.

use std::fmt::Write;

use cases::call::{Call, Gives, LIGHT, NAMES, Name};
use cases::image::{self, BYTES, number32};
use cases::key::Key;
use cases::model::{Model, Output};
use cases::section::MIRROR;
use cases::world::World;

use crate::Sample;

/// The bytes of the running item, and so the longest slice of a line that uses it.
const ITEM: usize = 128;
/// Words of an overwriting that a line each is worth.
const OVERWRITTEN: usize = 16;

/// The letter of a call, and its first argument where that is the section's bit, or the place of a value in the image's tail.
const fn letter(name: Name) -> (char, Option<u32>) {
    let letter = match name {
        Name::ImageFresh => 'F',
        Name::ImageCheck => 'X',
        Name::SetTransform => 'S',
        Name::MultiplyTransform => 'M',
        Name::Transform => 'T',
        Name::WorldPaletteUsed => 'P',
        Name::WorldViewProjection => 'W',
        Name::SetMaterial => 'A',
        Name::GetMaterial => 'B',
        Name::SetLightAt => 'L',
        Name::SetLightEnabledAt => 'E',
        Name::GetLightAt => 'G',
        Name::IsLightEnabledAt => 'N',
        Name::IsLightDefinedAt => 'D',
        Name::VsSourceLightInputs => 'V',
        Name::CompactedLightMasks => 'C',
        Name::MarkFfVsDirty => 'K',
        Name::TakeFfVsDirty => 'Q',
        Name::Refresh => 'R',
        Name::SetFogStart => return ('H', Some(0)),
        Name::SetFogEnd => return ('H', Some(1)),
        Name::SetFogDensity => return ('H', Some(2)),
        Name::SetAmbient => return ('H', Some(3)),
        Name::SetTextureMask => return ('H', Some(4)),
        _ => match name.form().gives {
            Gives::Fill(section) => return ('U', Some(section.bit() as u32)),
            Gives::Rows(section) => return ('Z', Some(section.bit() as u32)),
            _ => return ('Z', Some(0)),
        },
    };
    (letter, None)
}

fn digest(bytes: &[u8]) -> u32 {
    bytes.iter().fold(0u32, |sum, &byte| {
        sum.wrapping_add(u32::from(byte) + 1)
            .wrapping_mul(0x0100_0193)
    })
}

pub struct Running<'a> {
    sample: &'a mut Sample,
    world: World,
    pub image: Vec<u8>,
    item: [u8; ITEM],
    key: [u8; 8],
    mirror: Vec<u8>,
}

impl<'a> Running<'a> {
    pub fn new(sample: &'a mut Sample) -> Self {
        Self {
            sample,
            world: World::fresh(),
            image: vec![0; BYTES],
            item: [0; ITEM],
            key: [0; 8],
            mirror: vec![0; MIRROR],
        }
    }

    /// A line that is accepted.
    fn line(&mut self, letter: char, arguments: &[u32], number: u32) {
        let digests = [&self.item[..], &self.image, &self.mirror].map(digest);
        let answer = [number, digests[0], digests[1], digests[2]];
        self.sample.add(letter, arguments, Ok(&answer));
    }

    pub fn put_byte(&mut self, at: usize, byte: u8) {
        self.image[at] = byte;
        self.line('O', &[at as u32, u32::from(byte)], 0);
    }

    /// Puts `target` over the image.
    fn put_image(&mut self, target: &[u8]) {
        for (at, &byte) in target.iter().enumerate() {
            if self.image[at] != byte {
                self.put_byte(at, byte);
            }
        }
    }

    /// Puts bytes over the item's start, where they are not there yet.
    fn put_item(&mut self, bytes: &[u8]) {
        if self.item.starts_with(bytes) {
            return;
        }
        let length = bytes.len().min(LIGHT);
        self.item[..length].copy_from_slice(&bytes[..length]);
        let words = words(&self.item[..LIGHT]);
        self.line('I', &words, 0);
    }

    /// Puts a key over the running one where it is another.
    fn put_key(&mut self, key: Key) {
        if self.key != key.fields() {
            self.key = key.fields();
            let words = words(&self.key);
            self.line('Y', &words, 0);
        }
    }

    /// Puts a float over the mirror.
    pub fn put_float(&mut self, at: usize, bits: u32) {
        self.mirror[4 * at..4 * at + 4].copy_from_slice(&bits.to_le_bytes());
        self.line('J', &[at as u32, bits], 0);
    }

    /// The mask of the lights that are packed under the key, 0 where the bytes are no image.
    fn active(&self, key: Key) -> u8 {
        if image::reasons(&self.image).is_empty() {
            Model::read(&self.image).active(key)
        } else {
            0
        }
    }

    /// A call on the image, or on its first `length` bytes; whether it ran.
    pub fn call_on(&mut self, call: &Call, length: usize) -> bool {
        let mut call = call.clone();
        if let Some(without) = call.own_mask.take() {
            call.key.light_active_mask = self.active(call.key) & !without;
        }
        if call.name.takes_key() {
            self.put_key(call.key);
        }
        if call.name.form().takes.is_some() {
            self.put_item(&call.given);
            call.given = self.item[..call.given.len()].to_vec();
        }
        call.overwrite = vec![(0, self.mirror.clone())];
        let judged = self.world.judge(&call, Some(&self.image[..length]));
        if judged.ran {
            self.image.copy_from_slice(self.world.image());
        }
        let call = judged.call;
        let (letter, first) = letter(call.name);
        let arguments = [first.unwrap_or(call.number), second(&call, length)];
        let number = match judged.answer {
            Err(refusal) => {
                self.sample.add(letter, &arguments, Err(refusal));
                return false;
            }
            Ok(Output::Number(number)) => number,
            Ok(Output::Bytes(bytes)) if call.name.packs() => {
                self.mirror[..bytes.len()].copy_from_slice(&bytes);
                0
            }
            Ok(Output::Bytes(bytes)) => {
                self.item[..bytes.len()].copy_from_slice(&bytes);
                0
            }
            Ok(Output::Refreshed(bits, mirror)) => {
                self.mirror = mirror;
                bits
            }
            Ok(Output::Nothing) => 0,
        };
        self.line(letter, &arguments, number);
        judged.ran
    }

    pub fn call(&mut self, call: &Call) -> bool {
        self.call_on(call, BYTES)
    }

    pub fn calls(&mut self, calls: &[Call]) {
        for call in calls {
            self.call(call);
        }
    }

    /// A call of a random list, where a line has the room for what it is given.
    pub fn random(&mut self, call: &Call) {
        let room = if call.name.takes_key() { MIRROR } else { ITEM };
        if call.given.len() > ITEM || call.lent_length() > room {
            return;
        }
        for (at, bytes) in &call.overwrite {
            let words = words(bytes);
            if words.len() <= OVERWRITTEN {
                for (word, float) in words.into_iter().zip(at / 4..) {
                    self.put_float(float, word);
                }
            }
        }
        let Some(damage) = &call.damage else {
            self.call(call);
            return;
        };
        if let Some(length) = damage.length {
            if matches!(call.name, Name::ImageFresh | Name::ImageCheck) && length <= BYTES {
                self.call_on(call, length);
            }
            return;
        }
        if damage.patches.iter().any(|(_, bytes)| bytes.len() > 4) {
            return;
        }
        let before = self.image.clone();
        let mut target = before.clone();
        damage.apply(&mut target);
        self.put_image(&target);
        if !self.call(call) && !image::reasons(&self.image).is_empty() {
            self.put_image(&before);
        }
    }
}

/// A line's second argument.
fn second(call: &Call, length: usize) -> u32 {
    match (call.name, call.name.form().gives) {
        (Name::ImageFresh | Name::ImageCheck, _) => length as u32,
        (Name::SetLightEnabledAt, _) => call.enabled,
        (
            Name::SetFogStart
            | Name::SetFogEnd
            | Name::SetFogDensity
            | Name::SetAmbient
            | Name::SetTextureMask,
            _,
        ) => call.number,
        (_, Gives::Item(_) | Gives::Fill(_) | Gives::Mirror) => call.lent_length() as u32,
        _ => call.given.len() as u32,
    }
}

fn words(bytes: &[u8]) -> Vec<u32> {
    let places = (0..bytes.len()).step_by(4);
    places.map(|at| number32(bytes, at)).collect()
}

/// The calls that the sample does not answer with 0 or with one of their refusals.
pub fn unmet(sample: &Sample) -> String {
    let mut missing = String::new();
    for &name in NAMES {
        let form = name.form();
        let begins = match letter(name) {
            (letter, Some(first)) => format!("{letter} {first:08x}"),
            (letter, None) => letter.to_string(),
        };
        let lines = sample.questions.lines().zip(sample.answers.lines());
        let answers: Vec<&str> = lines
            .filter(|(question, _)| question.starts_with(&begins))
            .map(|(_, answer)| answer)
            .collect();
        if answers.iter().all(|answer| answer.starts_with("refused")) {
            let _ = write!(missing, " {} 0", form.c_name);
        }
        for refusal in form.refusals {
            let wanted = format!("refused {refusal}");
            if !answers.contains(&wanted.as_str()) {
                let _ = write!(missing, " {} {refusal}", form.c_name);
            }
        }
    }
    missing
}
