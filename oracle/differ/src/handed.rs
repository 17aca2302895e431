//! What a call is handed beside the image, and what must be left of it.

use cases::call::Call;
use cases::image;
use cases::model::{Answer, Output};
use cases::section::ROW;

use crate::guarded::Guarded;

/// What a lent number and those beside it hold before a call.
const NUMBER: u32 = 0xA5A5_5A5A;

/// An item, a lent slice, and a lent number between two others.
#[derive(Clone)]
pub struct Handed {
    pub given: Guarded,
    pub out: Guarded,
    pub numbers: [u32; 3],
}

impl Handed {
    /// What a call is handed; `shift` moves the slices off alignment.
    pub fn new(call: &Call, mirror: &Guarded, shift: usize) -> Self {
        Self {
            given: Guarded::holding(&call.given, shift / 4),
            out: if call.lends_mirror() {
                mirror.clone()
            } else {
                Guarded::new(call.lent_length(), shift / 16)
            },
            numbers: [NUMBER; 3],
        }
    }

    /// The same after a call with this answer.
    pub fn answered(mut self, answer: &Answer) -> Self {
        match answer {
            Ok(Output::Bytes(bytes)) => self.out.slice_mut().copy_from_slice(bytes),
            Ok(Output::Number(number)) => self.numbers[1] = *number,
            Ok(Output::Refreshed(bits, mirror)) => {
                self.numbers[1] = *bits;
                self.out.slice_mut().copy_from_slice(mirror);
            }
            Ok(Output::Nothing) | Err(_) => {}
        }
        self
    }

    pub fn unlike(&self, expected: &Self) -> Option<String> {
        if self.out != expected.out {
            Some(unlike_slice(&self.out, &expected.out))
        } else if self.numbers != expected.numbers {
            Some(format!(
                "the lent number, or those beside it: expected {:08x?}, ours {:08x?}",
                expected.numbers, self.numbers
            ))
        } else if self.given != expected.given {
            Some("the bytes of an argument, or those around it".to_string())
        } else {
            None
        }
    }
}

/// The first row that is unlike.
fn unlike_slice(ours: &Guarded, expected: &Guarded) -> String {
    let rows = ours.slice().chunks(ROW).zip(expected.slice().chunks(ROW));
    match rows
        .enumerate()
        .find(|(_, (ours, expected))| ours != expected)
    {
        Some((row, (ours, expected))) => format!(
            "the lent slice, row {row}: expected {}, ours {}",
            hex(expected),
            hex(ours)
        ),
        None => "the bytes around the lent slice".to_string(),
    }
}

pub fn unlike_image(ours: &Guarded, expected: &[u8]) -> Option<String> {
    let unlike = |(at, (ours, expected)): (usize, (&u8, &u8))| {
        format!(
            "image, byte {at} ({}): expected {expected:02x}, ours {ours:02x}",
            image::region(at)
        )
    };
    if ours.slice() != expected {
        let mut bytes = ours.slice().iter().zip(expected).enumerate();
        bytes.find(|(_, (a, b))| a != b).map(unlike)
    } else if !ours.kept() {
        Some("the bytes around the image".to_string())
    } else {
        None
    }
}

fn hex(bytes: &[u8]) -> String {
    bytes.iter().map(|byte| format!("{byte:02x}")).collect()
}
