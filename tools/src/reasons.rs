//! Why bytes are refused 9, worked out from document 01, 'State image', and document 02, T-05, and not by the library.

use ff_state::{Light, Refusal};

use crate::fields::number;
use crate::places as at;

/// The reasons, in the papers' order.
#[derive(Clone, Copy, Debug, PartialEq, Eq, PartialOrd, Ord)]
pub enum Reason {
    AnotherLength,
    ZeroByteSet,
    IndexAbove255,
    CountAbove56,
    NotAscending,
    EnableNotFlag,
    UnusedNotZero,
    EnabledUndefined,
    UndefinedNotDefault,
    AnotherNan,
    MaskAbove255,
}

impl Reason {
    pub const ALL: [Self; 11] = [
        Self::AnotherLength,
        Self::ZeroByteSet,
        Self::IndexAbove255,
        Self::CountAbove56,
        Self::NotAscending,
        Self::EnableNotFlag,
        Self::UnusedNotZero,
        Self::EnabledUndefined,
        Self::UndefinedNotDefault,
        Self::AnotherNan,
        Self::MaskAbove255,
    ];

    #[must_use]
    pub const fn name(self) -> &'static str {
        match self {
            Self::AnotherLength => "another length",
            Self::ZeroByteSet => "zero byte set",
            Self::IndexAbove255 => "palette index above 255",
            Self::CountAbove56 => "count above 56",
            Self::NotAscending => "entries not strictly ascending from 8",
            Self::EnableNotFlag => "enable not 0 or 1",
            Self::UnusedNotZero => "nonzero unused entry",
            Self::EnabledUndefined => "enabled but undefined",
            Self::UndefinedNotDefault => "undefined slot not default",
            Self::AnotherNan => "another NaN",
            Self::MaskAbove255 => "texture mask above 255",
        }
    }
}

/// One reason, the first byte that it speaks of, and what stands there.
#[derive(Clone, Debug)]
pub struct Finding {
    pub reason: Reason,
    pub place: usize,
    pub found: String,
}

/// Every reason to refuse the bytes, by their places; none where they are an image.
#[must_use]
pub fn findings(bytes: &[u8]) -> Vec<Finding> {
    if bytes.len() != at::LENGTH {
        return vec![Finding {
            reason: Reason::AnotherLength,
            place: bytes.len().min(at::LENGTH),
            found: format!(
                "{} bytes, and an image has {}{}",
                bytes.len(),
                at::LENGTH,
                older(bytes.len())
            ),
        }];
    }
    let mut all = Findings {
        bytes,
        found: Vec::new(),
    };
    all.numbers();
    all.entries();
    all.slots();
    all.nans();
    all.found.sort_by_key(|finding| finding.place);
    all.found
}

fn older(length: usize) -> &'static str {
    if length == at::FOG {
        ": it was written before there were fog, ambient colour and texture mask"
    } else {
        ""
    }
}

/// Whether the library's answer is what the findings say.
#[must_use]
pub fn agree(findings: &[Finding], answer: Result<(), Refusal>) -> bool {
    answer
        == if findings.is_empty() {
            Ok(())
        } else {
            Err(Refusal::NoImage)
        }
}

struct Findings<'a> {
    bytes: &'a [u8],
    found: Vec<Finding>,
}

impl Findings<'_> {
    fn add(&mut self, reason: Reason, place: usize, found: String) {
        self.found.push(Finding {
            reason,
            place,
            found,
        });
    }

    fn count(&self) -> usize {
        number(self.bytes, at::COUNT, 2) as usize
    }

    fn numbers(&mut self) {
        let zero = self.bytes[at::ZERO];
        if zero != 0 {
            self.add(
                Reason::ZeroByteSet,
                at::ZERO,
                format!("0x{zero:02X}, must be 0"),
            );
        }
        let highest = number(self.bytes, at::HIGHEST, 2);
        if highest > 255 {
            self.add(
                Reason::IndexAbove255,
                at::HIGHEST,
                format!("{highest}, at most 255"),
            );
        }
        if self.count() > at::MOST_ENTRIES {
            self.add(
                Reason::CountAbove56,
                at::COUNT,
                format!("{}, at most 56", self.count()),
            );
        }
        let mask = number(self.bytes, at::MASK, 4);
        if mask > 255 {
            self.add(
                Reason::MaskAbove255,
                at::MASK,
                format!("0x{mask:08X}, at most 255"),
            );
        }
    }

    /// Which entries are in use is not known where the count is wrong.
    fn entries(&mut self) {
        if self.count() > at::MOST_ENTRIES {
            return;
        }
        let mut least = 8;
        for i in 0..self.count() {
            let place = at::ENTRIES + at::ENTRY_BYTES * i;
            let (index, enable) = (
                number(self.bytes, place, 4),
                number(self.bytes, place + 4, 4),
            );
            if u64::from(index) < least {
                self.add(
                    Reason::NotAscending,
                    place,
                    format!("index {index}, at least {least} here"),
                );
            }
            if enable > 1 {
                self.add(
                    Reason::EnableNotFlag,
                    place + 4,
                    format!("{enable}, must be 0 or 1"),
                );
            }
            least = u64::from(index) + 1;
        }
        for i in self.count()..at::MOST_ENTRIES {
            let place = at::ENTRIES + at::ENTRY_BYTES * i;
            let entry = &self.bytes[place..place + at::ENTRY_BYTES];
            if let Some(first) = entry.iter().position(|&byte| byte != 0) {
                let byte = entry[first];
                let found = format!("0x{byte:02X}, must be 0: {} in use", self.count());
                self.add(Reason::UnusedNotZero, place + first, found);
            }
        }
    }

    fn slots(&mut self) {
        let (enabled, defined) = (self.bytes[at::ENABLED], self.bytes[at::DEFINED]);
        if enabled & !defined != 0 {
            let slots: Vec<usize> = (0..8)
                .filter(|i| enabled & !defined & (1 << i) != 0)
                .collect();
            let found = format!(
                "slot {} enabled, and the defined byte is 0x{defined:02X}",
                crate::words::ranges(&slots)
            );
            self.add(Reason::EnabledUndefined, at::ENABLED, found);
        }
        let default = Light::default().to_bytes();
        for i in (0..8).filter(|i| defined & (1 << i) == 0) {
            let place = at::LIGHTS + at::LIGHT_BYTES * i;
            let slot = &self.bytes[place..place + at::LIGHT_BYTES];
            if let Some(first) = (0..at::LIGHT_BYTES).find(|&k| slot[k] != default[k]) {
                let found = format!(
                    "0x{:02X}, the default light has 0x{:02X}",
                    slot[first], default[first]
                );
                self.add(Reason::UndefinedNotDefault, place + first, found);
            }
        }
    }

    /// "NaN is 0x7FC00000 only", of every float.
    fn nans(&mut self) {
        for (i, &four) in self.bytes.as_chunks().0.iter().enumerate() {
            let (place, bits) = (4 * i, u32::from_le_bytes(four));
            if bits & 0x7FFF_FFFF > 0x7F80_0000 && bits != 0x7FC0_0000 && is_float(place) {
                let found = format!("0x{bits:08X}, a NaN is 0x7FC00000 only");
                self.add(Reason::AnotherNan, place, found);
            }
        }
    }
}

/// Whether four bytes are a float: all of matrices, material and fog; of a light all but its type, of an entry all but its index, its
/// enable and its light's type.
fn is_float(place: usize) -> bool {
    match place {
        ..at::LIGHTS => true,
        at::LIGHTS..at::ENABLED => (place - at::LIGHTS) % at::LIGHT_BYTES >= 4,
        at::ENTRIES..at::FOG => (place - at::ENTRIES) % at::ENTRY_BYTES >= 12,
        _ => (at::FOG..at::AMBIENT).contains(&place),
    }
}
