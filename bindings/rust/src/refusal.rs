//! Why a call was refused.

use std::error::Error;
use std::fmt;

/// A refusal of the library, with the number that its calls answer. A later library may have others.
#[derive(Clone, Copy, Debug, PartialEq, Eq, Hash)]
#[non_exhaustive]
pub enum Refusal {
    /// No transform has this state number.
    UnknownState,
    /// No light was set or enabled at this index.
    UndefinedLight,
    /// A new light index of 8 or more, and [`OVERFLOW_LIGHTS`](crate::OVERFLOW_LIGHTS) such are stored.
    LightsFull,
    /// A slice is not as long as its item.
    WrongLength,
    /// The key's light mask is not 0 and not that of the lights that are packed
    /// ([`VsKey::light_active_mask`](crate::VsKey::light_active_mask)).
    WrongMask,
    /// The determinant equals 0 or is not finite.
    Singular,
    /// Dirty bits above [`ALL_DIRTY`](crate::ALL_DIRTY).
    UnknownBits,
    /// The key is of transformed vertices, which read no section.
    HasRhw,
    /// The bytes are no state image: they are not well-formed. Well-formed bytes may still be others than those that were
    /// stored, since an image has no checksum.
    NoImage,
    /// A number that this crate does not know: the archives are not those that it was written for
    /// ([`version`](crate::version)).
    Unknown(u32),
}

impl Refusal {
    const KNOWN: [Self; 9] = [
        Self::UnknownState,
        Self::UndefinedLight,
        Self::LightsFull,
        Self::WrongLength,
        Self::WrongMask,
        Self::Singular,
        Self::UnknownBits,
        Self::HasRhw,
        Self::NoImage,
    ];

    /// The number that the library answers.
    #[must_use]
    pub const fn number(self) -> u32 {
        match self {
            Self::UnknownState => 1,
            Self::UndefinedLight => 2,
            Self::LightsFull => 3,
            Self::WrongLength => 4,
            Self::WrongMask => 5,
            Self::Singular => 6,
            Self::UnknownBits => 7,
            Self::HasRhw => 8,
            Self::NoImage => 9,
            Self::Unknown(number) => number,
        }
    }

    /// The refusal in words.
    #[must_use]
    pub const fn words(self) -> &'static str {
        match self {
            Self::UnknownState => "no transform has this state number",
            Self::UndefinedLight => "no light is defined at this index",
            Self::LightsFull => "no room for another light of index 8 or more",
            Self::WrongLength => "a slice has the wrong length",
            Self::WrongMask => "the key's light mask is not that of the lights that are packed",
            Self::Singular => "the matrix has no inverse",
            Self::UnknownBits => "dirty bits above the eight",
            Self::HasRhw => "the key is of transformed vertices",
            Self::NoImage => "the bytes are no state image",
            Self::Unknown(_) => "a number that this crate does not know",
        }
    }

    /// What a call's answer means.
    pub(crate) fn of(answer: u32) -> Result<(), Self> {
        if answer == 0 {
            return Ok(());
        }
        let known = Self::KNOWN
            .into_iter()
            .find(|known| known.number() == answer);
        Err(known.unwrap_or(Self::Unknown(answer)))
    }
}

impl fmt::Display for Refusal {
    fn fmt(&self, f: &mut fmt::Formatter<'_>) -> fmt::Result {
        write!(f, "refused {}: {}", self.number(), self.words())
    }
}

impl Error for Refusal {}

#[cfg(test)]
mod tests {
    use super::*;

    #[test]
    fn each_number_is_read_as_its_refusal_and_no_other_panics() {
        assert_eq!(Refusal::of(0), Ok(()));
        assert!(Refusal::KNOWN.is_sorted_by_key(|refusal| refusal.number()));
        for refusal in Refusal::KNOWN {
            assert_eq!(Refusal::of(refusal.number()), Err(refusal));
        }
        for unknown in [99, u32::MAX] {
            let refusal = Refusal::Unknown(unknown);
            assert_eq!(Refusal::of(unknown), Err(refusal));
            assert_eq!(refusal.number(), unknown);
        }
        let told = Refusal::Unknown(99).to_string();
        assert_eq!(told, "refused 99: a number that this crate does not know");
    }

    /// The header has the same numbers and the same words.
    #[test]
    fn the_header_says_the_same() {
        let header = include_str!("../../../include/ff_state.h");
        let cases = header.split("    case FF_").skip(1);
        let cases = cases.map(|case| {
            (
                case.split_once(':').unwrap().0,
                case.split('"').nth(1).unwrap(),
            )
        });
        let mut found = 0;
        for (name, words) in cases.filter(|(name, _)| *name != "ACCEPTED") {
            let line = header.split(&format!("    FF_{name} = ")).nth(1).unwrap();
            let number: String = line.chars().take_while(char::is_ascii_digit).collect();
            let refusal = Refusal::of(number.parse().unwrap()).unwrap_err();
            assert!(Refusal::KNOWN.contains(&refusal), "{name}");
            assert_eq!(refusal.words(), words, "{name}");
            found += 1;
        }
        assert_eq!(found, Refusal::KNOWN.len());
    }
}
