//! The state image of document 01, and its tail of document 02's T-05: where each field stands, and the reasons to refuse one
//! with 9.

use mtld3d_types::D3DLIGHT9;

use crate::call::{LIGHT, MATRIX};
use crate::floats::{NAN, is_nan};
use crate::records;

pub const BYTES: usize = 24_224;
pub const VIEW: usize = 0;
pub const PROJECTION: usize = 64;
pub const PALETTE: usize = 128;
pub const TEXTURE: usize = 16_512;
pub const MATERIAL: usize = 17_024;
pub const LIGHTS: usize = 17_092;
pub const ENABLED: usize = 17_924;
pub const DEFINED: usize = 17_925;
pub const DIRTY: usize = 17_926;
pub const ZERO: usize = 17_927;
pub const HIGHEST: usize = 17_928;
pub const COUNT: usize = 17_930;
pub const ENTRIES: usize = 17_932;
/// The tail, which begins where an image ended before.
pub const TAIL: usize = FOG_START;
pub const FOG_START: usize = 24_204;
pub const FOG_END: usize = 24_208;
pub const FOG_DENSITY: usize = 24_212;
pub const AMBIENT: usize = 24_216;
pub const TEXTURE_MASK: usize = 24_220;
/// Index, enable, light.
pub const ENTRY: usize = 8 + LIGHT;

pub const MATRICES: usize = 256;
pub const TEXTURES: usize = 8;
pub const SLOTS: usize = 8;
/// The bound that document 01 adds.
pub const ROOM: usize = 56;
pub const ALL_DIRTY: u8 = 255;

/// The regions, each with where it starts and its name.
pub const REGIONS: [(usize, &str); 18] = [
    (VIEW, "view"),
    (PROJECTION, "projection"),
    (PALETTE, "palette"),
    (TEXTURE, "texture"),
    (MATERIAL, "material"),
    (LIGHTS, "lights"),
    (ENABLED, "enabled"),
    (DEFINED, "defined"),
    (DIRTY, "dirty"),
    (ZERO, "zero"),
    (HIGHEST, "highest palette index"),
    (COUNT, "overflow count"),
    (ENTRIES, "entries"),
    (FOG_START, "fog start"),
    (FOG_END, "fog end"),
    (FOG_DENSITY, "fog density"),
    (AMBIENT, "ambient"),
    (TEXTURE_MASK, "texture mask"),
];

/// The name of the region that the byte `at` belongs to.
#[must_use]
pub fn region(at: usize) -> &'static str {
    let end = REGIONS.partition_point(|&(start, _)| start <= at);
    REGIONS[end - 1].1
}

/// Where the matrix of a transform state stands; `None` for document 01's refusal 1.
#[must_use]
pub const fn place(state: u32) -> Option<usize> {
    match state {
        2 => Some(VIEW),
        3 => Some(PROJECTION),
        16..=23 => Some(TEXTURE + MATRIX * (state - 16) as usize),
        256..=511 => Some(PALETTE + MATRIX * (state - 256) as usize),
        _ => None,
    }
}

#[must_use]
pub const fn slot(index: usize) -> usize {
    LIGHTS + LIGHT * index
}

#[must_use]
pub const fn entry(at: usize) -> usize {
    ENTRIES + ENTRY * at
}

#[must_use]
pub fn number16(image: &[u8], at: usize) -> u16 {
    u16::from_le_bytes([image[at], image[at + 1]])
}

#[must_use]
pub fn number32(image: &[u8], at: usize) -> u32 {
    u32::from_le_bytes([image[at], image[at + 1], image[at + 2], image[at + 3]])
}

macro_rules! reasons {
    ($($reason:ident, $words:literal;)*) => {
        /// Why bytes are no image.
        #[derive(Clone, Copy, Debug, PartialEq, Eq)]
        pub enum Reason {
            $($reason,)*
        }

        /// Each reason with the papers' words for it.
        pub const REASONS: &[(Reason, &str)] = &[$((Reason::$reason, $words),)*];
    };
}

reasons! {
    Length, "another length";
    Zero, "zero byte set";
    Highest, "palette index above 255";
    Count, "count above 56";
    Order, "entries not strictly ascending from 8";
    Enable, "enable not 0 or 1";
    Unused, "nonzero unused entries";
    Enabled, "enabled but undefined";
    Undefined, "an undefined slot not default";
    Mask, "mask above 255";
    Nan, "another NaN";
}

/// All reasons that hold, so that it can be told which stands alone. A count above 56 is read as 56.
#[must_use]
pub fn reasons(image: &[u8]) -> Vec<Reason> {
    if image.len() != BYTES {
        return vec![Reason::Length];
    }
    let used = usize::from(number16(image, COUNT)).min(ROOM);
    let tests = [
        (Reason::Zero, image[ZERO] != 0),
        (Reason::Highest, number16(image, HIGHEST) > 255),
        (Reason::Count, usize::from(number16(image, COUNT)) > ROOM),
        (Reason::Order, !ascending(image, used)),
        (
            Reason::Enable,
            (0..used).any(|at| number32(image, entry(at) + 4) > 1),
        ),
        (
            Reason::Unused,
            image[entry(used)..TAIL].iter().any(|&byte| byte != 0),
        ),
        (Reason::Enabled, image[ENABLED] & !image[DEFINED] != 0),
        (Reason::Undefined, !undefined_slots_are_default(image)),
        (Reason::Mask, number32(image, TEXTURE_MASK) > 255),
        (Reason::Nan, another_nan(image)),
    ];
    tests
        .into_iter()
        .filter_map(|(reason, holds)| holds.then_some(reason))
        .collect()
}

fn ascending(image: &[u8], used: usize) -> bool {
    let mut least = u64::from(SLOTS as u32);
    (0..used).all(|at| {
        let index = u64::from(number32(image, entry(at)));
        let above = index >= least;
        least = index + 1;
        above
    })
}

fn undefined_slots_are_default(image: &[u8]) -> bool {
    let mut default = [0; LIGHT];
    records::put_light(&D3DLIGHT9::default(), &mut default);
    (0..SLOTS)
        .filter(|i| image[DEFINED] & (1 << i) == 0)
        .all(|i| image[slot(i)..slot(i) + LIGHT] == default)
}

/// Floats are all numbers but the lights' types, what stands from `ENABLED` to the first light of an entry, or between two of
/// them, and what stands from `AMBIENT` on.
fn another_nan(image: &[u8]) -> bool {
    let lights = (0..SLOTS).map(slot);
    let entries = (0..ROOM).map(|at| entry(at) + 8);
    has_another_nan(&image[..LIGHTS])
        || has_another_nan(&image[TAIL..AMBIENT])
        || lights
            .chain(entries)
            .any(|light| has_another_nan(&image[light + 4..light + LIGHT]))
}

fn has_another_nan(floats: &[u8]) -> bool {
    floats.as_chunks().0.iter().fold(false, |found, &four| {
        let bits = u32::from_le_bytes(four);
        found | (is_nan(bits) & (bits != NAN))
    })
}
