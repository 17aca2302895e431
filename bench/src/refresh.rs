//! Refresh over an image, beside the Rust's fills of the same sections into the same rows. Before each the sections are
//! marked, and that is timed too.

use std::hint::black_box;
use std::mem::MaybeUninit;

use mtld3d_types::{D3DTS_VIEW, RENDER_STATE_COUNT};
use original::dxso::FfVsKey;
use original::ff_state::{FfState, FfVsDirty};

use crate::measure::{Times, alternating};
use crate::raw;
use crate::scene::{IMAGE, KEY, eight_spots, image, key, spread};

const ROWS: usize = 1115;
const FLOATS: usize = 4 * ROWS;
const BYTES: usize = 4 * FLOATS;

pub type Mirror = [MaybeUninit<[f32; 4]>; ROWS];

/// The sections that are marked: their bits here and in the Rust, and the rows of the table.
struct Marked {
    bits: u32,
    theirs: FfVsDirty,
    shape: &'static str,
}

/// The time of each, and how it was made.
pub fn times() -> Vec<(&'static str, Times)> {
    let marked = [
        Marked {
            bits: 0,
            theirs: FfVsDirty::empty(),
            shape: "over an image, nothing dirty",
        },
        Marked {
            bits: 2,
            theirs: FfVsDirty::PROJ,
            shape: "over an image, PROJ",
        },
        Marked {
            bits: 255,
            theirs: FfVsDirty::all(),
            shape: "over an image, all",
        },
    ];
    let key = key();
    marked
        .iter()
        .map(|m| (m.shape, over_image(m, &key)))
        .collect()
}

/// Fog and ambient colour 0, as in a fresh state; no texture stage transforms on either side.
static RENDER_STATES: [u32; RENDER_STATE_COUNT] = [0; RENDER_STATE_COUNT];

/// The dirty sections into the places that they have in a mirror.
pub fn fills(s: &mut FfState, key: &FfVsKey, mirror: &mut Mirror) {
    let bits = s.take_ff_vs_dirty();
    if bits.contains(FfVsDirty::WV) {
        s.fill_wv_section(&mut mirror[..4]);
    }
    if bits.contains(FfVsDirty::PROJ) {
        s.fill_proj_section(&mut mirror[4..8]);
    }
    if bits.contains(FfVsDirty::FOG) {
        FfState::fill_fog_section(&RENDER_STATES, key.fog_mode, &mut mirror[8..9]);
    }
    if bits.contains(FfVsDirty::AMBIENT) {
        FfState::fill_ambient_section(&RENDER_STATES, &mut mirror[9..10]);
    }
    if bits.contains(FfVsDirty::MATERIAL) {
        s.fill_material_section(key, &mut mirror[10..15]);
    }
    if bits.contains(FfVsDirty::LIGHTS) {
        s.fill_lights_section(key, &mut mirror[15..63]);
    }
    if bits.contains(FfVsDirty::TT) {
        s.fill_tt_section(&mut mirror[63..63 + usize::from(s.tt_section_rows())]);
    }
    if bits.contains(FfVsDirty::PALETTE) {
        s.fill_palette_section(key, &mut mirror[95..255]);
    }
}

/// One image and one state: nothing changes but the bits.
fn over_image(marked: &Marked, key: &FfVsKey) -> Times {
    let mut image = image();
    let mut state = eight_spots(1.0);
    state.set_transform(D3DTS_VIEW, &spread(1.0));
    state.take_ff_vs_dirty();
    let mut a = vec![0u8; BYTES];
    let mut b = [MaybeUninit::new([0f32; 4]); ROWS];
    let [rhw, lit, specular, indexed, preview, mask, fog, count] = KEY;
    let (i, mirror, mut out) = (image.as_mut_ptr(), a.as_mut_ptr(), 0);
    // SAFETY: here and below each pointer goes with its slice's length, and no two overlap.
    let answer = unsafe { raw::ff_take_ff_vs_dirty(i, IMAGE, &mut out) };
    assert_eq!(answer, 0, "the image is refused");
    let times = alternating(
        1,
        || {
            // SAFETY: as above.
            let answers = unsafe {
                raw::ff_mark_ff_vs_dirty(i, IMAGE, marked.bits)
                    | raw::ff_refresh(
                        i, IMAGE, rhw, lit, specular, indexed, preview, mask, fog, count, mirror,
                        BYTES, &mut out,
                    )
            };
            assert_eq!((answers, out), (0, marked.bits), "a refresh is refused");
        },
        || {
            let state = black_box(&mut state);
            state.mark_ff_vs_dirty(marked.theirs);
            fills(state, key, black_box(&mut b));
        },
    );
    let fours = a.as_chunks().0.iter();
    let ours: Vec<f32> = fours.map(|&four| f32::from_le_bytes(four)).collect();
    assert!(ours == floats(&b), "the mirrors differ");
    times
}

/// The mirror as floats; every row was a value from the start.
fn floats(mirror: &Mirror) -> Vec<f32> {
    // SAFETY: as the comment says.
    mirror
        .iter()
        .flat_map(|row| unsafe { row.assume_init() })
        .collect()
}
