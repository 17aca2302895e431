//! What the Rust itself does where document 02's T-05 says another thing, or its own comment does: docs/DIFFERENCES.md lists it.

use std::mem::MaybeUninit;

use mtld3d_types::{D3DMATRIX, D3DTS_TEXTURE0, D3DTSS_TEXTURETRANSFORMFLAGS};
use original::ff_state::{FfState, FfVsDirty};

fn set_flags(state: &mut FfState, stage: usize, flags: u32) {
    state.set_texture_stage_state(stage, D3DTSS_TEXTURETRANSFORMFLAGS as usize, flags);
}

/// It marks TT where a stage's bit flips, and nowhere else; here the mask's setter always does.
#[test]
fn tt_is_marked_where_a_bit_flips() {
    let mut state = FfState::new();
    state.take_ff_vs_dirty();
    let writes = [
        (0, 0, false),
        (0, 2, true),
        (0, 2, false),
        (0, 3, false),
        (7, 1, true),
        (7, 0, true),
        (7, 0, false),
    ];
    for (stage, flags, marked) in writes {
        set_flags(&mut state, stage, flags);
        let expected = if marked {
            FfVsDirty::TT
        } else {
            FfVsDirty::empty()
        };
        assert_eq!(state.take_ff_vs_dirty(), expected, "{stage} {flags}");
    }
    assert_eq!(state.tt_active_mask(), 1);
}

/// Its comment has the identity for a stage whose bit is clear below a higher one; its code packs the stored matrix.
#[test]
fn a_stage_whose_bit_is_clear_packs_its_matrix() {
    let mut state = FfState::new();
    let mut m = D3DMATRIX::IDENTITY;
    m.m[12] = 5.0;
    state.set_transform(D3DTS_TEXTURE0, &m);
    set_flags(&mut state, 1, 2);
    let mut rows = [MaybeUninit::new([0.0; 4]); 8];
    state.fill_tt_section(&mut rows);
    // SAFETY: each row was a value before the call.
    let first = unsafe { rows[0].assume_init() };
    assert_eq!(first, [1.0, 0.0, 0.0, 5.0]);
}

/// At mask 0 it does not look at the destination, which must be empty here.
#[test]
fn mask_0_ignores_the_destination() {
    let mut rows = [MaybeUninit::new([7.0; 4]); 3];
    FfState::new().fill_tt_section(&mut rows);
    for row in rows {
        // SAFETY: as above.
        assert_eq!(unsafe { row.assume_init() }, [7.0; 4]);
    }
}
