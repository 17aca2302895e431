//! `calls-replay`: counts, the call after which a row went wrong, the condition that the list breaks.

use crate::common::{Ran, file, folder, run};
use ff_state::FfImage;

/// A list run as a file of its own.
pub fn replay(name: &str, list: &str, words: &[&str]) -> Ran {
    let list = file(&folder(name), "list.calls", list.as_bytes());
    run("calls-replay", &[&[list.as_str()], words].concat())
}

/// That each of these stands in the output, in this order.
fn says(ran: &Ran, words: &[&str]) {
    let mut rest = ran.out.as_str();
    for word in words {
        let Some(place) = rest.find(word) else {
            panic!("no '{word}' here, or not in this place:\n{}", ran.out);
        };
        rest = &rest[place + word.len()..];
    }
}

#[test]
fn a_list_that_keeps_the_conditions_is_right() {
    let samples = concat!(env!("CARGO_MANIFEST_DIR"), "/samples/scene.calls");
    let ran = run("calls-replay", &[samples]);
    assert_eq!(ran.status, 0, "{}", ran.out);
    says(
        &ran,
        &["21 calls made, 0 of them refused; 4 refreshes accepted. Every row was right"],
    );
    let ran = replay("empty", "", &[]);
    assert!(
        ran.status == 0
            && ran
                .out
                .ends_with("No refresh was accepted, so nothing was compared.\n")
    );
}

/// Document 01: lit, MATERIAL has four rows and unlit one.
#[test]
fn a_shape_change_without_a_marking_is_named() {
    let ran = replay(
        "shape",
        "set_material ambient=1,2,3,4\nrefresh\n\nmark 251\nrefresh lighting_enabled=1\nrefresh\n",
        &[],
    );
    assert_eq!(ran.status, 1);
    says(
        &ran,
        &[
            "    5        0/4+      0/4+      0/1+      0/1+       3/4      0/0+      0/0+      0/0+\n",
            "condition broken: the key's shape changed since line 2 (lighting_enabled 0 -> 1); not marked in between: MATERIAL\n",
            "Wrong after line 5, refresh lighting_enabled=1: row 11, which is row 1 of MATERIAL",
            "expected              1             2             3             4\n",
            "found      -4.3160208e8",
            "all wrong rows of MATERIAL: 11 to 13\n",
            "last written by: no line yet\n",
            "wrong since: line 5, its own key: under that of line 2 MATERIAL did not have this row\n",
            "Why: the key's shape changed between line 2 and line 5 (lighting_enabled 0 -> 1), and MATERIAL was not marked in between.\n",
            "Tried: with 'mark all' just before line 5, no row is wrong after it.\n",
            "4 calls made",
            "Next: mark every section between line 2 and line 5.\n",
        ],
    );
    // Fog rows are there under every key, and hold zeros under mode 0.
    let ran = replay("fog", "set_fog_end 9\nrefresh\nrefresh fog_mode=1\n", &[]);
    says(
        &ran,
        &[
            "row 8,",
            "wrong since: line 3, its own key: under that of line 2 FOG packed something else there",
        ],
    );
    // has_rhw is no shape field, and is refused 8.
    let ran = replay("rhw", "refresh\nrefresh has_rhw=1\nrefresh\n", &[]);
    assert_eq!(ran.status, 0, "{}", ran.out);
    says(
        &ran,
        &[
            "    2  refresh has_rhw=1: refused 8",
            "3 calls made, 1 of them refused; 2 refreshes accepted",
        ],
    );
}

#[test]
fn a_broken_condition_is_named_where_no_row_is_wrong_too() {
    let ran = replay(
        "lucky",
        "refresh\nset_light_enabled_at 3 1\nrefresh light_active_mask=1\n",
        &[],
    );
    assert_eq!(ran.status, 1);
    says(
        &ran,
        &[
            "(light_active_mask 0 -> 1); not marked in between: WV PROJ FOG AMBIENT MATERIAL TT PALETTE\n",
            "No row was wrong, but the list breaks demand 3's conditions",
        ],
    );
}

#[test]
fn a_take_between_is_named() {
    let ran = replay(
        "take",
        "refresh\nset_transform view translation 1 2 3\ntake\nset_ambient 5\nrefresh\n",
        &[],
    );
    assert_eq!(ran.status, 1);
    says(
        &ran,
        &[
            "    3  take: condition broken: refreshes are the only takes; this one took the marks of: WV LIGHTS PALETTE\n",
            "Wrong after line 5, refresh: row 0, which is row 0 of WV",
            // View × identity, its columns: x in the last place of row 0.
            "expected              1             0             0             1\n",
            "found                 1             0             0             0\n",
            "all wrong rows of WV: 0 to 2\n",
            "last written by: line 1, a refresh\n",
            "wrong since: line 2, set_transform view translation 1 2 3\n",
            "Why: line 3 took the mark of WV away",
            "Next: do not take at line 3, or mark WV again after it.\n",
        ],
    );
    let ran = replay(
        "take-marked",
        "refresh\nset_transform view translation 1 2 3\ntake\nmark 25\nrefresh\n",
        &[],
    );
    says(&ran, &["No row was wrong"]);
}

/// The row is wrong after line 2, right again after line 3, and wrong for good after line 4.
#[test]
fn a_row_is_wrong_since_the_last_time_that_it_went_wrong() {
    let list =
        "refresh\nset_ambient 1\nset_ambient 0\nset_ambient 2\nset_ambient 3\ntake\nrefresh\n";
    says(
        &replay("since", list, &[]),
        &["row 9,", "wrong since: line 4, set_ambient 2\n"],
    );
}

/// A mark that was taken and did no harm is forgotten at the next accepted refresh.
#[test]
fn a_row_is_blamed_on_what_made_it_wrong_alone() {
    let list = "refresh\nmark AMBIENT\ntake\nrefresh\noverwrite 9 1 2 3 4\nrefresh\n";
    let ran = replay("alone", list, &[]);
    says(
        &ran,
        &[
            "Why: line 5 overwrote rows of AMBIENT",
            "Next: mark AMBIENT after line 5.\n",
        ],
    );
    assert_eq!(ran.out.matches("Why: ").count(), 1, "{}", ran.out);
}

#[test]
fn an_image_read_in_and_not_marked_is_named() {
    // The dirty byte is 0 and the ambient colour another one.
    let read = "read_in bytes 17926:00 24216:ff000000";
    let ran = replay(
        "image",
        &format!("refresh\n{read}\nmark WV\nrefresh\n"),
        &[],
    );
    assert_eq!(ran.status, 1);
    says(
        &ran,
        &[
            "condition broken: an image was read in at line 2; not marked since: PROJ FOG AMBIENT MATERIAL LIGHTS TT PALETTE\n",
            "row 9, which is row 0 of AMBIENT",
            "wrong since: line 2, read_in bytes",
            "Why: an image was read in at line 2, and AMBIENT was not marked since.\n",
            "Next: mark every section between line 2 and line 4.\n",
        ],
    );
    assert_eq!(
        replay(
            "image-marked",
            &format!("refresh\n{read}\nmark all\nrefresh\n"),
            &[]
        )
        .status,
        0
    );
    // The same image as the list's beginning, before any refresh.
    let mut image = FfImage::fresh();
    image.set_ambient(0xFF);
    image.take_ff_vs_dirty();
    let image = file(&folder("image-option"), "clean.image", image.as_bytes());
    let ran = replay("image-first", "refresh\n", &["--image", &image]);
    assert_eq!(ran.status, 1);
    says(
        &ran,
        &[
            "an image was read in at the start; not marked since: all eight",
            "wrong since: the start: no refresh",
        ],
    );
    assert_eq!(
        replay(
            "image-first-marked",
            "mark all\nrefresh\n",
            &["--image", &image]
        )
        .status,
        0
    );
    // Bytes that are no image are refused 9 with the reason, and change nothing.
    let ran = replay(
        "image-refused",
        "refresh\nread_in bytes 17926:0001\nrefresh\n",
        &[],
    );
    assert_eq!(ran.status, 0, "{}", ran.out);
    says(
        &ran,
        &[
            "    2  read_in bytes 17926:0001: refused 9",
            "byte 17927  zero byte set: the zero byte: 0x01, must be 0\n",
        ],
    );
}

#[test]
fn an_overwriting_is_named_and_let_off() {
    let list = "refresh\noverwrite 5..6 1 2 3 4\nrefresh\nmark PROJ\nrefresh\n";
    let ran = replay("overwrite", list, &[]);
    assert_eq!(ran.status, 1);
    says(
        &ran,
        &[
            "    3         0/4      2/4~       0/1",
            "last written by: line 2, an overwriting\n",
            "wrong since: line 2, overwrite 5..6 1 2 3 4\n",
            "Why: line 2 overwrote rows of PROJ, which was not marked since: demand 3 lets PROJ off until it is.\n",
            "Stopped at the first wrong row.\nNext: mark PROJ after line 2.\n",
        ],
    );
    // "its count is zero again from the first accepted refresh after its next marking"
    let ran = replay("overwrite-on", list, &["--keep-going"]);
    assert_eq!(ran.status, 1);
    says(
        &ran,
        &[
            "    5         0/4      0/4+       0/1",
            "5 calls made, 0 of them refused; 3 refreshes accepted. Rows were wrong",
        ],
    );
    // "before the first it hits none"; rows outside every section hit none.
    for list in [
        "overwrite 0..1114 0 0 0 0\nrefresh\n",
        "refresh\noverwrite 11..94 0 0 0 0\nrefresh\n",
    ] {
        assert_eq!(replay("overwrite-none", list, &[]).status, 0);
    }
}

/// The refusals by their numbers, and that a refused call leaves the book alone.
#[test]
fn refused_calls_are_told_and_change_nothing() {
    let mut list = String::from(
        "set_transform 15 identity\nmultiply_transform 512 identity\nmark 256\nrefresh light_active_mask=1\n",
    );
    for index in 8..64 {
        list.push_str(&format!("set_light_enabled_at {index} 0\n"));
    }
    list.push_str("set_light_at 64\nset_light_enabled_at 65 1\nset_light_at 63 range=1\nrefresh\n");
    let ran = replay("refused", &list, &[]);
    assert_eq!(ran.status, 0, "{}", ran.out);
    says(
        &ran,
        &[
            "    1  set_transform 15 identity: refused 1: ",
            "    2  multiply_transform 512 identity: refused 1: ",
            "    3  mark 256: refused 7: ",
            "    4  refresh light_active_mask=1: refused 5: ",
            "   61  set_light_at 64: refused 3: ",
            "   62  set_light_enabled_at 65 1: refused 3: ",
            "64 calls made, 6 of them refused; 1 refresh accepted.",
        ],
    );
}
