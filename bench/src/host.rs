//! The host's calls on an image, each beside a plain copy of as many bytes in turn, and beside the same call on a
//! state in memory.

use std::hint::black_box;

use crate::measure::{alone, alternating};
use crate::raw::{self, FfLight, FfState};
use crate::scene::IMAGE;

const MATRIX: usize = 64;
const MATERIAL: usize = 68;
const LIGHT: usize = 104;
const MIRROR: usize = 17_840;

/// The most that a call that only reads may take, in copies.
const READING: f64 = 15.0;

/// The transform that is set, and lights in a slot and in the table.
const WORLD: u32 = 256;
const SLOT: u32 = 3;
const OVERFLOW: u32 = 9;

/// A fresh image with the first `lights` lights from index 8 on, and `SLOT`.
fn image(lights: u32) -> Box<[u8; IMAGE]> {
    let mut image = Box::new([0; IMAGE]);
    // SAFETY: here and below each pointer goes with its array's length, and no two overlap.
    let mut answers = unsafe { raw::ff_image_fresh(image.as_mut_ptr(), IMAGE) };
    for index in (8..8 + lights).chain([SLOT]) {
        // SAFETY: as above.
        answers |= unsafe { raw::ff_set_light_enabled_at(image.as_mut_ptr(), IMAGE, index, 1) };
    }
    assert_eq!(answers, 0, "the image is refused");
    image
}

pub fn table() {
    println!(
        "| host's call | lights from index 8 on | ns | copy, ns | copies | bound | in memory, ns |"
    );
    println!("|---|---:|---:|---:|---:|---:|---:|");
    for lights in [0, 56] {
        calls(lights);
    }
}

fn calls(lights: u32) {
    let mut held = image(lights);
    let i = held.as_mut_ptr();
    let (matrix, material, light) = ([0u8; MATRIX], [0u8; MATERIAL], [0u8; LIGHT]);
    let (m, l) = (matrix.as_ptr(), light.as_ptr());
    let mut out = [0u8; MATRIX];
    let o = out.as_mut_ptr();
    let mut rows = [0u8; MIRROR];
    let mirror = rows.as_mut_ptr();
    let mut number = 0u32;
    let n: *mut u32 = &mut number;
    let overflow = if lights == 0 { SLOT } else { OVERFLOW };

    let mut state = Box::new(FfState::ZEROS);
    let s: *mut FfState = &mut *state;
    // SAFETY: as in `image`; the state, the items and the number outlive each call.
    assert_eq!(
        unsafe { raw::ff_state_read_image(s, i, IMAGE) },
        0,
        "the image is refused"
    );
    let floats = [0f32; 17];
    let (f, spot) = (
        floats.as_ptr(),
        FfLight {
            type_: 2,
            floats: [0.0; 25],
        },
    );
    let mut numbers = [0f32; MIRROR / 4];
    let to = numbers.as_mut_ptr();

    let read = Some(READING);
    // SAFETY: as above, for every call below.
    unsafe {
        row("ff_image_check", lights, read, None, || {
            raw::ff_image_check(i, IMAGE)
        });
        row("ff_is_light_enabled_at", lights, read, None, || {
            raw::ff_is_light_enabled_at(i, IMAGE, overflow, n)
        });
        row("ff_transform", lights, read, None, || {
            raw::ff_transform(i, IMAGE, WORLD, o, MATRIX)
        });
        let memory = in_memory(|| raw::ff_state_vs_source_light_inputs(s, n));
        row("ff_vs_source_light_inputs", lights, read, memory, || {
            raw::ff_vs_source_light_inputs(i, IMAGE, n)
        });
        let memory = in_memory(|| raw::ff_state_set_transform(s, WORLD, f));
        row("ff_set_transform", lights, None, memory, || {
            raw::ff_set_transform(i, IMAGE, WORLD, m, MATRIX)
        });
        let memory = in_memory(|| raw::ff_state_multiply_transform(s, WORLD, f));
        row("ff_multiply_transform", lights, None, memory, || {
            raw::ff_multiply_transform(i, IMAGE, WORLD, m, MATRIX)
        });
        let memory = in_memory(|| raw::ff_state_set_material(s, f));
        row("ff_set_material", lights, None, memory, || {
            raw::ff_set_material(i, IMAGE, material.as_ptr(), MATERIAL)
        });
        let memory = in_memory(|| raw::ff_state_set_light_at(s, overflow, &spot));
        row("ff_set_light_at", lights, None, memory, || {
            raw::ff_set_light_at(i, IMAGE, overflow, l, LIGHT)
        });
        let memory = in_memory(|| raw::ff_state_set_light_enabled_at(s, overflow, 1));
        row("ff_set_light_enabled_at", lights, None, memory, || {
            raw::ff_set_light_enabled_at(i, IMAGE, overflow, 1)
        });
        let memory = in_memory(|| raw::ff_state_mark_ff_vs_dirty(s, 1));
        row("ff_mark_ff_vs_dirty", lights, None, memory, || {
            raw::ff_mark_ff_vs_dirty(i, IMAGE, 1)
        });
        let memory = in_memory(|| raw::ff_state_take_ff_vs_dirty(s, n));
        row("ff_take_ff_vs_dirty", lights, None, memory, || {
            raw::ff_take_ff_vs_dirty(i, IMAGE, n)
        });
        // Nothing is dirty, as the bits were just taken.
        let memory =
            in_memory(|| raw::ff_state_refresh(s, 0, 0, 0, 0, 0, 0, 0, 0, to, MIRROR / 4, n));
        row("ff_refresh", lights, None, memory, || {
            raw::ff_refresh(i, IMAGE, 0, 0, 0, 0, 0, 0, 0, 0, mirror, MIRROR, n)
        });
        let mut image = Box::new([0; IMAGE]);
        let to = image.as_mut_ptr();
        let memory = in_memory(|| raw::ff_state_read_image(s, i, IMAGE));
        row(
            "ff_image_check and ff_state_read_image",
            lights,
            None,
            memory,
            || raw::ff_image_check(i, IMAGE),
        );
        let memory = in_memory(|| raw::ff_state_write_image(s, to, IMAGE));
        row(
            "ff_image_fresh and ff_state_write_image",
            lights,
            None,
            memory,
            || raw::ff_image_fresh(i, IMAGE),
        );
    }
}

/// A call on a state in memory, in nanoseconds.
fn in_memory(call: impl Fn() -> u32) -> Option<f64> {
    assert_eq!(call(), 0, "a call in memory is refused");
    Some(alone(|| {
        black_box(call());
    }))
}

fn row(
    name: &str,
    lights: u32,
    bound: Option<f64>,
    in_memory: Option<f64>,
    call: impl Fn() -> u32,
) {
    assert_eq!(call(), 0, "{name} is refused");
    let from = [1u8; IMAGE];
    let mut to = [0u8; IMAGE];
    let times = alternating(
        1,
        || {
            black_box(call());
        },
        || copy(black_box(&from), black_box(&mut to)),
    );
    let copies = times.ours / times.theirs;
    let bound = match bound {
        Some(most) if copies <= most => format!("{most}, met"),
        Some(most) => format!("{most}, missed"),
        None => String::new(),
    };
    let in_memory = in_memory.map_or(String::new(), |time| format!("{time:.1}"));
    println!(
        "| `{name}` | {lights} | {:.0} | {:.0} | {copies:.1} | {bound} | {in_memory} |",
        times.ours, times.theirs
    );
}

#[inline(never)]
fn copy(from: &[u8; IMAGE], to: &mut [u8; IMAGE]) {
    *to = *from;
}
