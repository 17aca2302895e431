//! Packing: our fills of a section by value (crates/bench_loops) and over an image (the host's calls), each beside
//! the Rust's on the same state under the same key.

use std::hint::black_box;
use std::mem::MaybeUninit;

use mtld3d_types::{D3DTS_PROJECTION, D3DTS_VIEW};
use original::dxso::FfVsKey;
use original::ff_state::FfState;

use crate::measure::{Times, alternating};
use crate::raw;
use crate::scene::{IMAGE, KEY, eight_spots, image, key, spread};

const ROW: usize = 16;

/// Turns of a loop on one state: enough that making it counts for little.
const TURNS: u32 = 4096;

/// The places that a loop packs into in turn, so that no fill's floats are overwritten unread.
const PLACES: usize = 16;

type Rows<'a> = &'a mut [MaybeUninit<[f32; 4]>];
type Loop = unsafe extern "C" fn(u32, f32, *mut f32, usize) -> u32;
type Fills =
    unsafe extern "C" fn(*const u8, usize, u8, u8, u8, u8, u8, u8, u8, u8, *mut u8, usize) -> u32;

mod loops {
    unsafe extern "C" {
        pub fn bench_fill_wv(n: u32, x: f32, dst: *mut f32, len: usize) -> u32;
        pub fn bench_fill_proj(n: u32, x: f32, dst: *mut f32, len: usize) -> u32;
        pub fn bench_fill_material(n: u32, x: f32, dst: *mut f32, len: usize) -> u32;
        pub fn bench_fill_palette(n: u32, x: f32, dst: *mut f32, len: usize) -> u32;
        pub fn bench_fill_lights(n: u32, x: f32, dst: *mut f32, len: usize) -> u32;
    }
}

fn set_view(s: &mut FfState, x: f32) {
    s.set_transform(D3DTS_VIEW, &spread(x));
}

fn set_projection(s: &mut FfState, x: f32) {
    s.set_transform(D3DTS_PROJECTION, &spread(x));
}

fn set_power(s: &mut FfState, x: f32) {
    let mut material = *s.material();
    material.power = x;
    s.set_material(&material);
}

/// What the Rust does to a state and for a section of it.
trait Theirs {
    /// Changes one input of the section, as each turn of our loop does.
    fn change(s: &mut FfState, x: f32);
    fn fill(s: &FfState, key: &FfVsKey, dst: Rows);
}

macro_rules! theirs {
    ($($name:ident, $change:expr, $fill:expr;)*) => {
        $(
            struct $name;

            impl Theirs for $name {
                fn change(s: &mut FfState, x: f32) {
                    $change(s, x);
                }

                fn fill(s: &FfState, key: &FfVsKey, dst: Rows) {
                    $fill(s, key, dst);
                }
            }
        )*
    };
}

theirs! {
    Wv, set_view, |s: &FfState, _, dst| s.fill_wv_section(dst);
    Proj, set_projection, |s: &FfState, _, dst| s.fill_proj_section(dst);
    Material, set_power, FfState::fill_material_section;
    Lights, set_view, FfState::fill_lights_section;
    Palette, set_view, FfState::fill_palette_section;
}

/// The Rust's loop: what ours does, into as many places in turn. As in ours the state is a local that the compiler sees.
/// Its fields are private, so that an input is changed by a call, where ours stores it.
#[inline(never)]
fn theirs<T: Theirs>(n: u32, x: f32, key: &FfVsKey, dst: Rows) {
    let rows = dst.len() / PLACES;
    let mut s = eight_spots(x);
    let mut v = x;
    for i in 0..n as usize {
        T::change(&mut s, v);
        let at = i % PLACES * rows;
        T::fill(&s, key, &mut dst[at..at + rows]);
        v += 1.0;
    }
}

/// The rows as floats; all of them were written.
fn floats(rows: &[MaybeUninit<[f32; 4]>]) -> Vec<f32> {
    // SAFETY: they were values before they were lent.
    rows.iter()
        .flat_map(|row| unsafe { row.assume_init() })
        .collect()
}

/// What both fill: an image, the state that it is of, and the key.
struct Scene {
    image: Box<[u8; IMAGE]>,
    state: FfState,
    key: FfVsKey,
}

/// The most that a fill by value may take, in times of the Rust's.
const FEW_ROWS: f64 = 2.0;
const LIGHTS: f64 = 3.0;
const PALETTE: f64 = 1.3;

/// A row of the table: the call, how it is made, the bound, and the times of both.
pub type Timed = (&'static str, &'static str, Option<f64>, Times);

pub fn times() -> Vec<Timed> {
    let mut state = eight_spots(1.0);
    set_view(&mut state, 1.0);
    let scene = Scene {
        image: image(),
        state,
        key: key(),
    };
    let s = &scene;
    [
        section::<Wv>(
            "fill_wv_section",
            4,
            FEW_ROWS,
            loops::bench_fill_wv,
            raw::ff_fill_wv_section,
            s,
        ),
        section::<Proj>(
            "fill_proj_section",
            4,
            FEW_ROWS,
            loops::bench_fill_proj,
            raw::ff_fill_proj_section,
            s,
        ),
        section::<Material>(
            "fill_material_section",
            5,
            FEW_ROWS,
            loops::bench_fill_material,
            raw::ff_fill_material_section,
            s,
        ),
        section::<Lights>(
            "fill_lights_section",
            48,
            LIGHTS,
            loops::bench_fill_lights,
            raw::ff_fill_lights_section,
            s,
        ),
        section::<Palette>(
            "fill_palette_section",
            160,
            PALETTE,
            loops::bench_fill_palette,
            raw::ff_fill_palette_section,
            s,
        ),
    ]
    .concat()
}

fn section<T: Theirs>(
    name: &'static str,
    rows: usize,
    bound: f64,
    ours: Loop,
    over: Fills,
    scene: &Scene,
) -> [Timed; 2] {
    let value = by_value::<T>(rows, ours, &scene.key);
    let image = over_image::<T>(rows, over, scene);
    [
        (name, "by value", Some(bound), value),
        (name, "over an image", None, image),
    ]
}

fn by_value<T: Theirs>(rows: usize, ours: Loop, key: &FfVsKey) -> Times {
    let mut a = vec![0f32; PLACES * 4 * rows];
    let mut b = vec![MaybeUninit::new([0f32; 4]); PLACES * rows];
    let mut ours = |n: u32, x: f32| {
        // SAFETY: the pointer goes with the slice's length.
        let packed = unsafe { ours(n, x, a.as_mut_ptr(), a.len()) };
        assert_eq!(packed, n, "a fill is refused");
    };
    let times = alternating(
        TURNS as usize,
        || ours(black_box(TURNS), black_box(1.0)),
        || theirs::<T>(black_box(TURNS), black_box(1.0), key, black_box(&mut b)),
    );
    assert!(a == floats(&b), "the rows differ");
    times
}

fn over_image<T: Theirs>(rows: usize, fill: Fills, scene: &Scene) -> Times {
    let mut a = vec![0u8; ROW * rows];
    let mut b = vec![MaybeUninit::new([0f32; 4]); rows];
    let [rhw, lit, specular, indexed, preview, mask, fog, count] = KEY;
    let (i, dst, len) = (scene.image.as_ptr(), a.as_mut_ptr(), a.len());
    let times = alternating(
        1,
        || {
            // SAFETY: each pointer goes with its slice's length, and the two are apart.
            let answer = unsafe {
                fill(
                    i, IMAGE, rhw, lit, specular, indexed, preview, mask, fog, count, dst, len,
                )
            };
            assert_eq!(answer, 0, "a fill is refused");
        },
        || T::fill(black_box(&scene.state), &scene.key, black_box(&mut b)),
    );
    let fours = a.as_chunks().0.iter();
    let ours: Vec<f32> = fours.map(|&four| f32::from_le_bytes(four)).collect();
    assert!(ours == floats(&b), "the rows differ");
    times
}
