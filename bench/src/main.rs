//! Times our calls beside the Rust's, and the host's calls beside a copy of an image; prints two tables.

mod host;
mod inputs;
mod measure;
mod memory;
mod ours;
mod packing;
mod refresh;
mod scene;
mod theirs;

/// The library's calls, as the Rust crate declares them; some of them are timed.
#[allow(dead_code)]
#[path = "../../bindings/rust/src/raw.rs"]
mod raw;

use std::hint::black_box;

use inputs::Random;
use measure::{Times, alone, alternating, loops};
use mtld3d_types::D3DMATRIX;

/// Few enough that input and output stay in the first cache.
const FLOATS: usize = 2048;
const MATRICES: usize = 128;

/// Turns of a loop on one state: enough that making it counts for little, and so few that a sample is
/// seldom interrupted. A turn of ours copies the lists of lights, or nothing.
const LISTS: u32 = 4096;
const PLAIN: u32 = 65_536;

/// A light in a slot, and one in the table.
const SLOT: u32 = 3;
const OVERFLOW: u32 = 9;

/// The most that ours may take, in times of the Rust's.
const PRODUCT: Option<f64> = Some(1.2);
const ROOT: Option<f64> = Some(12.0);
const INPUTS: Option<f64> = Some(5.0);

fn main() {
    match std::env::args().nth(1).as_deref() {
        Some("host") => host::table(),
        Some("packing") => {
            head();
            fills();
            refreshes();
        }
        Some("memory") => {
            head();
            in_memory();
        }
        Some("growth") => {
            let svg = std::env::args().nth(2).unwrap_or("growth.svg".to_string());
            memory::growth(&svg).expect("the drawing can be written");
        }
        _ => {
            beside_the_rust();
            println!();
            host::table();
        }
    }
}

fn head() {
    println!("| call | loop | ours, ns | Rust, ns | ratio | bound |");
    println!("|---|---|---:|---:|---:|---:|");
}

fn beside_the_rust() {
    let mut random = Random::new(0x9E37_79B9_7F4A_7C15);
    let roots: Vec<f32> = (0..FLOATS).map(|_| random.positive()).collect();
    let links: Vec<f32> = (0..FLOATS).map(|_| random.below_four()).collect();
    let cameras: Vec<D3DMATRIX> = (0..MATRICES).map(|_| random.camera()).collect();

    head();

    let times = on_matrices(&cameras, ours::mat_mul, theirs::mat_mul);
    row("product", "each by the next", &times, PRODUCT);
    let times = on_matrices(&cameras, ours::mat_mul_by_one, theirs::mat_mul_by_one);
    row("product", "each by one", &times, PRODUCT);
    let times = on_matrices(&cameras, ours::mat_mul_chain, theirs::mat_mul_chain);
    row("product", "chain", &times, PRODUCT);

    let times = on_floats(&roots, ours::sqrt, theirs::sqrt_scalar);
    row("root", "apart", &times, ROOT);
    let times = on_chain(&links, ours::sqrt_chain, theirs::sqrt_chain);
    row("root", "chain", &times, ROOT);
    let times = on_floats(&roots, ours::sqrt, theirs::sqrt);
    row("root", "apart, the Rust's four at a time", &times, None);

    let times = on_matrices(&cameras, ours::transpose, theirs::transpose);
    row("transpose", "apart", &times, None);
    let times = on_matrices(&cameras, ours::inverse, theirs::inverse);
    row("inverse", "apart", &times, None);

    on_state();
}

/// The calls on the state: by value, over an image and in memory.
fn on_state() {
    for (index, turns, shape, bound) in [
        (SLOT, PLAIN, "slots alone", None),
        (OVERFLOW, LISTS, "an overflow light", INPUTS),
    ] {
        let times = on_calls(
            turns,
            |n| ours::vs_source_light_inputs(n, black_box(index)),
            |n| theirs::vs_source_light_inputs(n, black_box(index)),
        );
        row("vs_source_light_inputs", shape, &times, bound);
    }
    fills();
    refreshes();
    in_memory();
    copies();
}

fn fills() {
    for (name, shape, bound, times) in packing::times() {
        row(name, shape, &times, bound);
    }
}

fn in_memory() {
    for (name, shape, bound, times) in memory::times() {
        row(name, shape, &times, bound);
    }
}

fn refreshes() {
    for (shape, times) in refresh::times() {
        row("refresh", shape, &times, None);
    }
}

/// A yardstick for those: a plain copy of as many bytes.
fn copies() {
    let [mut a, mut b, mut c] = [[1; theirs::STATE]; 3];
    let two = alone(|| theirs::copy(black_box(&a), black_box(&mut b)));
    // Three states are more than the first cache holds.
    let three = alone(|| {
        theirs::copy(black_box(&a), black_box(&mut b));
        theirs::copy(black_box(&b), black_box(&mut c));
        theirs::copy(black_box(&c), black_box(&mut a));
    }) / 3.0;
    for (time, shape) in [(two, "again and again"), (three, "among three")] {
        let bytes = theirs::STATE;
        println!("| copy of {bytes} bytes | {shape} |  | {time:.2} |  |  |");
    }
}

fn on_calls<T: PartialEq>(turns: u32, ours: impl Fn(u32) -> T, theirs: impl Fn(u32) -> T) -> Times {
    assert!(ours(turns) == theirs(turns), "the answers differ");
    loops(
        [turns, PLAIN],
        |n| {
            black_box(ours(n));
        },
        |n| {
            black_box(theirs(n));
        },
    )
}

fn on_floats(xs: &[f32], ours: fn(&[f32], &mut [f32]), theirs: fn(&[f32], &mut [f32])) -> Times {
    let (mut a, mut b) = (vec![0.0; xs.len()], vec![0.0; xs.len()]);
    ours(xs, &mut a);
    theirs(xs, &mut b);
    assert!(a == b, "the answers differ");
    alternating(
        xs.len(),
        || ours(black_box(xs), black_box(&mut a)),
        || theirs(black_box(xs), black_box(&mut b)),
    )
}

fn on_chain(xs: &[f32], ours: fn(&[f32]) -> f32, theirs: fn(&[f32]) -> f32) -> Times {
    assert!(ours(xs) == theirs(xs), "the answers differ");
    alternating(
        xs.len(),
        || {
            black_box(ours(black_box(xs)));
        },
        || {
            black_box(theirs(black_box(xs)));
        },
    )
}

type Matrices = fn(&[D3DMATRIX], &mut [D3DMATRIX]);

fn on_matrices(ms: &[D3DMATRIX], ours: Matrices, theirs: Matrices) -> Times {
    let zero = D3DMATRIX { m: [0.0; 16] };
    let (mut a, mut b) = (vec![zero; ms.len()], vec![zero; ms.len()]);
    ours(ms, &mut a);
    theirs(ms, &mut b);
    assert!(a == b, "the answers differ");
    alternating(
        ms.len(),
        || ours(black_box(ms), black_box(&mut a)),
        || theirs(black_box(ms), black_box(&mut b)),
    )
}

fn row(call: &str, shape: &str, times: &Times, bound: Option<f64>) {
    let ratio = times.ours / times.theirs;
    let bound = match bound {
        Some(most) if ratio <= most => format!("{most}, met"),
        Some(most) => format!("{most}, missed"),
        None => String::new(),
    };
    println!(
        "| {call} | {shape} | {:.2} | {:.2} | {ratio:.2} | {bound} |",
        times.ours, times.theirs
    );
}
