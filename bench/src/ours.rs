//! Our loops, crates/bench_loops.

use mtld3d_types::D3DMATRIX;

pub use loops::bench_vs_source_light_inputs as vs_source_light_inputs;

mod loops {
    unsafe extern "C" {
        pub fn bench_sqrt(xs: *const f32, xs_len: usize, out: *mut f32, out_len: usize);
        pub fn bench_sqrt_chain(xs: *const f32, xs_len: usize) -> f32;
        pub fn bench_mat_mul(ms: *const f32, ms_len: usize, out: *mut f32, out_len: usize);
        pub fn bench_mat_mul_by_one(ms: *const f32, ms_len: usize, out: *mut f32, out_len: usize);
        pub fn bench_mat_mul_chain(ms: *const f32, ms_len: usize, out: *mut f32, out_len: usize);
        pub fn bench_transpose(ms: *const f32, ms_len: usize, out: *mut f32, out_len: usize);
        pub fn bench_inverse(ms: *const f32, ms_len: usize, out: *mut f32, out_len: usize);

        // Numbers alone, so that any call is sound.
        pub safe fn bench_vs_source_light_inputs(n: u32, index: u32) -> u32;
    }
}

pub fn sqrt(xs: &[f32], out: &mut [f32]) {
    // SAFETY: each pointer goes with its slice's length, and the slices do not overlap.
    unsafe { loops::bench_sqrt(xs.as_ptr(), xs.len(), out.as_mut_ptr(), out.len()) }
}

pub fn sqrt_chain(xs: &[f32]) -> f32 {
    // SAFETY: the pointer goes with the slice's length.
    unsafe { loops::bench_sqrt_chain(xs.as_ptr(), xs.len()) }
}

pub fn mat_mul(ms: &[D3DMATRIX], out: &mut [D3DMATRIX]) {
    on_floats(loops::bench_mat_mul, ms, out);
}

pub fn mat_mul_by_one(ms: &[D3DMATRIX], out: &mut [D3DMATRIX]) {
    on_floats(loops::bench_mat_mul_by_one, ms, out);
}

pub fn mat_mul_chain(ms: &[D3DMATRIX], out: &mut [D3DMATRIX]) {
    on_floats(loops::bench_mat_mul_chain, ms, out);
}

pub fn transpose(ms: &[D3DMATRIX], out: &mut [D3DMATRIX]) {
    on_floats(loops::bench_transpose, ms, out);
}

pub fn inverse(ms: &[D3DMATRIX], out: &mut [D3DMATRIX]) {
    on_floats(loops::bench_inverse, ms, out);
}

type Loop = unsafe extern "C" fn(*const f32, usize, *mut f32, usize);

/// A matrix is 16 floats with nothing between them.
fn on_floats(run: Loop, ms: &[D3DMATRIX], out: &mut [D3DMATRIX]) {
    let (n, m) = (16 * ms.len(), 16 * out.len());
    // SAFETY: `D3DMATRIX` is `repr(C)` of 16 floats, and the slices do not overlap.
    unsafe { run(ms.as_ptr().cast(), n, out.as_mut_ptr().cast(), m) }
}
