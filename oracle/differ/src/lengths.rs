//! Slices of every length: any but 64 bytes is refused 4, before 6, and nothing is written.

use cases::answers::{self, Words};

use crate::bytes;
use crate::guarded::Guarded;
use crate::host::{Host, INVERSE, MAT_MUL, NO_INVERSE, TRANSPOSE, WRONG_LENGTH};
use crate::report::{Difference, Outcome, Run};

const LONGEST: usize = 80;
/// 64 once the length is cut to a byte or to two.
const WRAPPED: [usize; 2] = [256 + 64, 65_536 + 64];

/// `len` bytes, the first of them those of `words`.
fn guarded(words: &Words, len: usize, shift: usize) -> Guarded {
    let mut lent = Guarded::new(len, shift);
    for (place, byte) in lent.slice_mut().iter_mut().zip(bytes::of(words)) {
        *place = byte;
    }
    lent
}

/// Runs one call on `inputs` and `out` and compares its status and every byte afterwards.
fn check(
    run: &mut Run,
    name: &'static str,
    inputs: &[Guarded],
    out: Guarded,
    answer: Result<Words, u32>,
    call: impl FnOnce(&[Guarded], &mut [u8]) -> u32,
) -> Outcome {
    let right = inputs
        .iter()
        .chain([&out])
        .all(|lent| lent.slice().len() == bytes::MATRIX);
    let answer = if right { answer } else { Err(WRONG_LENGTH) };
    let before = inputs.to_vec();
    let mut expected = out.clone();
    if let Ok(words) = &answer {
        expected.slice_mut().copy_from_slice(&bytes::of(words));
    }
    let status = answer.err().unwrap_or(0);

    let mut after = out;
    let ours = call(inputs, after.slice_mut());
    run.count(name, status, 1);
    let found = if ours != status {
        format!("status: expected {status}, ours {ours}")
    } else if after != expected {
        "the bytes of the lent slice, or those around it".to_string()
    } else if before != inputs {
        "the bytes of an argument".to_string()
    } else {
        return Ok(());
    };
    let lengths: Vec<String> = before
        .iter()
        .chain([&expected])
        .map(|lent| lent.slice().len().to_string())
        .collect();
    Err(Difference {
        call: name,
        text: format!(
            "difference: {name}, lengths {} (the last is the lent slice's)\n  {found}\n",
            lengths.join(", ")
        ),
    })
}

fn product(run: &mut Run, host: Host, lens: [usize; 3], shift: usize) -> Outcome {
    let (a, b) = (whole(2), whole(3));
    check(
        run,
        MAT_MUL,
        &[guarded(&a, lens[0], shift), guarded(&b, lens[1], shift / 4)],
        guarded(&whole(5), lens[2], shift / 16),
        Ok(answers::mat_mul(&a, &b)),
        |inputs, out| host.mat_mul(inputs[0].slice(), inputs[1].slice(), out),
    )
}

fn transposed(run: &mut Run, host: Host, lens: [usize; 2], shift: usize) -> Outcome {
    let m = whole(2);
    check(
        run,
        TRANSPOSE,
        &[guarded(&m, lens[0], shift)],
        guarded(&whole(5), lens[1], shift / 4),
        Ok(answers::transpose(&m)),
        |inputs, out| host.transpose(inputs[0].slice(), out),
    )
}

fn inverted(run: &mut Run, host: Host, lens: [usize; 2], shift: usize, m: &Words) -> Outcome {
    check(
        run,
        INVERSE,
        &[guarded(m, lens[0], shift)],
        guarded(&whole(5), lens[1], shift / 4),
        answers::inverse(m).ok_or(NO_INVERSE),
        |inputs, out| host.inverse(inputs[0].slice(), out),
    )
}

/// A regular matrix of small whole numbers: 1 on the diagonal, `by` and more above it.
fn whole(by: u32) -> Words {
    core::array::from_fn(|i| {
        let (row, column) = (i / 4, i % 4);
        let entry = if row == column {
            1.0
        } else if row < column {
            (by + i as u32) as f32
        } else {
            0.0
        };
        entry.to_bits()
    })
}

pub fn lengths(run: &mut Run, host: Host) -> Outcome {
    let regular = whole(2);
    let mut singular = regular;
    singular[12..].copy_from_slice(&regular[8..12]);
    let mut overflowing = regular;
    overflowing[0] = f32::INFINITY.to_bits();

    for first in 0..=LONGEST {
        for second in 0..=LONGEST {
            for third in 0..=LONGEST {
                let shift = first + second + third;
                product(run, host, [first, second, third], shift)?;
            }
            let shift = first + second;
            transposed(run, host, [first, second], shift)?;
            for m in [&regular, &singular, &overflowing] {
                inverted(run, host, [first, second], shift, m)?;
            }
        }
    }
    for long in WRAPPED {
        for lens in [[long, 64, 64], [64, long, 64], [64, 64, long], [long; 3]] {
            product(run, host, lens, 0)?;
        }
        for lens in [[long, 64], [64, long], [long; 2]] {
            transposed(run, host, lens, 0)?;
            for m in [&regular, &singular] {
                inverted(run, host, lens, 0, m)?;
            }
        }
    }
    // The right lengths at every alignment of every slice.
    for shift in 0..64 {
        product(run, host, [64; 3], shift)?;
        transposed(run, host, [64; 2], shift)?;
        for m in [&regular, &singular] {
            inverted(run, host, [64; 2], shift, m)?;
        }
    }
    Ok(())
}
