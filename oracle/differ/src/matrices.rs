//! ff_mat_mul, ff_transpose and ff_inverse against `FfState`.

use cases::answers::{self, Words};
use cases::matrices::{KINDS, Kind, factors, matrix};
use cases::random::Random;

use crate::bytes;
use crate::host::{Host, INVERSE, MAT_MUL, NO_INVERSE, TRANSPOSE};
use crate::report::{self, Difference, Outcome, Run};
use crate::shrink::shrink;

/// What a lent slice and the bytes around it hold before a call; a refused call leaves it all.
const BEFORE: u8 = 0xA5;
const GUARD: usize = 16;

/// A status, what the lent slice holds afterwards, and whether the bytes around it are unchanged.
#[derive(Clone, Copy, PartialEq, Eq)]
struct Answer {
    status: u32,
    out: Words,
    kept: bool,
}

impl Answer {
    fn accepted(out: Words) -> Self {
        Self {
            status: 0,
            out,
            kept: true,
        }
    }

    fn refused(status: u32) -> Self {
        Self {
            status,
            out: bytes::words(&[BEFORE; bytes::MATRIX]),
            kept: true,
        }
    }

    fn of(call: impl FnOnce(&mut [u8]) -> u32) -> Self {
        const END: usize = GUARD + bytes::MATRIX;
        let mut buffer = [BEFORE; END + GUARD];
        let status = call(&mut buffer[GUARD..END]);
        let around = buffer[..GUARD].iter().chain(&buffer[END..]);
        Self {
            status,
            out: bytes::words(&buffer[GUARD..END]),
            kept: around.fold(true, |kept, &byte| kept & (byte == BEFORE)),
        }
    }
}

/// A call on one matrix, or on two that lie one after the other.
struct Call<const N: usize> {
    name: &'static str,
    ours: fn(Host, &[u32; N]) -> Answer,
    rust: fn(&[u32; N]) -> Answer,
    draw: fn(Kind, &mut Random) -> [u32; N],
}

const PRODUCT: Call<32> = Call {
    name: MAT_MUL,
    ours: |host, pair| {
        let (a, b) = halves(pair);
        Answer::of(|out| host.mat_mul(&bytes::of(&a), &bytes::of(&b), out))
    },
    rust: |pair| {
        let (a, b) = halves(pair);
        Answer::accepted(answers::mat_mul(&a, &b))
    },
    draw: |kind, random| {
        let (a, b) = factors(kind, random);
        core::array::from_fn(|i| if i < 16 { a[i] } else { b[i - 16] })
    },
};

const TRANSPOSED: Call<16> = Call {
    name: TRANSPOSE,
    ours: |host, m| Answer::of(|out| host.transpose(&bytes::of(m), out)),
    rust: |m| Answer::accepted(answers::transpose(m)),
    draw: matrix,
};

const INVERTED: Call<16> = Call {
    name: INVERSE,
    ours: |host, m| Answer::of(|out| host.inverse(&bytes::of(m), out)),
    rust: |m| match answers::inverse(m) {
        Some(inverse) => Answer::accepted(inverse),
        None => Answer::refused(NO_INVERSE),
    },
    draw: matrix,
};

fn halves(pair: &[u32; 32]) -> (Words, Words) {
    (
        core::array::from_fn(|i| pair[i]),
        core::array::from_fn(|i| pair[i + 16]),
    )
}

impl<const N: usize> Call<N> {
    fn run(&self, run: &mut Run, host: Host, count: u64) -> Outcome {
        for input in 0..count {
            let kind = KINDS[(input % KINDS.len() as u64) as usize];
            let words = (self.draw)(kind, &mut Random::of_input(run.seed, input));
            let rust = (self.rust)(&words);
            run.count(self.name, rust.status, 1);
            if (self.ours)(host, &words) != rust {
                return Err(self.difference(host, run.seed, input, words));
            }
            run.progress(self.name, input, count);
        }
        Ok(())
    }

    fn difference(&self, host: Host, seed: u64, input: u64, words: [u32; N]) -> Difference {
        let least = shrink(words, |words| {
            (self.ours)(host, words) != (self.rust)(words)
        });
        let (ours, rust) = ((self.ours)(host, &least), (self.rust)(&least));
        let mut text = format!(
            "difference: {}, seed {seed}, input {input}; smallest:\n",
            self.name
        );
        for (label, matrix) in ["first", "second"].iter().zip(least.chunks(16)) {
            text += &report::floats(label, matrix);
        }
        if ours.status != rust.status {
            text += &format!(
                "  status   the Rust {}, ours {}\n",
                rust.status, ours.status
            );
        } else if ours.status != 0 && ours.out != rust.out {
            text += &format!("  ours refuses {} and writes the lent slice\n", ours.status);
        } else {
            for i in (0..16).filter(|&i| ours.out[i] != rust.out[i]) {
                text += &format!(
                    "  entry {i:<3}the Rust {:08x}, ours {:08x}\n",
                    rust.out[i], ours.out[i]
                );
            }
        }
        if !ours.kept {
            text += "  ours writes outside the lent slice\n";
        }
        Difference {
            call: self.name,
            text,
        }
    }
}

/// `count` inputs for each of the three calls.
pub fn matrices(run: &mut Run, host: Host, count: u64) -> Outcome {
    PRODUCT.run(run, host, count)?;
    TRANSPOSED.run(run, host, count)?;
    INVERTED.run(run, host, count)
}
