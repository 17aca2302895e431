//! ff_sqrt against f32::sqrt, and ff_cos against document 01's cosine in Rust.

use std::sync::atomic::{AtomicU64, Ordering};
use std::thread;
use std::time::Duration;

use cases::random::Random;
use cases::{answers, floats};

use crate::host::{COS, Host, SQRT};
use crate::report::{self, Difference, Outcome, Run};
use crate::shrink::shrink;

/// A call from float bits to float bits, beside the Rust's answer.
#[derive(Clone, Copy)]
pub struct Scalar {
    pub call: &'static str,
    pub ours: fn(Host, u32) -> u32,
    pub rust: fn(u32) -> u32,
}

pub const ROOT: Scalar = Scalar {
    call: SQRT,
    ours: Host::sqrt,
    rust: answers::sqrt,
};

pub const COSINE: Scalar = Scalar {
    call: COS,
    ours: Host::cos,
    rust: answers::cos,
};

impl Scalar {
    /// The Rust's answers have our one NaN already, so that equal bits are all that is asked.
    #[inline]
    fn differs(self, host: Host, bits: u32) -> bool {
        (self.ours)(host, bits) != (self.rust)(bits)
    }

    fn difference(self, host: Host, seed: u64, bits: u32) -> Difference {
        let [least] = shrink([bits], |&[bits]| self.differs(host, bits));
        let text = format!(
            "difference: {}, seed {seed}, found at {bits:08x}\n{}{}{}",
            self.call,
            report::floats("input", &[least]),
            report::floats("the Rust", &[(self.rust)(least)]),
            report::floats("ours", &[(self.ours)(host, least)]),
        );
        Difference {
            call: self.call,
            text,
        }
    }

    /// All of `edges`, then random inputs until `count` inputs have been tried.
    fn run(
        self,
        run: &mut Run,
        host: Host,
        count: u64,
        edges: impl Iterator<Item = u32>,
        draw: fn(&mut Random) -> u32,
    ) -> Outcome {
        let mut random = Random::new(run.seed);
        let mut done = 0;
        let mut edges = edges.fuse();
        loop {
            let bits = match edges.next() {
                Some(bits) => bits,
                None if done < count => draw(&mut random),
                None => break,
            };
            if self.differs(host, bits) {
                run.count(self.call, 0, done + 1);
                return Err(self.difference(host, run.seed, bits));
            }
            done += 1;
            run.progress(self.call, done, count.max(done));
        }
        run.count(self.call, 0, done);
        Ok(())
    }
}

pub fn roots(run: &mut Run, host: Host, count: u64) -> Outcome {
    ROOT.run(run, host, count, floats::root_edges(), floats::random_root)
}

pub fn cosines(run: &mut Run, host: Host, count: u64) -> Outcome {
    COSINE.run(
        run,
        host,
        count,
        floats::cosine_edges(),
        floats::random_cosine,
    )
}

/// All 2^32 roots, on two threads. The least failing input is the one that is told.
pub fn all_roots(run: &mut Run, host: Host) -> Outcome {
    const ALL: u64 = 1 << 32;
    const BLOCK: u64 = 1 << 20;
    let next = AtomicU64::new(0);
    let least = AtomicU64::new(ALL);
    thread::scope(|scope| {
        let workers = [(); 2].map(|()| {
            scope.spawn(|| {
                loop {
                    let start = next.fetch_add(BLOCK, Ordering::Relaxed);
                    // Blocks are handed out in order, so no later one can hold a lesser input.
                    if start >= least.load(Ordering::Relaxed) {
                        return;
                    }
                    for bits in start..start + BLOCK {
                        if ROOT.differs(host, bits as u32) {
                            least.fetch_min(bits, Ordering::Relaxed);
                            break;
                        }
                    }
                }
            })
        });
        while workers.iter().any(|worker| !worker.is_finished()) {
            thread::sleep(Duration::from_millis(100));
            run.progress(SQRT, next.load(Ordering::Relaxed).min(ALL), ALL);
        }
    });
    let least = least.into_inner();
    run.count(SQRT, 0, ALL.min(least + 1));
    if least == ALL {
        Ok(())
    } else {
        Err(ROOT.difference(host, run.seed, least as u32))
    }
}

/// Pairs of input and answer that neither side made: both must give them.
pub fn vectors(run: &mut Run, host: Host, scalar: Scalar, pairs: &[(u32, u32)]) -> Outcome {
    for &(bits, answer) in pairs {
        let rust = (scalar.rust)(bits);
        let ours = (scalar.ours)(host, bits);
        run.count(scalar.call, 0, 1);
        if rust != answer || ours != answer {
            let text = format!(
                "difference: {}, a vector\n{}{}{}{}",
                scalar.call,
                report::floats("input", &[bits]),
                report::floats("vector", &[answer]),
                report::floats("the Rust", &[rust]),
                report::floats("ours", &[ours]),
            );
            return Err(Difference {
                call: scalar.call,
                text,
            });
        }
    }
    Ok(())
}
