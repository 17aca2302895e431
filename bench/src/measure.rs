//! Times two loops in turn, so that what else the machine does falls on both alike.

use std::hint::black_box;
use std::time::Instant;

/// Samples of each loop, and the least time of one, in nanoseconds.
const ROUNDS: usize = 101;
const SAMPLE: u64 = 400_000;

#[derive(Clone, Copy)]
pub struct Times {
    pub ours: f64,
    pub theirs: f64,
}

/// The medians, in nanoseconds per call, of loops of `calls` calls each.
pub fn alternating(calls: usize, mut ours: impl FnMut(), mut theirs: impl FnMut()) -> Times {
    let our_turns = turns(&mut ours);
    let their_turns = turns(&mut theirs);
    let mut samples = [Vec::with_capacity(ROUNDS), Vec::with_capacity(ROUNDS)];
    for _ in 0..ROUNDS {
        samples[0].push(time(our_turns, &mut ours) / our_turns as f64);
        samples[1].push(time(their_turns, &mut theirs) / their_turns as f64);
    }
    let [ours, theirs] = samples.map(|s| median(s) / calls as f64);
    Times { ours, theirs }
}

/// The same of two loops of so many turns each.
pub fn loops(
    [our_turns, their_turns]: [u32; 2],
    mut ours: impl FnMut(u32),
    mut theirs: impl FnMut(u32),
) -> Times {
    let runs = alternating(
        1,
        || ours(black_box(our_turns)),
        || theirs(black_box(their_turns)),
    );
    Times {
        ours: runs.ours / f64::from(our_turns),
        theirs: runs.theirs / f64::from(their_turns),
    }
}

/// The median, in nanoseconds, of one run.
pub fn alone(mut run: impl FnMut()) -> f64 {
    let turns = turns(&mut run);
    median(
        (0..ROUNDS)
            .map(|_| time(turns, &mut run) / f64::from(turns))
            .collect(),
    )
}

/// How often a loop has to run for a sample.
fn turns(run: &mut impl FnMut()) -> u32 {
    let mut turns = 1;
    while time(turns, run) < SAMPLE as f64 {
        turns *= 2;
    }
    turns
}

fn time(turns: u32, run: &mut impl FnMut()) -> f64 {
    let start = Instant::now();
    for _ in 0..turns {
        run();
    }
    start.elapsed().as_nanos() as f64
}

fn median(mut samples: Vec<f64>) -> f64 {
    samples.sort_by(f64::total_cmp);
    samples[samples.len() / 2]
}
