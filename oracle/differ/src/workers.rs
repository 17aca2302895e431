//! Numbered inputs on two threads.

use std::sync::atomic::{AtomicU64, Ordering};
use std::thread;
use std::time::Duration;

use crate::report::Run;

const THREADS: usize = 2;

/// Tries the inputs below `inputs`, each of `each` calls of `what`, until one fails. The answer is the first that
/// does, and what each thread counted.
pub fn first_failing<T: Default + Send>(
    run: &mut Run,
    what: &str,
    inputs: u64,
    each: u64,
    passes: impl Fn(u64, &mut T) -> bool + Sync,
) -> (Option<u64>, [T; THREADS]) {
    let next = AtomicU64::new(0);
    let least = AtomicU64::new(inputs);
    let counted = thread::scope(|scope| {
        let workers = [(); THREADS].map(|()| {
            scope.spawn(|| {
                let mut counted = T::default();
                loop {
                    let number = next.fetch_add(1, Ordering::Relaxed);
                    // Inputs are handed out in order, so no later one can be the first to fail.
                    if number >= least.load(Ordering::Relaxed) {
                        return counted;
                    }
                    if !passes(number, &mut counted) {
                        least.fetch_min(number, Ordering::Relaxed);
                    }
                }
            })
        });
        while workers.iter().any(|worker| !worker.is_finished()) {
            thread::sleep(Duration::from_millis(10));
            let done = next.load(Ordering::Relaxed).min(inputs);
            run.progress_of(what, done * each, inputs * each);
        }
        workers.map(|worker| worker.join().expect("the model agrees with the Rust"))
    });
    let least = least.into_inner();
    ((least < inputs).then_some(least), counted)
}
