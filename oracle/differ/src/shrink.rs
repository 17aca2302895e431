//! Makes a failing input small: entries become 0 or 1, or lose bits, as long as it still fails.

use cases::floats::ONE;

/// The lower, the simpler. Every accepted step lowers it, so shrinking ends.
fn weight(word: u32) -> u32 {
    match word {
        0 => 0,
        ONE => 1,
        _ => 2 + word.count_ones(),
    }
}

pub fn shrink<const N: usize>(mut words: [u32; N], fails: impl Fn(&[u32; N]) -> bool) -> [u32; N] {
    loop {
        let mut smaller = false;
        for i in 0..N {
            let word = words[i];
            let cleared = (0..32).rev().map(|bit| word & !(1 << bit));
            for candidate in [0, ONE].into_iter().chain(cleared) {
                if weight(candidate) >= weight(words[i]) {
                    continue;
                }
                let mut tried = words;
                tried[i] = candidate;
                if fails(&tried) {
                    words = tried;
                    smaller = true;
                    break;
                }
            }
        }
        if !smaller {
            return words;
        }
    }
}
