//! The count of what was tried, the progress line, and what is said of a difference.

use std::fmt::Write;
use std::time::{Duration, Instant};

use cases::model::refusal::STATUSES;

/// What was found unlike, ready to print.
pub struct Difference {
    pub call: &'static str,
    pub text: String,
}

pub type Outcome = Result<(), Difference>;

#[derive(Default)]
struct Tally {
    call: &'static str,
    inputs: u64,
    /// By refusal number; 0 counts the accepted calls.
    statuses: [u64; STATUSES],
}

pub struct Run {
    pub seed: u64,
    tallies: Vec<Tally>,
    notes: Vec<String>,
    said: Instant,
}

/// Inputs between two looks at the clock.
const STRIDE: u64 = 1 << 14;

impl Run {
    pub fn new(seed: u64) -> Self {
        Self {
            seed,
            tallies: Vec::new(),
            notes: Vec::new(),
            said: Instant::now(),
        }
    }

    /// Counts `inputs` calls that were answered with `status`.
    pub fn count(&mut self, call: &'static str, status: u32, inputs: u64) {
        let at = match self.tallies.iter().position(|tally| tally.call == call) {
            Some(at) => at,
            None => {
                self.tallies.push(Tally {
                    call,
                    ..Tally::default()
                });
                self.tallies.len() - 1
            }
        };
        self.tallies[at].inputs += inputs;
        if let Some(count) = self.tallies[at].statuses.get_mut(status as usize) {
            *count += inputs;
        }
    }

    /// A line below the summary's table.
    pub fn note(&mut self, line: String) {
        self.notes.push(line);
    }

    /// A progress line, at most once a second, for a caller who asks at every input.
    pub fn progress(&mut self, call: &str, done: u64, total: u64) {
        if done.is_multiple_of(STRIDE) {
            self.progress_of(call, done, total);
        }
    }

    /// A progress line, at most once a second.
    pub fn progress_of(&mut self, call: &str, done: u64, total: u64) {
        if self.said.elapsed() >= Duration::from_secs(1) {
            eprintln!("oracle: {call} {done} of {total}");
            self.said = Instant::now();
        }
    }

    pub fn inputs(&self) -> u64 {
        self.tallies.iter().map(|tally| tally.inputs).sum()
    }

    /// The table by call and by refusal number.
    pub fn summary(&self) -> String {
        let numbers: Vec<usize> = (1..STATUSES)
            .filter(|&n| self.tallies.iter().any(|tally| tally.statuses[n] != 0))
            .collect();
        let mut text = format!("{:<26}{:>12}{:>12}", "call", "inputs", "accepted");
        for n in &numbers {
            let _ = write!(text, "{:>12}", format!("refused {n}"));
        }
        for tally in &self.tallies {
            let _ = write!(
                text,
                "\n{:<26}{:>12}{:>12}",
                tally.call, tally.inputs, tally.statuses[0]
            );
            for &n in &numbers {
                let _ = write!(text, "{:>12}", tally.statuses[n]);
            }
        }
        for note in &self.notes {
            let _ = write!(text, "\n{note}");
        }
        text
    }
}

/// `label`, the bits and the values of some floats, four a line.
pub fn floats(label: &str, words: &[u32]) -> String {
    let mut text = String::new();
    for (i, four) in words.chunks(4).enumerate() {
        let label = if i == 0 { label } else { "" };
        let bits: Vec<String> = four.iter().map(|word| format!("{word:08x}")).collect();
        let values: Vec<String> = four
            .iter()
            .map(|&word| format!("{:e}", f32::from_bits(word)))
            .collect();
        let _ = writeln!(
            text,
            "  {label:<9}{}   ({})",
            bits.join(" "),
            values.join(", ")
        );
    }
    text
}
