//! Writes a sample of the Rust's answers as two files that a program can replay: one operation a
//! line in `stdin`, its answer at the same line of `stdout`: of the arithmetic, then of calls on a state
//! image. Our library takes no part.

mod calls;
mod draws;
mod running;
mod smoke;

use std::fmt::Write;
use std::path::Path;
use std::process::ExitCode;

use cases::answers::{self, Words};
use cases::floats::{self, HALF_TURN, QUARTER_TURN, SIGN, SPECIAL, TURN, neighbours};
use cases::matrices::{KINDS, factors, matrix};
use cases::random::Random;

/// The sample is the same for everyone.
const SEED: u64 = 9;
const PRODUCTS: u64 = 600;
const TRANSPOSES: u64 = 208;
const INVERSES: u64 = 720;
/// Document 01's refusal of a matrix that has no inverse.
const NO_INVERSE: u32 = 6;

#[derive(Default)]
struct Sample {
    questions: String,
    answers: String,
}

impl Sample {
    fn add(&mut self, operation: char, arguments: &[u32], answer: Result<&[u32], u32>) {
        self.questions.push(operation);
        for word in arguments {
            let _ = write!(self.questions, " {word:08x}");
        }
        self.questions.push('\n');
        match answer {
            Ok(words) => {
                let words: Vec<String> = words.iter().map(|word| format!("{word:08x}")).collect();
                self.answers += &words.join(" ");
            }
            Err(refusal) => {
                let _ = write!(self.answers, "refused {refusal}");
            }
        }
        self.answers.push('\n');
    }

    fn root(&mut self, bits: u32) {
        self.add('s', &[bits], Ok(&[answers::sqrt(bits)]));
    }

    fn cosine(&mut self, bits: u32) {
        self.add('c', &[bits], Ok(&[answers::cos(bits)]));
    }

    fn product(&mut self, a: &Words, b: &Words) {
        self.add('m', &[*a, *b].concat(), Ok(&answers::mat_mul(a, b)));
    }

    fn transpose(&mut self, m: &Words) {
        self.add('t', m, Ok(&answers::transpose(m)));
    }

    fn inverse(&mut self, m: &Words) {
        let answer = answers::inverse(m);
        let answer = answer.as_ref().map(|words| words.as_slice());
        self.add('i', m, answer.ok_or(NO_INVERSE));
    }
}

/// Every exponent and sign with one significand: an edge, a single bit or any.
fn every_exponent(random: &mut Random) -> Vec<u32> {
    (0..=511)
        .map(|top| {
            let edge = random.pick(&[0, 1, 2, 0x0040_0000, 0x007F_FFFE, 0x007F_FFFF]);
            let significand = match random.below(3) {
                0 => edge,
                1 => 1 << random.below(23),
                _ => random.word() & 0x007F_FFFF,
            };
            (top << 23) | significand
        })
        .collect()
}

fn roots(sample: &mut Sample) {
    let mut random = Random::new(SEED);
    let squares = (1..4096u32)
        .step_by(42)
        .filter_map(|n| floats::exact(n * n, even_scale(n)))
        .flat_map(|bits| neighbours(bits, 1));
    let powers = (0..23).map(|bit| 1 << bit);
    let inputs: Vec<u32> = SPECIAL.into_iter().chain(powers).chain(squares).collect();
    for bits in inputs.into_iter().chain(every_exponent(&mut random)) {
        sample.root(bits);
    }
    for _ in 0..350 {
        let bits = floats::random_root(&mut random);
        // Half of any bits are negative, whose root is NaN: a few of those are enough.
        sample.root(if random.chance(8) { bits } else { bits & !SIGN });
    }
}

/// An even scale for the square of n, from the subnormals to the largest floats.
const fn even_scale(n: u32) -> i32 {
    (n as i32 * 37 % 120 - 74) * 2
}

fn cosines(sample: &mut Sample) {
    let mut random = Random::new(SEED);
    let turn = f64::from(f32::from_bits(TURN));
    let eighths = (1..=40).flat_map(|k| {
        let angle = (f64::from(k) * turn / 8.0) as f32;
        neighbours(angle.to_bits(), 1)
    });
    let constants = [TURN, HALF_TURN, QUARTER_TURN]
        .into_iter()
        .flat_map(|bits| neighbours(bits, 4))
        .flat_map(|bits| [bits, bits ^ SIGN]);
    let inputs: Vec<u32> = SPECIAL
        .into_iter()
        .chain(eighths)
        .chain(constants)
        .collect();
    for bits in inputs.into_iter().chain(every_exponent(&mut random)) {
        sample.cosine(bits);
    }
    for _ in 0..450 {
        sample.cosine(floats::random_cosine(&mut random));
    }
}

/// Each special float at some place of some matrix that is else the identity.
fn with_special(at: usize) -> Words {
    let mut m: Words = core::array::from_fn(|i| if i % 5 == 0 { floats::ONE } else { 0 });
    m[(at * 7) % 16] = SPECIAL[at];
    m
}

fn products(sample: &mut Sample) {
    for (at, &special) in SPECIAL.iter().enumerate() {
        let mut other = with_special((at + 11) % SPECIAL.len());
        other[at % 16] = special;
        sample.product(&with_special(at), &other);
    }
    for input in 0..PRODUCTS - SPECIAL.len() as u64 {
        let mut random = Random::of_input(SEED, input);
        let (a, b) = factors(KINDS[(input % 16) as usize], &mut random);
        sample.product(&a, &b);
    }
}

fn transposes(sample: &mut Sample) {
    for at in 0..SPECIAL.len() {
        sample.transpose(&with_special(at));
    }
    for input in 0..TRANSPOSES - SPECIAL.len() as u64 {
        let mut random = Random::of_input(SEED, input);
        sample.transpose(&matrix(KINDS[(input % 16) as usize], &mut random));
    }
}

fn inverses(sample: &mut Sample) {
    for at in 0..SPECIAL.len() {
        sample.inverse(&with_special(at));
    }
    for input in 0..INVERSES - SPECIAL.len() as u64 {
        let mut random = Random::of_input(SEED, input);
        sample.inverse(&matrix(KINDS[(input % 16) as usize], &mut random));
    }
}

/// The arithmetic, then the calls on an image, each of which must meet each of its refusals.
fn sample() -> Result<Sample, String> {
    let mut sample = Sample::default();
    roots(&mut sample);
    cosines(&mut sample);
    products(&mut sample);
    transposes(&mut sample);
    inverses(&mut sample);
    calls::calls(&mut sample);
    let missing = running::unmet(&sample);
    if missing.is_empty() {
        Ok(sample)
    } else {
        Err(format!("the sample lacks answers:{missing}"))
    }
}

fn write(sample: &Sample, folder: &Path) -> Result<(), String> {
    std::fs::create_dir_all(folder)
        .and_then(|()| std::fs::write(folder.join("stdin"), &sample.questions))
        .and_then(|()| std::fs::write(folder.join("stdout"), &sample.answers))
        .map_err(|error| format!("{}: {error}", folder.display()))
}

fn run() -> Result<usize, String> {
    let arguments: Vec<String> = std::env::args().skip(1).collect();
    let [_, folder] = &arguments[..] else {
        return Err("list needs a folder".to_string());
    };
    let sample = sample()?;
    write(&sample, Path::new(folder))?;
    Ok(sample.questions.lines().count())
}

fn main() -> ExitCode {
    match run() {
        Ok(lines) => {
            println!("oracle: {lines} lines written");
            ExitCode::SUCCESS
        }
        Err(message) => {
            eprintln!("oracle: {message}");
            ExitCode::from(2)
        }
    }
}
