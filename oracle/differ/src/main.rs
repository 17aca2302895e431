//! The differential driver: our library beside the unchanged Rust, on inputs made from a seed.
//! `oracle/run help` lists the commands.

mod bend;
mod bend_calls;
mod bends;
mod bent;
mod bytes;
mod directions;
mod guarded;
mod handed;
mod host;
mod lengths;
mod lists;
mod matrices;
mod memory;
#[path = "../../../bindings/rust/src/raw.rs"]
mod raw;
mod report;
mod scalars;
mod self_test;
mod shrink;
mod shrink_list;
mod step;
mod tally;
mod vectors;
mod workers;

use std::hint::black_box;
use std::process::ExitCode;

use cases::packs;
use host::Host;
use report::{Outcome, Run};

const DIFFERENT: u8 = 1;
const UNUSABLE: u8 = 2;
/// The seed where none is given.
const FIRST_SEED: u64 = 1;
/// The short run tries one row count of so many.
const SPARSE: usize = 51;

struct Arguments {
    command: String,
    seed: u64,
    count: Option<u64>,
    host: Host,
}

fn arguments() -> Result<Arguments, String> {
    let mut given = std::env::args().skip(1);
    let mut arguments = Arguments {
        command: given.next().ok_or("no command")?,
        seed: FIRST_SEED,
        count: None,
        host: Host { bend: None },
    };
    while let Some(flag) = given.next() {
        let value = given.next().ok_or(format!("{flag} lacks its value"))?;
        let number = || {
            value
                .parse()
                .map_err(|_| format!("{flag} {value}: not a number"))
        };
        match flag.as_str() {
            "--seed" => arguments.seed = number()?,
            "--count" => arguments.count = Some(number()?),
            "--bend" => {
                let bend = bends::named(&value).ok_or(format!("no bend {value}"))?;
                arguments.host = Host { bend: Some(bend) };
            }
            _ => return Err(format!("no flag {flag}")),
        }
    }
    Ok(arguments)
}

/// Document 01's sums start at -0.0, and so must the iterator sums of the compiler that built the
/// Rust: `FfState::mat_mul` leans on them.
fn sums_start_at_negative_zero() -> bool {
    let zeros = black_box([-0.0f32; 4]);
    zeros.iter().sum::<f32>().to_bits() == (-0.0f32).to_bits()
}

/// Calls of the short run's lists, with each of its two seeds.
const SHORT_CALLS: u64 = 300_000;
const SHORT_PACKS: u64 = 150_000;
const SHORT_PREVIEWS: u64 = 50_000;
/// Its directions of each kind.
const SHORT_DIRECTIONS: u64 = 500_000;

/// A mix of everything, small enough for the merge gate: with seed 1, then the lists with another.
fn short(run: &mut Run, host: Host, seed: u64) -> Result<Outcome, String> {
    run.seed = FIRST_SEED;
    let vectors = [vectors::roots(run, host)?, vectors::cosines(run, host)?];
    Ok(vectors
        .into_iter()
        .collect::<Outcome>()
        .and_then(|()| scalars::roots(run, host, 6_000_000))
        .and_then(|()| scalars::cosines(run, host, 2_000_000))
        .and_then(|()| matrices::matrices(run, host, 400_000))
        .and_then(|()| lengths::lengths(run, host))
        .and_then(|()| memory::lengths(run, host))
        .and_then(|()| lists::row_counts(run, host, SPARSE))
        .and_then(|()| directions::directions(run, host, SHORT_DIRECTIONS))
        .and_then(|()| short_lists(run, host))
        .and_then(|()| {
            run.seed = seed;
            short_lists(run, host)
        }))
}

fn short_lists(run: &mut Run, host: Host) -> Outcome {
    lists::calls(run, host, SHORT_CALLS)
        .and_then(|()| lists::packs(run, host, SHORT_PACKS))
        .and_then(|()| lists::previews(run, host, SHORT_PREVIEWS))
}

fn compare(run: &mut Run, arguments: &Arguments) -> Result<Outcome, String> {
    let host = arguments.host;
    let count = |default| arguments.count.unwrap_or(default);
    Ok(match arguments.command.as_str() {
        "short" => short(run, host, arguments.seed)?,
        "sqrt" => scalars::roots(run, host, count(50_000_000)),
        "sqrt-all" => scalars::all_roots(run, host),
        "cos" => scalars::cosines(run, host, count(20_000_000)),
        "matrix" => matrices::matrices(run, host, count(5_000_000)),
        "lengths" => lengths::lengths(run, host).and_then(|()| memory::lengths(run, host)),
        "calls" => lists::calls(run, host, count(20_000_000)),
        "packs" => lists::packs(run, host, count(20_000_000)),
        "preview" => lists::previews(run, host, count(5_000_000)),
        "directions" => directions::directions(run, host, count(10_000_000)),
        "row-count" => {
            let some = arguments
                .count
                .is_some_and(|count| count < packs::ROW_COUNT_LISTS * packs::ROW_COUNTS);
            lists::row_counts(run, host, if some { SPARSE } else { 1 })
        }
        "root-vectors" => vectors::roots(run, host)?,
        "cos-vectors" => {
            let outcome = vectors::cosines(run, host)?;
            if run.inputs() == 0 {
                return Err("no vectors were compared".to_string());
            }
            outcome
        }
        other => return Err(format!("no command {other}; see oracle/run help")),
    })
}

fn run() -> Result<ExitCode, String> {
    if raw::ff_state_version() != raw::VERSION {
        return Err("the archives are of another version than the Rust crate".to_string());
    }
    let arguments = arguments()?;
    if !sums_start_at_negative_zero() {
        return Err(format!(
            "float sums of {} do not start at -0.0; use the rustc that README.md names",
            env!("RUSTC_VERSION")
        ));
    }
    if arguments.command == "self-test" {
        let bends = self_test::self_test()?;
        println!("oracle: {bends} bends, all caught");
        return Ok(ExitCode::SUCCESS);
    }
    let mut run = Run::new(arguments.seed);
    let outcome = compare(&mut run, &arguments)?;
    let seeds = match arguments.command.as_str() {
        "short" => format!(
            "seed {FIRST_SEED}; the lists once more with --seed {}",
            arguments.seed
        ),
        _ => format!("seed {}", arguments.seed),
    };
    println!("{}; {seeds}", env!("RUSTC_VERSION"));
    println!("{}", run.summary());
    match outcome {
        Ok(()) => {
            println!("oracle: {} inputs, 0 differences", run.inputs());
            Ok(ExitCode::SUCCESS)
        }
        Err(difference) => {
            print!("{}", difference.text);
            println!(
                "oracle: {} inputs, a difference in {}",
                run.inputs(),
                difference.call
            );
            Ok(ExitCode::from(DIFFERENT))
        }
    }
}

fn main() -> ExitCode {
    run().unwrap_or_else(|message| {
        eprintln!("oracle: {message}");
        ExitCode::from(UNUSABLE)
    })
}
