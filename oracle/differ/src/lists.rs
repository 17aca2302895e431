//! Lists of calls, ours beside document 01's host over the unchanged Rust.

use cases::call::{Call, NAMES};
use cases::{edges, lists, packs, previews};

use crate::host::Host;
use crate::memory::Unlike;
use crate::report::{Difference, Outcome, Run};
use crate::shrink_list::shrink;
use crate::step::Pair;
use crate::tally::{PREVIEWED, Tally};
use crate::workers::first_failing;

/// A run of fewer calls than this tries one in so many of the damaged words and of the packs among the edges only:
/// valgrind is slow.
const WHOLE: u64 = 10_000;
const SPARSE_WORDS: usize = 31;
const SPARSE_PACKS: usize = 7;

/// Runs a list; the answer is the place of the first call that is unlike, and what is unlike there.
/// `shift` moves the slices off alignment.
fn run_list(
    host: Host,
    calls: &[Call],
    shift: usize,
    tally: &mut Tally,
) -> Option<(usize, Unlike)> {
    let mut pair = Pair::fresh(host, shift);
    for (at, call) in calls.iter().enumerate() {
        let (judged, found) = pair.step(call, shift + at);
        tally.count(&judged);
        if let Some(found) = found {
            return Some((at, found));
        }
    }
    assert!(
        pair.reads_as_written(),
        "the model's own image does not read as it was written"
    );
    None
}

fn difference(host: Host, what: &str, calls: Vec<Call>, shift: usize) -> Difference {
    let unlike = |calls: &[Call]| run_list(host, calls, shift, &mut Tally::default());
    let least = shrink(calls, |calls| unlike(calls).map(|(at, _)| at));
    let (_, found) = unlike(&least).expect("a list that fails was kept");
    let call = found.call;
    let mut text = format!(
        "difference: {call}, {what}; smallest list, on a fresh image and a mirror of zeros:\n"
    );
    for call in &least {
        for line in call.to_string().lines() {
            text += &format!("  {line}\n");
        }
    }
    text += &format!("  {}\n", found.what);
    Difference { call, text }
}

/// Numbered lists, of `each` calls or so.
struct Lists<'a, F> {
    what: &'static str,
    /// What is said of a list beside its number.
    of: &'a str,
    count: u64,
    each: u64,
    list: F,
}

impl<F: Fn(u64) -> Vec<Call> + Sync> Lists<'_, F> {
    /// Of the lists that fail the first is told.
    fn run(self, run: &mut Run, host: Host, tally: &mut Tally) -> Outcome {
        let passes = |number: u64, tally: &mut Tally| {
            run_list(host, &(self.list)(number), number as usize, tally).is_none()
        };
        let (failing, tallies) = first_failing(run, self.what, self.count, self.each, passes);
        tallies.iter().for_each(|other| tally.add(other));
        match failing {
            None => Ok(()),
            Some(number) => {
                let what = format!("{}, list {number}", self.of);
                let calls = (self.list)(number);
                Err(difference(host, &what, calls, number as usize))
            }
        }
    }
}

/// Lists that are the same for every seed.
fn edge_lists(run: &mut Run, host: Host, lists: &[Vec<Call>], tally: &mut Tally) -> Outcome {
    let calls: usize = lists.iter().map(Vec::len).sum();
    let count = lists.len() as u64;
    let lists = Lists {
        what: "edges",
        of: "edges",
        count,
        each: calls as u64 / count,
        list: |number: u64| lists[number as usize].clone(),
    };
    lists.run(run, host, tally)
}

/// Lists that are made from the seed, `each` calls long, `count` calls or more.
fn seeded<F>(
    run: &mut Run,
    host: Host,
    what: &'static str,
    (count, each): (u64, usize),
    list: F,
    tally: &mut Tally,
) -> Outcome
where
    F: Fn(u64, u64) -> Vec<Call> + Sync,
{
    let seed = run.seed;
    let each = each as u64;
    let lists = Lists {
        what,
        of: &format!("seed {seed}"),
        count: count.div_ceil(each),
        each,
        list: |number| list(seed, number),
    };
    lists.run(run, host, tally)
}

/// One in how many of the edges is tried.
const fn sparse(count: u64, step: usize) -> usize {
    if count < WHOLE { step } else { 1 }
}

/// The edges, then at least `count` calls in random lists.
pub fn calls(run: &mut Run, host: Host, count: u64) -> Outcome {
    let mut tally = Tally::default();
    let edges = edges::edges(sparse(count, SPARSE_WORDS));
    let outcome = edge_lists(run, host, &edges, &mut tally).and_then(|()| {
        let size = (count, lists::LENGTH);
        seeded(run, host, "calls", size, lists::list, &mut tally)
    });
    tally.tell(run);
    tally.tell_notes(run);
    outcome
        .and_then(|()| tally.unmet(NAMES))
        .and_then(|()| tally.unmet_alone())
}

/// The edges, then at least `count` packing calls on states made from the seed.
pub fn packs(run: &mut Run, host: Host, count: u64) -> Outcome {
    let mut tally = Tally::default();
    let edges = edges::packs(sparse(count, SPARSE_PACKS));
    let outcome = edge_lists(run, host, &edges, &mut tally).and_then(|()| {
        let size = (count, packs::LENGTH);
        seeded(run, host, "packs", size, packs::list, &mut tally)
    });
    tally.tell(run);
    outcome.and_then(|()| tally.unmet(&packs::names()))
}

/// The edges of previews, then at least `count` packs of lights and refreshes for one on states made from the seed.
pub fn previews(run: &mut Run, host: Host, count: u64) -> Outcome {
    let mut tally = Tally::default();
    let outcome = edge_lists(run, host, &edges::previews(), &mut tally).and_then(|()| {
        let size = (count, previews::LENGTH);
        seeded(run, host, "preview", size, previews::list, &mut tally)
    });
    tally.tell(run);
    tally.tell_counted(run);
    outcome.and_then(|()| tally.unmet(&PREVIEWED))
}

/// The row count under every set of flags, mask and count, or under one in `step` counts.
pub fn row_counts(run: &mut Run, host: Host, step: usize) -> Outcome {
    let mut tally = Tally::default();
    let lists = Lists {
        what: "row counts",
        of: "row counts",
        count: packs::ROW_COUNT_LISTS,
        each: packs::ROW_COUNTS / step as u64,
        list: |number| packs::row_counts(number, step),
    };
    let outcome = lists.run(run, host, &mut tally);
    tally.tell(run);
    outcome
}
