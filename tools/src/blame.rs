//! Why a row is wrong: the call after which it went wrong, and what demand 3's conditions say of the list.

use ff_state::VsKey;

use crate::compare::{WrongRow, differ};
use crate::key::with_mask_of;
use crate::list::{Call, Line};
use crate::replay::{Event, World};
use crate::sections::{SECTIONS, filled, names};
use crate::track::{Broken, EVERY, Track, Writer};

/// Since when a row is wrong.
#[derive(Debug, PartialEq, Eq)]
pub enum Since {
    /// No refresh has written what it should hold.
    Start,
    /// The line that changed what it is packed from, or wrote it.
    Line(usize),
    /// The refresh's own key: under that of the last accepted refresh, at `line`, the section had no such row, or it held something
    /// else.
    Key { line: usize, had: bool },
}

#[derive(Debug)]
pub struct Blame {
    pub since: Since,
    /// The conditions that are broken for the row's section, in words, and what to do about each.
    pub causes: Vec<Cause>,
    /// Who had written the row last.
    pub writer: Writer,
    /// With a marking of every section just before the refresh no row is wrong.
    pub mended: bool,
}

#[derive(Debug)]
pub struct Cause {
    pub why: String,
    pub advice: String,
}

/// The words for a line that a condition goes back to: 0 is an image that the list began with.
fn at(line: usize) -> String {
    if line == 0 {
        "the start".into()
    } else {
        format!("line {line}")
    }
}

/// Runs the lines again from `before`, the world right after the last accepted refresh, up to the refresh that left the row wrong.
pub fn blame(
    before: &World,
    lines: &[Line],
    refresh: &Line,
    key: &VsKey,
    row: &WrongRow,
) -> Result<Blame, String> {
    let mut world = before.clone();
    let under_key = match &before.track.last {
        None => Since::Start,
        Some(last) => Since::Key {
            line: last.line,
            had: row.row - SECTIONS[row.section].first < last.rows[row.section],
        },
    };
    let mut since = wrong_in(&world, key, row)?.then_some(under_key);
    for line in lines {
        world.step(line)?;
        since = match (wrong_in(&world, key, row)?, since) {
            (false, _) => None,
            (true, None) => Some(Since::Line(line.number)),
            (true, since) => since,
        };
    }
    let causes = causes(&world.track, refresh.number, key, row);
    let writer = world.track.writers[row.row];
    let mark = Line {
        number: refresh.number,
        text: "mark all".into(),
        call: Call::Mark(EVERY),
    };
    world.step(&mark)?;
    let mended =
        matches!(world.step(refresh)?, Event::Refreshed(refreshed) if refreshed.wrong.is_empty());
    // It is wrong after the refresh, which wrote nothing here, so it was wrong before.
    let since = since.unwrap_or(Since::Line(refresh.number));
    Ok(Blame {
        since,
        causes,
        writer,
        mended,
    })
}

/// Whether the row differs from its section's packing of the book, under the key with the mask that the book's lights have. A row
/// that the section does not have is not wrong.
fn wrong_in(world: &World, key: &VsKey, row: &WrongRow) -> Result<bool, String> {
    let told = |refusal| format!("the book's own values are {refusal}");
    let book = world.book.image().map_err(told)?;
    let key = if key.light_active_mask == 0 {
        *key
    } else {
        with_mask_of(&book, key)
    };
    let rows = filled(row.section, &book, &key).map_err(told)?;
    let found = world.mirror.rows()[row.row];
    let expected = rows.get(row.row - SECTIONS[row.section].first);
    Ok(expected.is_some_and(|expected| differ(expected, &found)))
}

/// Which conditions are broken for the row's section right before the refresh.
fn causes(track: &Track, refresh: usize, key: &VsKey, row: &WrongRow) -> Vec<Cause> {
    let (i, name) = (row.section, SECTIONS[row.section].name);
    let bit = SECTIONS[i].bit;
    let mut causes = Vec::new();
    if let (Some(line), Writer::Overwriting(_)) = (track.hit[i], track.writers[row.row]) {
        causes.push(Cause {
            why: format!("line {line} overwrote rows of {name}, which was not marked since: demand 3 lets {name} off until it is"),
            advice: format!("mark {name} after line {line}"),
        });
    }
    if let Some(line) = track.taken[i] {
        causes.push(Cause {
            why: format!("line {line} took the mark of {name} away, and no refresh wrote its rows: refreshes are the only takes"),
            advice: format!("do not take at line {line}, or mark {name} again after it"),
        });
    }
    for broken in track.broken(key) {
        match broken {
            Broken::Image { read, unmarked } if unmarked & bit != 0 => causes.push(Cause {
                why: format!("an image was read in at {}, and {name} was not marked since", at(read)),
                advice: format!("mark every section between {} and line {refresh}", at(read)),
            }),
            Broken::Shape { since, changes, unmarked } if unmarked & bit != 0 => causes.push(Cause {
                why: format!(
                    "the key's shape changed between line {since} and line {refresh} ({}), and {name} was not marked in between",
                    changes.join(", ")
                ),
                advice: format!("mark every section between line {since} and line {refresh}"),
            }),
            _ => {}
        }
    }
    causes
}

/// A broken condition in words.
#[must_use]
pub fn told(broken: &Broken) -> String {
    match broken {
        Broken::Shape {
            since,
            changes,
            unmarked,
        } => format!(
            "the key's shape changed since line {since} ({}); not marked in between: {}",
            changes.join(", "),
            names(*unmarked)
        ),
        Broken::Image { read, unmarked } => {
            format!(
                "an image was read in at {}; not marked since: {}",
                at(*read),
                names(*unmarked)
            )
        }
        Broken::Take { bits } => format!(
            "refreshes are the only takes; this one took the marks of: {}",
            names(*bits)
        ),
    }
}
