//! The first wrong row of a list, explained in words.

use std::fmt::Write as _;

use crate::blame::{Blame, Since};
use crate::compare::WrongRow;
use crate::list::Line;
use crate::sections::SECTIONS;
use crate::track::Writer;
use crate::words::{columns, cut, ranges};

/// A line for a message.
#[must_use]
pub fn short(line: &Line) -> String {
    cut(&line.text)
}

/// What is wrong after `line`: its first wrong row, since when, and why.
pub fn explained(
    text: &mut String,
    lines: &[Line],
    line: &Line,
    wrong: &[WrongRow],
    row: &WrongRow,
    why: &Blame,
) {
    let section = &SECTIONS[row.section];
    let _ = writeln!(
        text,
        "\nWrong after line {}, {}: row {}, which is row {} of {}",
        line.number,
        short(line),
        row.row,
        row.row - section.first,
        section.name
    );
    let _ = writeln!(
        text,
        "            {:>13} {:>13} {:>13} {:>13}",
        "x", "y", "z", "w"
    );
    let _ = writeln!(text, "  expected  {}", columns(&row.expected));
    let _ = writeln!(text, "  found     {}", columns(&row.found));
    for (i, section) in SECTIONS.iter().enumerate() {
        let rows: Vec<usize> = wrong
            .iter()
            .filter(|row| row.section == i)
            .map(|row| row.row)
            .collect();
        if !rows.is_empty() {
            let _ = writeln!(
                text,
                "  all wrong rows of {}: {}",
                section.name,
                ranges(&rows)
            );
        }
    }
    let writer = match why.writer {
        Writer::Nobody => "no line yet".into(),
        Writer::Refresh(line) => format!("line {line}, a refresh"),
        Writer::Overwriting(line) => format!("line {line}, an overwriting"),
    };
    let _ = writeln!(text, "  last written by: {writer}");
    let since = match why.since {
        Since::Start => "the start: no refresh has written it as this state has it".into(),
        Since::Key { line: before, had } => {
            let then = if had {
                "packed something else there"
            } else {
                "did not have this row"
            };
            format!(
                "line {}, its own key: under that of line {before} {} {then}",
                line.number, section.name
            )
        }
        Since::Line(number) => {
            let call = lines
                .iter()
                .find(|line| line.number == number)
                .map(short)
                .unwrap_or_default();
            format!("line {number}, {call}")
        }
    };
    let _ = writeln!(text, "  wrong since: {since}");
    for cause in &why.causes {
        let _ = writeln!(text, "Why: {}.", cause.why);
    }
    if why.causes.is_empty() {
        text.push_str("Why: the list breaks none of demand 3's conditions: a defect of the library or of this tool, please report it with the list.\n");
    }
    let tried = if why.mended {
        "no row is wrong after it"
    } else {
        "rows are wrong after it all the same"
    };
    let _ = writeln!(
        text,
        "Tried: with 'mark all' just before line {}, {tried}.",
        line.number
    );
}
