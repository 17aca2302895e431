//! A mirror as a picture: a character a row in the terminal, a square a row in SVG.

use std::fmt::Write as _;

use ff_state::Mirror;

use crate::compare::WrongRow;
use crate::sections::{Packing, SECTIONS, most_rows};

/// What a row of the mirror is.
#[derive(Clone, Copy, Debug, PartialEq, Eq)]
pub enum Kind {
    Right,
    /// Wrong, and its section is clean: no refresh will mend it.
    Stale,
    /// Wrong, and its section is dirty: the next refresh mends it.
    Dirty,
    /// Of no section under this key.
    Outside,
}

impl Kind {
    const ALL: [Self; 4] = [Self::Right, Self::Stale, Self::Dirty, Self::Outside];

    const fn sign(self) -> char {
        match self {
            Self::Right => '.',
            Self::Stale => '#',
            Self::Dirty => 'd',
            Self::Outside => '-',
        }
    }

    const fn colour(self) -> &'static str {
        match self {
            Self::Right => "#2a9d5c",
            Self::Stale => "#c1121f",
            Self::Dirty => "#f4a226",
            Self::Outside => "#dddddd",
        }
    }

    const fn words(self) -> &'static str {
        match self {
            Self::Right => "right",
            Self::Stale => "stale",
            Self::Dirty => "wrong and dirty",
            Self::Outside => "outside the section under this key",
        }
    }
}

/// How many rows stand side by side.
const WIDE: usize = 64;

/// The kind of each row of the mirror.
#[must_use]
pub fn kinds(packing: &Packing, wrong: &[WrongRow], dirty: u32) -> Vec<Kind> {
    let mut kinds = vec![Kind::Outside; Mirror::ROWS];
    for (section, rows) in SECTIONS.iter().zip(packing) {
        kinds[section.first..section.first + rows.len()].fill(Kind::Right);
    }
    for row in wrong {
        kinds[row.row] = kind(row, dirty);
    }
    kinds
}

/// The kind of a wrong row.
#[must_use]
pub fn kind(row: &WrongRow, dirty: u32) -> Kind {
    if dirty & SECTIONS[row.section].bit == 0 {
        Kind::Stale
    } else {
        Kind::Dirty
    }
}

/// The lines of the picture: a section's name, the number of the line's first row, its rows. What lies outside at a section's end
/// is left out from the second line on.
fn lines(kinds: &[Kind]) -> Vec<(&'static str, usize, &[Kind])> {
    let mut lines = Vec::new();
    for (place, section) in SECTIONS.iter().enumerate() {
        let rows = &kinds[section.first..section.first + most_rows(place)];
        for (i, line) in rows.chunks(WIDE).enumerate() {
            if i == 0 || line.iter().any(|&kind| kind != Kind::Outside) {
                let name = if i == 0 { section.name } else { "" };
                lines.push((name, section.first + WIDE * i, line));
            }
        }
    }
    lines
}

/// The picture for a terminal.
#[must_use]
pub fn drawn(kinds: &[Kind]) -> String {
    let mut text = String::from("  section    row  one sign a row, 64 a line\n");
    for (name, first, line) in lines(kinds) {
        let signs: String = line.iter().map(|kind| kind.sign()).collect();
        let _ = writeln!(text, "  {name:<8} {first:>5}  {signs}");
    }
    let legend = Kind::ALL.map(|kind| format!("{} {}", kind.sign(), kind.words()));
    let _ = writeln!(text, "  {}", legend.join("   "));
    text
}

const CELL: usize = 10;
const LEFT: usize = 120;
const TOP: usize = 50;

/// The picture as SVG.
#[must_use]
pub fn svg(kinds: &[Kind], title: &str) -> String {
    let lines = lines(kinds);
    let (width, height) = (LEFT + CELL * WIDE + 20, TOP + (CELL + 6) * lines.len() + 30);
    let mut text = format!(
        "<svg xmlns=\"http://www.w3.org/2000/svg\" width=\"{width}\" height=\"{height}\" font-family=\"monospace\" font-size=\"12\">\n\
         <rect width=\"{width}\" height=\"{height}\" fill=\"#ffffff\"/>\n\
         <text x=\"10\" y=\"20\">{}</text>\n",
        escaped(title)
    );
    for (i, kind) in Kind::ALL.iter().enumerate() {
        let x = 10 + 150 * i;
        let _ = writeln!(
            text,
            "<rect x=\"{x}\" y=\"28\" width=\"{CELL}\" height=\"{CELL}\" fill=\"{}\"/><text x=\"{}\" y=\"38\">{}</text>",
            kind.colour(),
            x + CELL + 5,
            kind.words()
        );
    }
    for (i, (name, first, line)) in lines.iter().enumerate() {
        let y = TOP + (CELL + 6) * i;
        let base = y + CELL;
        let _ = writeln!(
            text,
            "<text x=\"10\" y=\"{base}\">{name}</text><text x=\"{}\" y=\"{base}\" text-anchor=\"end\">{first}</text>",
            LEFT - 8
        );
        let mut place = 0;
        for run in line.chunk_by(|a, b| a == b) {
            let (kind, from) = (run[0], first + place);
            let _ = writeln!(
                text,
                "<rect x=\"{}\" y=\"{y}\" width=\"{}\" height=\"{CELL}\" fill=\"{}\"><title>rows {from} to {}: {}</title></rect>",
                LEFT + CELL * place,
                CELL * run.len(),
                kind.colour(),
                from + run.len() - 1,
                kind.words()
            );
            place += run.len();
        }
    }
    text.push_str("</svg>\n");
    text
}

fn escaped(words: &str) -> String {
    let plain = crate::words::cut(words);
    plain
        .replace('&', "&amp;")
        .replace('<', "&lt;")
        .replace('>', "&gt;")
}

#[cfg(test)]
mod tests {
    use super::*;
    use crate::compare::wrong_rows;
    use crate::sections::packed;
    use ff_state::{FfImage, VsKey};

    /// Over a mirror of zeros WV and PROJ (identities) and 20 palette matrices are wrong; WV is dirty.
    fn picture() -> Vec<Kind> {
        let key = VsKey {
            vertex_blend_count: 20,
            ..VsKey::default()
        };
        let packing = packed(&FfImage::fresh(), &key).unwrap();
        kinds(&packing, &wrong_rows(&packing, &Mirror::new()), 1)
    }

    #[test]
    fn a_sign_a_row() {
        let drawn = drawn(&picture());
        let lines: Vec<&str> = drawn.lines().collect();
        assert_eq!(lines[1], "  WV           0  dddd");
        assert_eq!(lines[2], "  PROJ         4  ####");
        assert_eq!(lines[5], "  MATERIAL    10  .----");
        assert_eq!(lines[8], format!("  PALETTE     95  {}", "#".repeat(64)));
        assert_eq!(
            lines[9],
            format!("             159  {}{}", "#".repeat(16), "-".repeat(48))
        );
        assert_eq!(lines.len(), 11);
    }

    #[test]
    fn a_drawing_is_closed_and_escaped() {
        let svg = svg(&picture(), "a<b>&c");
        assert!(svg.starts_with("<svg ") && svg.ends_with("</svg>\n"));
        assert!(svg.contains(">a&lt;b&gt;&amp;c</text>"));
        assert!(svg.contains("<title>rows 4 to 7: stale</title>"));
        assert!(svg.contains("<title>rows 159 to 174: stale</title>"));
        assert_eq!(
            svg.matches("<rect ").count(),
            svg.matches("/>").count() + svg.matches("</rect>").count()
        );
    }
}
