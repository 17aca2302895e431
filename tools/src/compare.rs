//! A mirror beside a full packing. Document 01: "Two rows differ if some float of one is not alike to its fellow."

use ff_state::{Mirror, Row};

use crate::sections::{Each, Packing, SECTIONS};

/// A row of the mirror that differs from its section's packing.
#[derive(Clone, Copy, Debug)]
pub struct WrongRow {
    pub section: usize,
    pub row: usize,
    pub expected: Row,
    pub found: Row,
}

/// "Two floats are alike if their bits are equal or both are NaN."
#[must_use]
pub fn alike(x: f32, y: f32) -> bool {
    x.to_bits() == y.to_bits() || (x.is_nan() && y.is_nan())
}

#[must_use]
pub fn differ(a: &Row, b: &Row) -> bool {
    a.iter().zip(b).any(|(&x, &y)| !alike(x, y))
}

/// The wrong rows of every section, by their numbers.
#[must_use]
pub fn wrong_rows(packing: &Packing, mirror: &Mirror) -> Vec<WrongRow> {
    let rows = mirror.rows();
    let mut wrong = Vec::new();
    for (section, expected) in packing.iter().enumerate() {
        let first = SECTIONS[section].first;
        for ((row, &expected), &found) in (first..).zip(expected).zip(&rows[first..]) {
            if differ(&expected, &found) {
                wrong.push(WrongRow {
                    section,
                    row,
                    expected,
                    found,
                });
            }
        }
    }
    wrong
}

/// How many of the wrong rows each section has.
#[must_use]
pub fn counts(wrong: &[WrongRow]) -> Each<usize> {
    std::array::from_fn(|section| wrong.iter().filter(|row| row.section == section).count())
}

#[cfg(test)]
mod tests {
    use super::*;
    use crate::sections::packed;
    use ff_state::{FfImage, VsKey};

    #[test]
    fn signs_of_zero_tell_and_patterns_of_a_nan_do_not() {
        assert!(alike(f32::NAN, f32::from_bits(0xFFC0_0001)));
        assert!(!alike(0.0, -0.0) && !alike(f32::NAN, 0.0) && alike(1.5, 1.5));
        assert!(differ(&[0.0, 0.0, 0.0, 1.0], &[0.0; 4]) && !differ(&[2.0; 4], &[2.0; 4]));
    }

    /// Document 01's fresh matrices: WV and PROJ are identities, and lit MATERIAL has four rows of zeros.
    #[test]
    fn rows_outside_a_section_are_not_looked_at() {
        let key = VsKey {
            lighting_enabled: true,
            ..VsKey::default()
        };
        let packing = packed(&FfImage::fresh(), &key).unwrap();
        let wrong = wrong_rows(&packing, &Mirror::new());
        let rows: Vec<usize> = wrong.iter().map(|row| row.row).collect();
        assert_eq!(rows, [0, 1, 2, 3, 4, 5, 6, 7]);
        assert_eq!(counts(&wrong), [4, 4, 0, 0, 0, 0, 0, 0]);
        assert_eq!(
            (wrong[1].expected, wrong[1].found),
            ([0.0, 1.0, 0.0, 0.0], [0.0; 4])
        );
    }
}
