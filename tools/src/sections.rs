//! The eight sections: their names, bits, first rows (document 01, 'A refresh'; document 02, T-05), and the full packing of a state.

use ff_state::{
    DIRTY_AMBIENT, DIRTY_FOG, DIRTY_LIGHTS, DIRTY_MATERIAL, DIRTY_PALETTE, DIRTY_PROJ, DIRTY_TT,
    DIRTY_WV, FfImage, Mirror, ROW_AMBIENT, ROW_FOG, ROW_LIGHTS, ROW_MATERIAL, ROW_PALETTE,
    ROW_PROJ, ROW_TT, ROW_WV, Refusal, Row, VsKey,
};

pub struct Section {
    pub name: &'static str,
    pub bit: u32,
    pub first: usize,
}

/// By their first rows. Each ends at the latest where the next begins.
pub const SECTIONS: [Section; 8] = [
    Section {
        name: "WV",
        bit: DIRTY_WV,
        first: ROW_WV,
    },
    Section {
        name: "PROJ",
        bit: DIRTY_PROJ,
        first: ROW_PROJ,
    },
    Section {
        name: "FOG",
        bit: DIRTY_FOG,
        first: ROW_FOG,
    },
    Section {
        name: "AMBIENT",
        bit: DIRTY_AMBIENT,
        first: ROW_AMBIENT,
    },
    Section {
        name: "MATERIAL",
        bit: DIRTY_MATERIAL,
        first: ROW_MATERIAL,
    },
    Section {
        name: "LIGHTS",
        bit: DIRTY_LIGHTS,
        first: ROW_LIGHTS,
    },
    Section {
        name: "TT",
        bit: DIRTY_TT,
        first: ROW_TT,
    },
    Section {
        name: "PALETTE",
        bit: DIRTY_PALETTE,
        first: ROW_PALETTE,
    },
];

/// One value a section, in the order of [`SECTIONS`].
pub type Each<T> = [T; SECTIONS.len()];

/// The rows of each section.
pub type Packing = Each<Vec<Row>>;

/// The most rows that a section has.
#[must_use]
pub fn most_rows(section: usize) -> usize {
    let end = SECTIONS
        .get(section + 1)
        .map_or(Mirror::ROWS, |next| next.first);
    end - SECTIONS[section].first
}

/// The rows of one section of a state under a key, by the library's own fill; those of LIGHTS are refused 5 where the key's mask is.
pub fn filled(section: usize, image: &FfImage, key: &VsKey) -> Result<Vec<Row>, Refusal> {
    Ok(match SECTIONS[section].bit {
        DIRTY_WV => image.fill_wv_section(key),
        DIRTY_PROJ => image.fill_proj_section(key),
        DIRTY_FOG => image.fill_fog_section(key),
        DIRTY_AMBIENT => image.fill_ambient_section(key),
        DIRTY_MATERIAL => image.fill_material_section(key),
        DIRTY_LIGHTS => image.fill_lights_section(key)?,
        DIRTY_TT => image.fill_tt_section(key),
        _ => image.fill_palette_section(key),
    })
}

/// The full packing.
pub fn packed(image: &FfImage, key: &VsKey) -> Result<Packing, Refusal> {
    let mut packing = Packing::default();
    for (section, rows) in packing.iter_mut().enumerate() {
        *rows = filled(section, image, key)?;
    }
    Ok(packing)
}

/// The names of the sections that bits stand for.
#[must_use]
pub fn names(bits: u32) -> String {
    let named: Vec<&str> = SECTIONS
        .iter()
        .filter(|s| bits & s.bit != 0)
        .map(|s| s.name)
        .collect();
    match named.len() {
        0 => "none".into(),
        8 => "all eight".into(),
        _ => named.join(" "),
    }
}

/// The section of a name.
#[must_use]
pub fn named(name: &str) -> Option<&'static Section> {
    SECTIONS.iter().find(|section| section.name == name)
}

#[cfg(test)]
mod tests {
    use super::*;

    /// INTERFACE.md's table: bits, first rows, most rows.
    #[test]
    fn the_table_is_the_papers() {
        let table: Vec<(&str, u32, usize, usize)> = SECTIONS
            .iter()
            .enumerate()
            .map(|(i, s)| (s.name, s.bit, s.first, most_rows(i)))
            .collect();
        assert_eq!(
            table,
            [
                ("WV", 1, 0, 4),
                ("PROJ", 2, 4, 4),
                ("FOG", 64, 8, 1),
                ("AMBIENT", 128, 9, 1),
                ("MATERIAL", 4, 10, 5),
                ("LIGHTS", 8, 15, 48),
                ("TT", 32, 63, 32),
                ("PALETTE", 16, 95, 1020),
            ]
        );
        assert_eq!(
            (names(0), names(255), names(5)),
            ("none".into(), "all eight".into(), "WV MATERIAL".into())
        );
    }
}
