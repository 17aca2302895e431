//! The host's calls on a state image (docs/INTERFACE.md), and one of them as data.

use std::fmt;

use crate::damage::{Damage, Patch, tell};
use crate::key::Key;
use crate::section::{MIRROR, ROW, Section};

pub const MATRIX: usize = 64;
pub const MATERIAL: usize = 68;
pub const LIGHT: usize = 104;

/// What an accepted call gives beside the image.
#[derive(Clone, Copy, PartialEq, Eq)]
pub enum Gives {
    Nothing,
    Number,
    /// An item of so many bytes, in a lent slice.
    Item(usize),
    /// The rows of the draw that the key tells: their number.
    RowCount,
    /// The rows of a section under the key: their number.
    Rows(Section),
    /// The rows of a section under the key, in a lent slice.
    Fill(Section),
    /// The bits taken, and their sections' rows under the key, in a lent mirror.
    Mirror,
}

/// A call's form.
pub struct Form {
    pub c_name: &'static str,
    /// The refusals that it can meet.
    pub refusals: &'static [u32],
    /// The bytes of the item that it takes.
    pub takes: Option<usize>,
    pub gives: Gives,
    /// Whether it lends the image to be written.
    pub writes: bool,
}

macro_rules! calls {
    ($($name:ident, $c_name:literal, $refusals:expr, $takes:expr, $gives:expr, $writes:literal;)*) => {
        #[derive(Clone, Copy, Debug, PartialEq, Eq)]
        pub enum Name {
            $($name,)*
        }

        pub const NAMES: &[Name] = &[$(Name::$name,)*];

        impl Name {
            #[must_use]
            pub const fn form(self) -> Form {
                match self {
                    $(Self::$name => Form {
                        c_name: $c_name,
                        refusals: &$refusals,
                        takes: $takes,
                        gives: $gives,
                        writes: $writes,
                    },)*
                }
            }
        }
    };
}

calls! {
    ImageFresh, "ff_image_fresh", [4], None, Gives::Nothing, true;
    ImageCheck, "ff_image_check", [9], None, Gives::Nothing, false;
    SetTransform, "ff_set_transform", [9, 1, 4], Some(MATRIX), Gives::Nothing, true;
    MultiplyTransform, "ff_multiply_transform", [9, 1, 4], Some(MATRIX), Gives::Nothing, true;
    Transform, "ff_transform", [9, 1, 4], None, Gives::Item(MATRIX), false;
    WorldPaletteUsed, "ff_world_palette_used", [9], None, Gives::Number, false;
    WorldViewProjection, "ff_world_view_projection", [9, 4], None, Gives::Item(MATRIX), false;
    SetMaterial, "ff_set_material", [9, 4], Some(MATERIAL), Gives::Nothing, true;
    GetMaterial, "ff_material", [9, 4], None, Gives::Item(MATERIAL), false;
    SetLightAt, "ff_set_light_at", [9, 3, 4], Some(LIGHT), Gives::Nothing, true;
    SetLightEnabledAt, "ff_set_light_enabled_at", [9, 3], None, Gives::Nothing, true;
    GetLightAt, "ff_get_light_at", [9, 2, 4], None, Gives::Item(LIGHT), false;
    IsLightEnabledAt, "ff_is_light_enabled_at", [9], None, Gives::Number, false;
    IsLightDefinedAt, "ff_is_light_defined_at", [9], None, Gives::Number, false;
    VsSourceLightInputs, "ff_vs_source_light_inputs", [9], None, Gives::Number, false;
    CompactedLightMasks, "ff_compacted_light_masks", [9], None, Gives::Number, false;
    SetFogStart, "ff_set_fog_start", [9], None, Gives::Nothing, true;
    SetFogEnd, "ff_set_fog_end", [9], None, Gives::Nothing, true;
    SetFogDensity, "ff_set_fog_density", [9], None, Gives::Nothing, true;
    SetAmbient, "ff_set_ambient", [9], None, Gives::Nothing, true;
    SetTextureMask, "ff_set_texture_mask", [9], None, Gives::Nothing, true;
    MarkFfVsDirty, "ff_mark_ff_vs_dirty", [9, 7], None, Gives::Nothing, true;
    TakeFfVsDirty, "ff_take_ff_vs_dirty", [9], None, Gives::Number, true;
    RowCount, "ff_vs_row_count", [9], None, Gives::RowCount, false;
    WvRows, "ff_wv_section_rows", [9], None, Gives::Rows(Section::Wv), false;
    ProjRows, "ff_proj_section_rows", [9], None, Gives::Rows(Section::Proj), false;
    MaterialRows, "ff_material_section_rows", [9], None, Gives::Rows(Section::Material), false;
    LightsRows, "ff_lights_section_rows", [9], None, Gives::Rows(Section::Lights), false;
    PaletteRows, "ff_palette_section_rows", [9], None, Gives::Rows(Section::Palette), false;
    TtRows, "ff_tt_section_rows", [9], None, Gives::Rows(Section::Tt), false;
    FogRows, "ff_fog_section_rows", [9], None, Gives::Rows(Section::Fog), false;
    AmbientRows, "ff_ambient_section_rows", [9], None, Gives::Rows(Section::Ambient), false;
    FillWv, "ff_fill_wv_section", [9, 4], None, Gives::Fill(Section::Wv), false;
    FillProj, "ff_fill_proj_section", [9, 4], None, Gives::Fill(Section::Proj), false;
    FillMaterial, "ff_fill_material_section", [9, 4], None, Gives::Fill(Section::Material), false;
    FillLights, "ff_fill_lights_section", [9, 4, 5], None, Gives::Fill(Section::Lights), false;
    FillPalette, "ff_fill_palette_section", [9, 4], None, Gives::Fill(Section::Palette), false;
    FillTt, "ff_fill_tt_section", [9, 4], None, Gives::Fill(Section::Tt), false;
    FillFog, "ff_fill_fog_section", [9, 4], None, Gives::Fill(Section::Fog), false;
    FillAmbient, "ff_fill_ambient_section", [9, 4], None, Gives::Fill(Section::Ambient), false;
    Refresh, "ff_refresh", [9, 4, 8, 5], None, Gives::Mirror, true;
}

impl Name {
    /// Whether it gives rows, or their number, and leaves everything else alone.
    #[must_use]
    pub const fn packs(self) -> bool {
        matches!(
            self.form().gives,
            Gives::RowCount | Gives::Rows(_) | Gives::Fill(_)
        )
    }

    #[must_use]
    pub const fn takes_key(self) -> bool {
        self.packs() || matches!(self, Self::Refresh)
    }

    /// Whether it takes a state, an index, bits, or a value of T-05's.
    #[must_use]
    pub const fn takes_number(self) -> bool {
        matches!(
            self,
            Self::SetTransform
                | Self::MultiplyTransform
                | Self::Transform
                | Self::SetLightAt
                | Self::SetLightEnabledAt
                | Self::GetLightAt
                | Self::IsLightEnabledAt
                | Self::IsLightDefinedAt
                | Self::SetFogStart
                | Self::SetFogEnd
                | Self::SetFogDensity
                | Self::SetAmbient
                | Self::SetTextureMask
                | Self::MarkFfVsDirty
        )
    }
}

/// The length of the lent slice.
#[derive(Clone, Copy, Debug, PartialEq, Eq)]
pub enum Length {
    /// What document 01 wants of it.
    Right,
    Bytes(usize),
}

/// A call on the running image, or on that image damaged; a refresh of the running mirror.
#[derive(Clone, Debug, PartialEq, Eq)]
pub struct Call {
    pub name: Name,
    pub damage: Option<Damage>,
    /// What is put over the running mirror before the call.
    pub overwrite: Vec<Patch>,
    /// The state, the index, the bits, or the value of T-05's, a texture mask being a byte; 0 where the call has none of them.
    pub number: u32,
    /// `enabled` of ff_set_light_enabled_at.
    pub enabled: u32,
    /// The bytes of the item, of any length.
    pub given: Vec<u8>,
    pub key: Key,
    /// Where it is there, the key's mask is the state's own of the lights that are packed, whatever that is, without these bits.
    pub own_mask: Option<u8>,
    pub lent: Length,
    /// The texture mask of the state that the call is made on, which tells the rows of TT: settled where the call is judged.
    pub texture_mask: u8,
}

impl Call {
    /// The call with no damage, numbers 0, an item of zeros, a key of zeros and a lent slice of the right length.
    #[must_use]
    pub fn plain(name: Name) -> Self {
        Self {
            name,
            damage: None,
            overwrite: Vec::new(),
            number: 0,
            enabled: 0,
            given: vec![0; name.form().takes.unwrap_or(0)],
            key: Key::default(),
            own_mask: None,
            lent: Length::Right,
            texture_mask: 0,
        }
    }

    #[must_use]
    pub fn numbered(name: Name, number: u32) -> Self {
        Self {
            number,
            ..Self::plain(name)
        }
    }

    #[must_use]
    pub fn keyed(name: Name, key: Key) -> Self {
        Self {
            key,
            ..Self::plain(name)
        }
    }

    /// The bytes of the right slice; 0 where the call is lent none.
    #[must_use]
    pub const fn right_length(&self) -> usize {
        match self.name.form().gives {
            Gives::Nothing | Gives::Number | Gives::RowCount | Gives::Rows(_) => 0,
            Gives::Item(bytes) => bytes,
            Gives::Fill(section) => ROW * section.rows(self.key, self.texture_mask) as usize,
            Gives::Mirror => MIRROR,
        }
    }

    /// The bytes of the lent slice.
    #[must_use]
    pub const fn lent_length(&self) -> usize {
        match (self.name.form().gives, self.lent) {
            (Gives::Item(_) | Gives::Fill(_) | Gives::Mirror, Length::Bytes(bytes)) => bytes,
            _ => self.right_length(),
        }
    }

    /// Whether the item or the lent slice has another length than document 01 wants.
    #[must_use]
    pub fn has_wrong_length(&self) -> bool {
        self.lent_length() != self.right_length()
            || self.given.len() != self.name.form().takes.unwrap_or(0)
    }

    /// Whether it packs lights, for a preview.
    #[must_use]
    pub const fn is_previewed(&self) -> bool {
        self.key.preview != 0 && matches!(self.name, Name::FillLights | Name::Refresh)
    }

    /// Whether the running mirror is what the call is lent.
    #[must_use]
    pub fn lends_mirror(&self) -> bool {
        self.name == Name::Refresh && !self.has_wrong_length()
    }
}

/// What was overwritten and damaged before the call, a line each; then the call, its numbers, its item, the key's
/// eight fields, where `own` is the state's own mask under the key's limit, and the length of the lent slice where it is not
/// the right one.
impl fmt::Display for Call {
    fn fmt(&self, f: &mut fmt::Formatter<'_>) -> fmt::Result {
        tell(f, "overwrite", &self.overwrite)?;
        if let Some(damage) = &self.damage {
            write!(f, "{damage}")?;
        }
        let form = self.name.form();
        write!(f, "{}", form.c_name)?;
        if self.name.takes_number() {
            write!(f, " {:08x}", self.number)?;
        }
        if self.name == Name::SetLightEnabledAt {
            write!(f, " {:08x}", self.enabled)?;
        }
        if form.takes.is_some() {
            write!(f, " ")?;
            for byte in &self.given {
                write!(f, "{byte:02x}")?;
            }
        }
        if self.name.takes_key() {
            let [rhw, lit, specular, indexed, preview, mask, fog, count] = self.key.fields();
            let mask = match self.own_mask {
                None => mask.to_string(),
                Some(0) => "own".to_string(),
                Some(without) => format!("own-without-{without}"),
            };
            write!(
                f,
                " {rhw} {lit} {specular} {indexed} {preview} {mask} {fog} {count}"
            )?;
        }
        match (form.gives, self.lent) {
            (Gives::Item(_) | Gives::Fill(_) | Gives::Mirror, Length::Bytes(bytes)) => {
                write!(f, " {bytes} bytes")
            }
            _ => Ok(()),
        }
    }
}
