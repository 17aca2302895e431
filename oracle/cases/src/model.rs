//! Document 01's host over the unchanged Rust: the Rust's state gives every answer, every row and every field
//! of the image; what document 01 adds is written here: the refusals, the 56 entries, the image, the refresh. Of document 02 a
//! multiply's order stands here too, the directions that the Rust does not rule in `section.rs`, the lights of a preview in
//! `active.rs`, and fog, ambient colour and texture mask in `render_states.rs`.

mod dirty;
mod imaged;

use std::collections::BTreeSet;

use mtld3d_types::{D3DLIGHT9, D3DMATRIX, D3DRS_LIGHTING, RENDER_STATE_COUNT};
use original::convert::{FfVsLayout, FfVsLayoutFlags};
use original::dxso::MAX_LINKED_INPUTS;
use original::ff_state::{FfState, FfVsDirty};

use crate::active::asked;
use crate::call::{Call, Gives, LIGHT, MATERIAL, MATRIX, Name};
use crate::image::{self, ROOM, SLOTS};
use crate::key::Key;
use crate::records;
use crate::render_states::{self, RenderStates};
use crate::section::{EIGHT, Section};

/// Document 01's numbers of the refusals.
pub mod refusal {
    pub const UNKNOWN_STATE: u32 = 1;
    pub const UNDEFINED_LIGHT: u32 = 2;
    pub const TABLE_FULL: u32 = 3;
    pub const WRONG_LENGTH: u32 = 4;
    pub const WRONG_MASK: u32 = 5;
    pub const UNKNOWN_BITS: u32 = 7;
    pub const TRANSFORMED: u32 = 8;
    pub const NO_IMAGE: u32 = 9;

    /// How many statuses a call can have: 0 and the numbers up to the last.
    pub const STATUSES: usize = NO_IMAGE as usize + 1;
}

#[derive(Clone, Debug, PartialEq, Eq)]
pub enum Output {
    Nothing,
    Number(u32),
    Bytes(Vec<u8>),
    /// The bits taken, and the whole mirror afterwards.
    Refreshed(u32, Vec<u8>),
}

/// What an accepted call gives, or the number of its refusal.
pub type Answer = Result<Output, u32>;

pub struct Model {
    rust: FfState,
    render_states: RenderStates,
    /// The stored light indices of 8 or more.
    overflow: BTreeSet<u32>,
    /// The highest palette index where an image brought one below the Rust's, which only rises.
    lowered: Option<u16>,
}

impl Default for Model {
    fn default() -> Self {
        Self::fresh()
    }
}

impl Model {
    #[must_use]
    pub fn fresh() -> Self {
        Self {
            rust: FfState::new(),
            render_states: [0; RENDER_STATE_COUNT],
            overflow: BTreeSet::new(),
            lowered: None,
        }
    }

    fn transform(&self, state: u32) -> &D3DMATRIX {
        self.rust
            .transform(state)
            .expect("document 01 and the Rust know the same states")
    }

    fn world_palette_used(&self) -> u32 {
        match self.lowered {
            Some(highest) => u32::from(highest) + 1,
            None => self.rust.world_palette_used() as u32,
        }
    }

    fn raise_lowered(&mut self, state: u32) {
        if let (Some(highest), 256..=511) = (self.lowered, state) {
            self.lowered = Some(highest.max((state - 256) as u16));
        }
    }

    /// Whether a light finds room: refusal 3 is the other case.
    fn has_room(&self, index: u32) -> bool {
        (index as usize) < SLOTS || self.overflow.contains(&index) || self.overflow.len() < ROOM
    }

    fn store_index(&mut self, index: u32) {
        if index as usize >= SLOTS {
            self.overflow.insert(index);
        }
    }

    /// The stored light indices of 8 or more, ascending.
    fn indices(&self) -> impl Iterator<Item = u32> + Clone {
        self.overflow.iter().copied()
    }

    /// The mask that this key must have, where it is not 0: that of the lights that are packed.
    #[must_use]
    pub fn active(&self, key: Key) -> u8 {
        asked(&self.rust, self.indices(), key, |rust| {
            compacted_light_masks(rust)[0]
        })
    }

    /// The refusals of a call on an image that can be read, in their order.
    fn refused(&self, call: &Call) -> Option<u32> {
        let number = call.number;
        let unfit = match call.name {
            Name::SetTransform | Name::MultiplyTransform | Name::Transform => {
                (image::place(number).is_none()).then_some(refusal::UNKNOWN_STATE)
            }
            Name::GetLightAt => {
                (!self.rust.is_light_defined_at(number)).then_some(refusal::UNDEFINED_LIGHT)
            }
            Name::SetLightAt | Name::SetLightEnabledAt => {
                (!self.has_room(number)).then_some(refusal::TABLE_FULL)
            }
            Name::MarkFfVsDirty => (number > 255).then_some(refusal::UNKNOWN_BITS),
            _ => None,
        };
        let length = || call.has_wrong_length().then_some(refusal::WRONG_LENGTH);
        unfit.or_else(length).or_else(|| self.unfit_key(call))
    }

    fn unfit_key(&self, call: &Call) -> Option<u32> {
        let mask = call.key.light_active_mask;
        match call.name {
            Name::Refresh if call.key.has_rhw != 0 => Some(refusal::TRANSFORMED),
            Name::Refresh | Name::FillLights if mask != 0 && mask != self.active(call.key) => {
                Some(refusal::WRONG_MASK)
            }
            _ => None,
        }
    }

    fn fill(&self, section: Section, key: Key) -> Vec<u8> {
        section.fill(&self.rust, &self.render_states, self.indices(), key)
    }

    #[must_use]
    pub fn texture_mask(&self) -> u8 {
        self.rust.tt_active_mask()
    }

    /// Takes the bits and puts the rows of each section that they name into a copy of the mirror.
    fn refresh(&mut self, call: &Call, mirror: &[u8]) -> Output {
        let bits = self.take();
        let mut mirror = mirror.to_vec();
        let mask = self.texture_mask();
        for section in EIGHT
            .into_iter()
            .filter(|section| bits & section.bit() != 0)
        {
            mirror[section.place(call.key, mask)].copy_from_slice(&self.fill(section, call.key));
        }
        Output::Refreshed(u32::from(bits), mirror)
    }

    /// Answers a call other than ff_image_fresh on the image that reads as this state.
    pub fn answer(&mut self, call: &Call, mirror: &[u8]) -> Answer {
        if let Some(number) = self.refused(call) {
            return Err(number);
        }
        let key = || call.key.rust();
        Ok(match call.name.form().gives {
            Gives::RowCount => Output::Number(u32::from(self.rust.ff_vs_row_count(&key()))),
            Gives::Rows(section) => Output::Number(section.rust_rows(&self.rust, &key())),
            Gives::Fill(section) => Output::Bytes(self.fill(section, call.key)),
            Gives::Mirror => self.refresh(call, mirror),
            Gives::Nothing | Gives::Number | Gives::Item(_) => self.answer_unkeyed(call),
        })
    }

    /// Answers an accepted call that takes no key.
    fn answer_unkeyed(&mut self, call: &Call) -> Output {
        let number = call.number;
        match call.name {
            Name::ImageFresh => unreachable!("its image is not read"),
            Name::ImageCheck => Output::Nothing,
            Name::SetTransform => {
                assert!(
                    self.rust
                        .set_transform(number, &records::matrix(&call.given))
                );
                self.raise_lowered(number);
                Output::Nothing
            }
            Name::MultiplyTransform => {
                // Document 02, T-02: argument x slot, where the Rust's own call stores slot x argument.
                let argument = records::matrix(&call.given);
                let product = FfState::mat_mul(&argument, self.transform(number));
                assert!(self.rust.set_transform(number, &product));
                self.raise_lowered(number);
                Output::Nothing
            }
            Name::Transform => item(MATRIX, |out| {
                records::put_matrix(self.transform(number), out);
            }),
            Name::WorldPaletteUsed => Output::Number(self.world_palette_used()),
            Name::WorldViewProjection => item(MATRIX, |out| {
                records::put_matrix(&self.rust.world_view_projection(), out);
            }),
            Name::SetMaterial => {
                self.rust.set_material(&records::material(&call.given));
                Output::Nothing
            }
            Name::GetMaterial => item(MATERIAL, |out| {
                records::put_material(self.rust.material(), out);
            }),
            Name::SetLightAt => {
                self.rust.set_light_at(number, &records::light(&call.given));
                self.store_index(number);
                Output::Nothing
            }
            Name::SetLightEnabledAt => {
                self.rust.set_light_enabled_at(number, call.enabled != 0);
                self.store_index(number);
                Output::Nothing
            }
            Name::GetLightAt => item(LIGHT, |out| records::put_light(&self.light(number), out)),
            Name::IsLightEnabledAt => {
                Output::Number(u32::from(self.rust.is_light_enabled_at(number)))
            }
            Name::IsLightDefinedAt => {
                Output::Number(u32::from(self.rust.is_light_defined_at(number)))
            }
            Name::VsSourceLightInputs => Output::Number(self.rust.vs_source_light_inputs()),
            Name::CompactedLightMasks => {
                let [active, directional, spot] = compacted_light_masks(&self.rust);
                Output::Number(u32::from_le_bytes([active, directional, spot, 0]))
            }
            Name::SetFogStart | Name::SetFogEnd | Name::SetFogDensity | Name::SetAmbient => {
                let (state, dirty) = render_states::set_by(call.name).expect("a render state");
                self.render_states[state] = number;
                self.rust.mark_ff_vs_dirty(dirty);
                Output::Nothing
            }
            Name::SetTextureMask => {
                render_states::set_texture_mask(&mut self.rust, number as u8);
                self.rust.mark_ff_vs_dirty(FfVsDirty::TT);
                Output::Nothing
            }
            Name::MarkFfVsDirty => {
                self.mark(number as u8);
                Output::Nothing
            }
            Name::TakeFfVsDirty => Output::Number(u32::from(self.take())),
            _ => unreachable!("it takes a key"),
        }
    }

    fn light(&self, index: u32) -> D3DLIGHT9 {
        self.rust
            .get_light_at(index)
            .expect("a light that the Rust calls defined")
    }
}

/// The Rust answers with them only through a key: one of a lit draw that is not transformed.
fn compacted_light_masks(rust: &FfState) -> [u8; 3] {
    let mut render_states = [0; RENDER_STATE_COUNT];
    render_states[D3DRS_LIGHTING as usize] = 1;
    let layout = FfVsLayout {
        flags: FfVsLayoutFlags::empty(),
        tex_coord_count: 0,
        tex_coord_dims: [0; 8],
        declared_weights_count: 0,
    };
    let key = rust.build_vs_key(&render_states, layout, 0, [0; MAX_LINKED_INPUTS]);
    [
        key.light_active_mask,
        key.light_directional_mask,
        key.light_spot_mask,
    ]
}

fn item(length: usize, put: impl FnOnce(&mut [u8])) -> Output {
    let mut bytes = vec![0; length];
    put(&mut bytes);
    Output::Bytes(bytes)
}
