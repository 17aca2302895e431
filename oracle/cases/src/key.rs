//! The key of a draw, as it crosses (docs/INTERFACE.md) and as the Rust has it.

use std::sync::LazyLock;

use mtld3d_types::RENDER_STATE_COUNT;
use original::convert::{FfVsLayout, FfVsLayoutFlags};
use original::dxso::{FfVsFlags, FfVsKey, MAX_LINKED_INPUTS};
use original::ff_state::FfState;

use crate::image::SLOTS;

/// The lights of a preview, at most.
const PREVIEWED: usize = 4;

/// The eight fields of a key; a flag is set by any number but 0.
#[derive(Clone, Copy, Debug, Default, PartialEq, Eq)]
pub struct Key {
    pub has_rhw: u8,
    pub lighting_enabled: u8,
    pub specular_enable: u8,
    pub vertex_blend_indexed: u8,
    /// Document 02, T-01; the Rust's key has none.
    pub preview: u8,
    pub light_active_mask: u8,
    pub fog_mode: u8,
    pub vertex_blend_count: u8,
}

impl Key {
    #[must_use]
    pub const fn fields(self) -> [u8; 8] {
        [
            self.has_rhw,
            self.lighting_enabled,
            self.specular_enable,
            self.vertex_blend_indexed,
            self.preview,
            self.light_active_mask,
            self.fog_mode,
            self.vertex_blend_count,
        ]
    }

    #[must_use]
    pub const fn of(fields: [u8; 8]) -> Self {
        let [rhw, lit, specular, indexed, preview, mask, fog, count] = fields;
        Self {
            has_rhw: rhw,
            lighting_enabled: lit,
            specular_enable: specular,
            vertex_blend_indexed: indexed,
            preview,
            light_active_mask: mask,
            fog_mode: fog,
            vertex_blend_count: count,
        }
    }

    /// Document 01's shape fields, which the preview's limit joins and `fog_mode` (document 02, T-01 and T-05): all except
    /// HAS_RHW.
    #[must_use]
    pub const fn shape(self) -> (bool, bool, bool, bool, u8, u8, u8) {
        (
            self.lighting_enabled != 0,
            self.specular_enable != 0,
            self.vertex_blend_indexed != 0,
            self.preview != 0,
            self.light_active_mask,
            self.fog_mode,
            self.vertex_blend_count,
        )
    }

    /// How many lights are packed, at most.
    #[must_use]
    pub const fn limit(self) -> usize {
        if self.preview == 0 { SLOTS } else { PREVIEWED }
    }

    /// The Rust's key; what these fields do not say is as in a draw of a fresh state.
    pub(crate) fn rust(self) -> FfVsKey {
        static REST: LazyLock<FfVsKey> = LazyLock::new(|| {
            let layout = FfVsLayout {
                flags: FfVsLayoutFlags::empty(),
                tex_coord_count: 0,
                tex_coord_dims: [0; 8],
                declared_weights_count: 0,
            };
            let render_states = [0; RENDER_STATE_COUNT];
            FfState::new().build_vs_key(&render_states, layout, 0, [0; MAX_LINKED_INPUTS])
        });
        let flags = [
            (self.has_rhw, FfVsFlags::HAS_RHW),
            (self.lighting_enabled, FfVsFlags::LIGHTING_ENABLED),
            (self.specular_enable, FfVsFlags::SPECULAR_ENABLE),
            (self.vertex_blend_indexed, FfVsFlags::VERTEX_BLEND_INDEXED),
        ];
        let mut key = REST.clone();
        key.flags = flags
            .into_iter()
            .filter(|&(number, _)| number != 0)
            .fold(FfVsFlags::empty(), |all, (_, flag)| all | flag);
        key.light_active_mask = self.light_active_mask;
        key.fog_mode = self.fog_mode;
        key.vertex_blend_count = self.vertex_blend_count;
        key
    }
}
