//! The calls on a state in memory beside refresh, and their bends.

use cases::call::{Call, Name};
use cases::image::number32;
use cases::world::{Judged, World};

use super::{GUARD, Memory, Unlike, told};
use crate::bends::Bend;
use crate::raw::{self, FfLight, FfState};

impl Memory {
    pub(super) fn change(
        &mut self,
        c_name: &'static str,
        judged: &Judged,
        world: &World,
    ) -> Result<(), Unlike> {
        let mut number = [GUARD; 3];
        self.answers(c_name, judged.status(), |memory| {
            memory.make(&judged.call, &mut number[1])
        })?;
        told(c_name, &judged.answer, number)?;
        self.compare(c_name, world)
    }

    fn make(&mut self, call: &Call, number: &mut u32) -> u32 {
        let s: *mut FfState = &mut self.state.held;
        let given: Vec<f32> = floats(&call.given);
        let (items, mut n, mut enabled) = (given.as_ptr(), call.number, call.enabled);
        match self.bend {
            Some(Bend::StateSetsAnother) if call.name == Name::SetTransform && n > 256 => n ^= 1,
            Some(Bend::StateLightNext) if call.name == Name::SetLightAt => n = n.wrapping_add(1),
            Some(Bend::StateEnablesAny) if call.name == Name::SetLightEnabledAt => enabled = 1,
            Some(Bend::StateMarkMasks) if call.name == Name::MarkFfVsDirty => n &= 255,
            Some(Bend::StateFogFlushes) if call.name == Name::SetFogEnd && n & 0x7F80_0000 == 0 => {
                n &= 0x8000_0000;
            }
            Some(Bend::StateAmbientSwapped) if call.name == Name::SetAmbient => n = n.swap_bytes(),
            Some(Bend::StateMaskHalf) if call.name == Name::SetTextureMask => n &= 0x7F,
            _ => {}
        }
        let sets = call.name == Name::SetTransform || self.bend == Some(Bend::StateMultiplySets);
        // SAFETY: the pointer is to a state that outlives the call; an item has as many floats as its form says.
        let status = unsafe {
            match call.name {
                Name::SetTransform | Name::MultiplyTransform if sets => {
                    raw::ff_state_set_transform(s, n, items)
                }
                Name::MultiplyTransform => raw::ff_state_multiply_transform(s, n, items),
                Name::SetMaterial => raw::ff_state_set_material(s, items),
                Name::SetLightAt => raw::ff_state_set_light_at(s, n, &light(&call.given)),
                Name::SetLightEnabledAt => raw::ff_state_set_light_enabled_at(s, n, enabled),
                Name::SetFogStart => raw::ff_state_set_fog_start(s, f32::from_bits(n)),
                Name::SetFogEnd => raw::ff_state_set_fog_end(s, f32::from_bits(n)),
                Name::SetFogDensity => raw::ff_state_set_fog_density(s, f32::from_bits(n)),
                Name::SetAmbient => raw::ff_state_set_ambient(s, n),
                Name::SetTextureMask => raw::ff_state_set_texture_mask(s, n as u8),
                Name::VsSourceLightInputs => raw::ff_state_vs_source_light_inputs(s, number),
                Name::MarkFfVsDirty => raw::ff_state_mark_ff_vs_dirty(s, n),
                Name::TakeFfVsDirty => raw::ff_state_take_ff_vs_dirty(s, number),
                _ => unreachable!("c_name knows no other"),
            }
        };
        match (self.bend, call.name) {
            (Some(Bend::StateMaterialClean), Name::SetMaterial)
            | (Some(Bend::StateFogStartClean), Name::SetFogStart)
            | (Some(Bend::StateFogDensityClean), Name::SetFogDensity)
            | (Some(Bend::StateMaskClean), Name::SetTextureMask) => {
                self.take();
            }
            (Some(Bend::StateTakeLeaves), Name::TakeFfVsDirty) => {
                // SAFETY: as above.
                unsafe { raw::ff_state_mark_ff_vs_dirty(&mut self.state.held, *number) };
            }
            (Some(Bend::StateInputsFlag), Name::VsSourceLightInputs) => *number &= 0x00FF_FFFF,
            _ => {}
        }
        status
    }
}

/// The call on a state in memory, where there is one beside refresh.
pub(super) const fn c_name(name: Name) -> Option<&'static str> {
    Some(match name {
        Name::SetTransform => "ff_state_set_transform",
        Name::MultiplyTransform => "ff_state_multiply_transform",
        Name::SetMaterial => "ff_state_set_material",
        Name::SetLightAt => "ff_state_set_light_at",
        Name::SetLightEnabledAt => "ff_state_set_light_enabled_at",
        Name::SetFogStart => "ff_state_set_fog_start",
        Name::SetFogEnd => "ff_state_set_fog_end",
        Name::SetFogDensity => "ff_state_set_fog_density",
        Name::SetAmbient => "ff_state_set_ambient",
        Name::SetTextureMask => "ff_state_set_texture_mask",
        Name::VsSourceLightInputs => "ff_state_vs_source_light_inputs",
        Name::MarkFfVsDirty => "ff_state_mark_ff_vs_dirty",
        Name::TakeFfVsDirty => "ff_state_take_ff_vs_dirty",
        _ => return None,
    })
}

fn floats(bytes: &[u8]) -> Vec<f32> {
    let fours = bytes.as_chunks().0.iter();
    fours.map(|&four| f32::from_le_bytes(four)).collect()
}

/// The light of 104 bytes.
fn light(bytes: &[u8]) -> FfLight {
    let floats = floats(&bytes[4..]);
    FfLight {
        type_: number32(bytes, 0),
        floats: core::array::from_fn(|i| floats[i]),
    }
}
