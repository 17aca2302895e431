//! A list made through the Rust crate's recorder, as a program that records itself would.

use ff_state::{FfImage, Mirror, Recorder};

use crate::list::{Call, Line};
use crate::replay::overwrite;

/// The list made through a [`Recorder`]: what it wrote, the image and the mirror at the end.
pub fn recorded(lines: &[Line], mirror: &Mirror) -> Result<(Vec<u8>, FfImage, Mirror), String> {
    let (mut state, mut mirror) = (Recorder::new(Vec::new()), mirror.clone());
    for line in lines {
        // A refused call is recorded as it stands; the replay tells of it.
        let _refused = match &line.call {
            Call::SetTransform(number, m) => state.set_transform(*number, m),
            Call::MultiplyTransform(number, m) => state.multiply_transform(*number, m),
            Call::SetMaterial(m) => {
                state.set_material(m);
                Ok(())
            }
            Call::SetLightAt(index, l) => state.set_light_at(*index, l),
            Call::SetLightEnabledAt(index, on) => state.set_light_enabled_at(*index, *on),
            Call::SetFogStart(x) => {
                state.set_fog_start(*x);
                Ok(())
            }
            Call::SetFogEnd(x) => {
                state.set_fog_end(*x);
                Ok(())
            }
            Call::SetFogDensity(x) => {
                state.set_fog_density(*x);
                Ok(())
            }
            Call::SetAmbient(color) => {
                state.set_ambient(*color);
                Ok(())
            }
            Call::SetTextureMask(mask) => {
                state.set_texture_mask(*mask);
                Ok(())
            }
            Call::Mark(bits) => state.mark_ff_vs_dirty(*bits),
            Call::Take => {
                state.take_ff_vs_dirty();
                Ok(())
            }
            Call::Refresh(key) => {
                let key = key.on(&state);
                state.refresh(&key, &mut mirror).map(|_| ())
            }
            Call::Overwrite(first, last, row) => {
                overwrite(&mut mirror, *first, *last, row);
                state.overwritten(&mirror);
                Ok(())
            }
            Call::ReadIn(bytes) => state.read_in(bytes),
        };
    }
    let (image, list) = state
        .finish()
        .map_err(|error| format!("recording: {error}"))?;
    Ok((list, image, mirror))
}
