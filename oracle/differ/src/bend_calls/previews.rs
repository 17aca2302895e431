//! The lights of a preview.

use std::ops::Range;

use cases::call::{Call, Name};
use cases::key::Key;
use cases::model::refusal::WRONG_MASK;
use cases::section::ROW;

use super::{ACCEPTED, Held};
use crate::bends::Bend;
use crate::host::{self, Lent};

/// The bytes of a light's rows.
const LIGHT: usize = 6 * ROW;

/// The main screen's key.
fn screen(light_active_mask: u8) -> Key {
    Key {
        light_active_mask,
        ..Key::default()
    }
}

impl Held<'_> {
    /// The rows of the lights that the main screen is packed.
    fn screen_rows(&self) -> Vec<u8> {
        let mask = self.active(Key::default()).unwrap_or(0);
        let call = Call::keyed(Name::FillLights, screen(mask));
        let mut rows = vec![0; call.right_length()];
        let lent = Lent {
            image: &mut self.lent.image.to_vec(),
            given: &[],
            out: &mut rows,
            number: &mut 0,
        };
        assert_eq!(
            host::on_image(&call, lent),
            ACCEPTED,
            "the state's own mask"
        );
        rows
    }
}

/// An answer that is given before the call is made, which nothing refuses but its mask.
pub fn instead(bend: Bend, key: Key, held: &mut Held<'_>) -> Option<u32> {
    let eight = held.active(Key::default())?;
    let mask = key.light_active_mask;
    match bend {
        // The mask of eight is asked for, or is taken too.
        Bend::LightsPreviewEight | Bend::RefreshPreviewEight => {
            (mask != 0 && mask != eight).then_some(WRONG_MASK)
        }
        Bend::LightsPreviewEither if mask == eight => {
            held.lent.out.copy_from_slice(&held.screen_rows());
            Some(ACCEPTED)
        }
        Bend::LightsPreviewFive if eight > 0x0F => match mask {
            0x0F => Some(WRONG_MASK),
            0x1F => {
                let rows = held.screen_rows();
                held.lent.out.copy_from_slice(&rows[..5 * LIGHT]);
                Some(ACCEPTED)
            }
            _ => None,
        },
        _ => None,
    }
}

/// Puts the last lights of the main screen where the preview's rows stand.
pub fn put_last(held: &mut Held<'_>, place: Range<usize>) {
    let rows = held.screen_rows();
    let last = &rows[rows.len() - place.len()..];
    held.lent.out[place].copy_from_slice(last);
}
