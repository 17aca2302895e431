//! Wrong versions of our calls on images: each makes the right call and then bends what it did, or
//! makes another one.

mod changes;
mod images;
mod lights;
mod previews;
mod reads;
mod refreshes;
mod rows;
mod smoke;

use cases::call::{Call, Name};
use cases::image;
use cases::key::Key;

use crate::bends::{BENDS, Bend};
use crate::host::{self, Lent};

const ACCEPTED: u32 = 0;

/// What is lent, held so that several calls can be made with it.
struct Held<'a> {
    lent: Lent<'a>,
}

impl Held<'_> {
    fn call(&mut self, call: &Call) -> u32 {
        let lent = &mut self.lent;
        host::on_image(
            call,
            Lent {
                image: lent.image,
                given: lent.given,
                out: lent.out,
                number: lent.number,
            },
        )
    }

    /// What a call without arguments answers on a copy of the image, where it does not refuse it.
    fn read(&self, name: Name) -> Option<u32> {
        let mut image = self.lent.image.to_vec();
        let mut number = 0;
        let lent = Lent {
            image: &mut image,
            given: &[],
            out: &mut [],
            number: &mut number,
        };
        (host::on_image(&Call::plain(name), lent) == ACCEPTED).then_some(number)
    }

    fn is_image(&self) -> bool {
        self.read(Name::ImageCheck).is_some()
    }

    /// The mask of the lights that are packed under the key, where the bytes are an image.
    fn active(&self, key: Key) -> Option<u8> {
        let masks = self.read(Name::CompactedLightMasks)?;
        Some(masks as u8 & (0xFF >> (image::SLOTS - key.limit())))
    }

    /// The bytes of the image where it is as long as one.
    fn whole(&mut self) -> Option<&mut [u8]> {
        (self.lent.image.len() == image::BYTES).then_some(&mut *self.lent.image)
    }

    fn matrix(&self, at: usize) -> Vec<u8> {
        self.lent.image[at..at + 64].to_vec()
    }

    /// A number of the lent slice.
    fn word(&self, at: usize) -> u32 {
        image::number32(self.lent.out, at)
    }

    fn put(&mut self, at: usize, word: u32) {
        self.lent.out[at..at + 4].copy_from_slice(&word.to_le_bytes());
    }

    /// The image's texture mask; 0 where it is shorter.
    fn texture_mask(&self) -> u8 {
        self.lent
            .image
            .get(image::TEXTURE_MASK)
            .copied()
            .unwrap_or(0)
    }

    fn count(&self) -> usize {
        usize::from(image::number16(self.lent.image, image::COUNT))
    }

    /// The place of an overflow light's entry.
    fn entry(&self, index: u32) -> Option<usize> {
        (0..self.count())
            .map(image::entry)
            .find(|&at| image::number32(self.lent.image, at) == index)
    }
}

/// Changes the byte past a slice.
fn past(slice: &mut [u8]) {
    // SAFETY: every slice that the driver lends lies inside a longer buffer.
    unsafe { *slice.as_mut_ptr().add(slice.len()) ^= 1 };
}

/// The name of the call that a bend is about.
fn bent(bend: Bend) -> &'static str {
    BENDS
        .iter()
        .find(|known| known.bend == bend)
        .map_or("", |known| known.call)
}

pub fn call(bend: Bend, call: &Call, lent: Lent<'_>) -> u32 {
    let mut held = Held { lent };
    if call.name.form().c_name != bent(bend) {
        return held.call(call);
    }
    match call.name {
        Name::ImageFresh => images::image_fresh(bend, call, held),
        Name::ImageCheck => images::image_check(bend, call, held),
        Name::SetTransform | Name::MultiplyTransform => changes::change_transform(bend, call, held),
        Name::SetMaterial => changes::set_material(bend, call, held),
        Name::SetLightAt | Name::SetLightEnabledAt => changes::change_light(bend, call, held),
        Name::SetFogStart
        | Name::SetFogEnd
        | Name::SetFogDensity
        | Name::SetAmbient
        | Name::SetTextureMask => smoke::set(bend, call, held),
        Name::MarkFfVsDirty | Name::TakeFfVsDirty => changes::dirty(bend, call, held),
        Name::Refresh => refreshes::refresh(bend, call, held),
        name if name.packs() => rows::pack(bend, call, held),
        _ => reads::read(bend, call, held),
    }
}
