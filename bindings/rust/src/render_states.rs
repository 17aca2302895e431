//! Fog, the ambient colour and the texture mask. An equal value still dirties; packed rows and the image tell what is stored.

use crate::image::{FfImage, readable};
use crate::raw;

impl FfImage {
    /// Stores where fog begins, and dirties FOG.
    pub fn set_fog_start(&mut self, start: f32) {
        let image = self.lent();
        // SAFETY: here and below the pointer goes with the array's length.
        readable(unsafe {
            raw::ff_set_fog_start(image.as_mut_ptr(), image.len(), start.to_bits())
        });
    }

    /// Stores where fog ends, and dirties FOG.
    pub fn set_fog_end(&mut self, end: f32) {
        let image = self.lent();
        // SAFETY: as above.
        readable(unsafe { raw::ff_set_fog_end(image.as_mut_ptr(), image.len(), end.to_bits()) });
    }

    /// Stores how dense fog is, and dirties FOG.
    pub fn set_fog_density(&mut self, density: f32) {
        let image = self.lent();
        // SAFETY: as above.
        readable(unsafe {
            raw::ff_set_fog_density(image.as_mut_ptr(), image.len(), density.to_bits())
        });
    }

    /// Stores the ambient colour, 0xAARRGGBB, and dirties AMBIENT.
    pub fn set_ambient(&mut self, color: u32) {
        let image = self.lent();
        // SAFETY: as above.
        readable(unsafe { raw::ff_set_ambient(image.as_mut_ptr(), image.len(), color) });
    }

    /// Stores which texture stages transform, stage 0 the lowest bit, and dirties TT.
    pub fn set_texture_mask(&mut self, mask: u8) {
        let image = self.lent();
        // SAFETY: as above.
        readable(unsafe { raw::ff_set_texture_mask(image.as_mut_ptr(), image.len(), mask) });
    }
}
