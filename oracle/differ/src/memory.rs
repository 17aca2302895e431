//! The calls that change a state, once more on a state in memory: the same answers, and the same image and mirror after each.

mod changes;

use cases::call::Name;
use cases::damage::patch;
use cases::floats::with_one_nan;
use cases::image::{BYTES, TAIL};
use cases::model::refusal::{NO_IMAGE, WRONG_LENGTH};
use cases::model::{Answer, Output};
use cases::section::{MIRROR, ROW};
use cases::world::{Judged, World};

use crate::bends::Bend;
use crate::guarded::Guarded;
use crate::handed::unlike_image;
use crate::host::Host;
use crate::raw::{self, FfState};
use crate::report::{Difference, Outcome, Run};

/// What the words around the state, the mirror and a lent number hold.
const GUARD: u32 = 0xA5A5_5A5A;
const FLOATS: usize = MIRROR / 4;

/// A call on the state in memory that is unlike, by its C name, and how.
pub struct Unlike {
    pub call: &'static str,
    pub what: String,
}

fn unlike(call: &'static str, what: String) -> Result<(), Unlike> {
    Err(Unlike { call, what })
}

#[repr(C)]
struct Between<T> {
    before: [u32; 4],
    held: T,
    after: [u32; 4],
}

impl<T> Between<T> {
    const fn guards(held: T) -> Self {
        Self {
            before: [GUARD; 4],
            held,
            after: [GUARD; 4],
        }
    }

    fn kept(&self) -> bool {
        self.before == [GUARD; 4] && self.after == [GUARD; 4]
    }
}

/// A state and a mirror, like the world's until a call differs.
pub struct Memory {
    bend: Option<Bend>,
    state: Box<Between<FfState>>,
    /// Floats by their bits, so that those which no call writes keep any pattern.
    mirror: Box<Between<[u32; FLOATS]>>,
}

impl Memory {
    pub fn fresh(bend: Option<Bend>) -> Self {
        let mut memory = Self {
            bend,
            state: Box::new(Between::guards(FfState::ZEROS)),
            mirror: Box::new(Between::guards([0; FLOATS])),
        };
        // SAFETY: here and below the pointer is to memory of a state's size, which outlives the call.
        unsafe { raw::ff_state_fresh(&mut memory.state.held) };
        memory
    }

    fn make_fresh(&mut self) {
        // SAFETY: as above.
        unsafe { raw::ff_state_fresh(&mut self.state.held) };
        if self.bend == Some(Bend::StateFreshClean) {
            self.take();
        }
    }

    fn take(&mut self) -> u32 {
        let mut bits = 0;
        // SAFETY: as above, and the number is apart.
        unsafe { raw::ff_state_take_ff_vs_dirty(&mut self.state.held, &mut bits) };
        bits
    }

    /// Makes the call that was judged, on what the world's images and mirrors were. `given` is the image that it was handed
    /// where that was not the running one.
    pub fn step(
        &mut self,
        judged: &Judged,
        given: Option<&[u8]>,
        world: &World,
    ) -> Result<(), Unlike> {
        let call = &judged.call;
        // Little-endian bytes of numbers, as every machine that this runs on has them.
        let mut bytes: Vec<u8> = Vec::new();
        if !call.overwrite.is_empty() {
            bytes.extend(self.mirror.held.iter().flat_map(|bits| bits.to_le_bytes()));
            patch(&call.overwrite, &mut bytes);
            for (bits, four) in self.mirror.held.iter_mut().zip(bytes.as_chunks().0) {
                *bits = u32::from_le_bytes(*four);
            }
        }
        if call.name == Name::ImageFresh {
            if judged.ran {
                self.make_fresh();
            }
            return self.compare("ff_state_fresh", world);
        }
        if let Some(image) = given {
            let expected = if judged.ran { 0 } else { judged.status() };
            self.answers("ff_state_read_image", expected, |memory| memory.read(image))?;
            self.compare_read(judged, world)?;
            if !judged.ran {
                return Ok(());
            }
        }
        if call.given.len() != call.name.form().takes.unwrap_or(0) {
            return Ok(());
        }
        match call.name {
            Name::Refresh => self.refresh(judged, world),
            name => match changes::c_name(name) {
                Some(c_name) => self.change(c_name, judged, world),
                None => Ok(()),
            },
        }
    }

    fn answers(
        &mut self,
        call: &'static str,
        expected: u32,
        make: impl FnOnce(&mut Self) -> u32,
    ) -> Result<(), Unlike> {
        let status = make(self);
        if status == expected {
            return Ok(());
        }
        unlike(call, format!("status: expected {expected}, ours {status}"))
    }

    fn read(&mut self, image: &[u8]) -> u32 {
        // SAFETY: as above; the pointer goes with the slice's length.
        let status =
            unsafe { raw::ff_state_read_image(&mut self.state.held, image.as_ptr(), image.len()) };
        if status != 0 && self.bend == Some(Bend::StateReadsRefused) {
            self.make_fresh();
        }
        status
    }

    /// After a call that read an image and then changed the state the image before the change is no longer there to compare.
    fn compare_read(&self, judged: &Judged, world: &World) -> Result<(), Unlike> {
        if judged.ran && judged.call.name.form().writes {
            return Ok(());
        }
        self.compare("ff_state_read_image", world)
    }

    /// Whether the state's image, written anew, is the world's, and nothing around the two was touched.
    fn compare(&self, call: &'static str, world: &World) -> Result<(), Unlike> {
        let mut image = Guarded::new(BYTES, 0);
        let slice = image.slice_mut();
        // SAFETY: as above; the pointer goes with the slice's length.
        let status =
            unsafe { raw::ff_state_write_image(&self.state.held, slice.as_mut_ptr(), slice.len()) };
        if status != 0 {
            return unlike(
                "ff_state_write_image",
                format!("status: expected 0, ours {status}"),
            );
        }
        match unlike_image(&image, world.image()) {
            Some(what) => unlike(call, what),
            None if !self.state.kept() => unlike(call, "the memory around the state".to_string()),
            None => Ok(()),
        }
    }

    fn refresh(&mut self, judged: &Judged, world: &World) -> Result<(), Unlike> {
        const CALL: &str = "ff_state_refresh";
        let (length, mut key) = (judged.call.lent_length(), judged.call.key);
        if length % 4 != 0 {
            return Ok(());
        }
        let mut number = [GUARD; 3];
        let mut other = Vec::new();
        let (mirror, floats) = if length == MIRROR {
            (self.mirror.held.as_mut_ptr(), FLOATS)
        } else {
            other.resize(length / 4 + 1, GUARD);
            (other.as_mut_ptr(), length / 4)
        };
        match self.bend {
            Some(Bend::StateRefreshPreview) => key.preview = 0,
            Some(Bend::StateRefreshFog) => key.fog_mode &= 3,
            _ => {}
        }
        let [a, b, c, d, e, f, g, h] = key.fields();
        let s: *mut FfState = &mut self.state.held;
        // SAFETY: as above; the pointer goes with as many words, each a float by its bits.
        let status = unsafe {
            raw::ff_state_refresh(
                s,
                a,
                b,
                c,
                d,
                e,
                f,
                g,
                h,
                mirror.cast(),
                floats,
                &mut number[1],
            )
        };
        match (self.bend, status) {
            (Some(Bend::StateRefreshLeaves), 0) => {
                // SAFETY: as above.
                unsafe { raw::ff_state_mark_ff_vs_dirty(s, number[1]) };
            }
            (Some(Bend::StateRefusedTakes), 4..) => {
                self.take();
            }
            (Some(Bend::StateRefusedTells), 4..) => number[1] = 0,
            (Some(Bend::StateRefreshRow), 0) => self.mirror.held[16] ^= 1,
            (Some(Bend::StateRefreshGuard), 0) => self.mirror.after[0] = 0,
            _ => {}
        }
        let expected = judged.status();
        if status != expected {
            return unlike(CALL, format!("status: expected {expected}, ours {status}"));
        }
        told(CALL, &judged.answer, number)?;
        if let Some(row) = self.unlike_row(world.mirror()) {
            return unlike(CALL, format!("row {row} of the mirror"));
        }
        if !self.mirror.kept() || other.iter().any(|&word| word != GUARD) {
            return unlike(
                CALL,
                "a mirror that was refused, or the memory around it".to_string(),
            );
        }
        self.compare(CALL, world)
    }

    /// The first row that is not the world's; two NaNs are alike, for which pattern a float in memory has is left free.
    fn unlike_row(&self, mirror: &[u8]) -> Option<usize> {
        let fours = mirror.as_chunks().0.iter();
        let mut words = fours
            .map(|&four| u32::from_le_bytes(four))
            .zip(&self.mirror.held);
        let at =
            words.position(|(expected, &ours)| with_one_nan(expected) != with_one_nan(ours))?;
        Some(4 * at / ROW)
    }
}

/// Whether the lent number is what the answer has, or is as it was, and so are those beside it.
fn told(call: &'static str, answer: &Answer, number: [u32; 3]) -> Result<(), Unlike> {
    let expected = match answer {
        Ok(Output::Number(number) | Output::Refreshed(number, _)) => *number,
        _ => GUARD,
    };
    let expected = [GUARD, expected, GUARD];
    if number == expected {
        return Ok(());
    }
    unlike(
        call,
        format!(
            "the lent number, or those beside it: expected {expected:08x?}, ours {number:08x?}"
        ),
    )
}

/// Slices that are not as long as an image: not written, and not read.
pub fn lengths(run: &mut Run, host: Host) -> Outcome {
    let mut memory = Memory::fresh(host.bend);
    let before = memory.state.held.clone();
    for length in (0..80).chain([TAIL, BYTES - 1, BYTES + 1, 2 * BYTES]) {
        let mut image = Guarded::new(length, length);
        let kept = image.clone();
        let slice = image.slice_mut();
        let (bytes, len) = (slice.as_mut_ptr(), slice.len());
        let s = &mut memory.state.held;
        // SAFETY: as above; the pointer goes with the slice's length.
        let written = unsafe { raw::ff_state_write_image(s, bytes, len) };
        // SAFETY: as above.
        let read = unsafe { raw::ff_state_read_image(s, bytes, len) };
        run.count("ff_state_write_image", written, 1);
        run.count("ff_state_read_image", read, 1);
        if (written, read) != (WRONG_LENGTH, NO_IMAGE) || image != kept || *s != before {
            let text = format!(
                "difference: ff_state_write_image, {length} bytes: expected 4 and 9, ours {written} and {read}, or something was written\n"
            );
            return Err(Difference {
                call: "ff_state_write_image",
                text,
            });
        }
    }
    Ok(())
}
