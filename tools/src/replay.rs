//! A list run call by call: the state in an image, the mirror, the plain book beside them, and what demand 3 asks.

use ff_state::{FfImage, Mirror, Refusal, VsKey, replay_start};

use crate::book::Book;
use crate::compare::{WrongRow, wrong_rows};
use crate::list::{Call, Line};
use crate::sections::{Each, packed};
use crate::track::{Broken, Track, marks};

#[derive(Clone, Debug)]
pub struct World {
    pub image: FfImage,
    pub mirror: Mirror,
    pub book: Book,
    pub track: Track,
}

/// What a call did.
#[derive(Debug)]
pub enum Event {
    Done,
    Refused(Refusal),
    /// The bits that a take took.
    Took(u32),
    Refreshed(Refreshed),
}

/// An accepted refresh: the bits that it took, the rows that each section has, the wrong ones, and the conditions that it breaks.
#[derive(Debug)]
pub struct Refreshed {
    pub key: VsKey,
    pub bits: u32,
    pub rows: Each<usize>,
    pub wrong: Vec<WrongRow>,
    pub broken: Vec<Broken>,
}

impl World {
    /// "from a fresh state and a mirror of arbitrary contents"
    #[must_use]
    pub fn fresh() -> Self {
        Self {
            image: FfImage::fresh(),
            mirror: replay_start(),
            book: Book::default(),
            track: Track::default(),
        }
    }

    /// Makes the call of a line. An error is a defect of the library or of this tool: the library and the book part.
    pub fn step(&mut self, line: &Line) -> Result<Event, String> {
        let event = self.made(line).map_err(|why| {
            format!("line {}, {}: {why}: a defect of the library or of this tool, please report it with the list", line.number, line.text)
        })?;
        if matches!(event, Event::Done) {
            self.track.mark(marks(&line.call));
        }
        Ok(event)
    }

    fn made(&mut self, line: &Line) -> Result<Event, String> {
        let (image, book) = (&mut self.image, &mut self.book);
        match &line.call {
            Call::SetTransform(state, m) => same(
                image.set_transform(*state, m),
                book.set_transform(*state, m),
            ),
            Call::MultiplyTransform(state, m) => same(
                image.multiply_transform(*state, m),
                book.multiply_transform(*state, m),
            ),
            Call::SetMaterial(m) => {
                image.set_material(m);
                book.set_material(m);
                Ok(Event::Done)
            }
            Call::SetLightAt(index, l) => {
                same(image.set_light_at(*index, l), book.set_light_at(*index, l))
            }
            Call::SetLightEnabledAt(index, on) => same(
                image.set_light_enabled_at(*index, *on),
                book.set_light_enabled_at(*index, *on),
            ),
            Call::SetFogStart(x) => {
                image.set_fog_start(*x);
                book.set_fog(0, *x);
                Ok(Event::Done)
            }
            Call::SetFogEnd(x) => {
                image.set_fog_end(*x);
                book.set_fog(1, *x);
                Ok(Event::Done)
            }
            Call::SetFogDensity(x) => {
                image.set_fog_density(*x);
                book.set_fog(2, *x);
                Ok(Event::Done)
            }
            Call::SetAmbient(color) => {
                image.set_ambient(*color);
                book.set_ambient(*color);
                Ok(Event::Done)
            }
            Call::SetTextureMask(mask) => {
                image.set_texture_mask(*mask);
                book.set_texture_mask(*mask);
                Ok(Event::Done)
            }
            Call::Mark(bits) => {
                let rule = if *bits > 255 {
                    Err(Refusal::UnknownBits)
                } else {
                    Ok(())
                };
                same(image.mark_ff_vs_dirty(*bits), rule)
            }
            Call::Take => {
                let bits = image.take_ff_vs_dirty();
                self.track.take(line.number, bits);
                Ok(Event::Took(bits))
            }
            Call::Refresh(key) => {
                let key = key.on(image);
                self.refresh(line.number, key)
            }
            Call::Overwrite(first, last, row) => {
                overwrite(&mut self.mirror, *first, *last, row);
                self.track.overwrite(line.number, *first, *last);
                Ok(Event::Done)
            }
            Call::ReadIn(bytes) => match FfImage::from_bytes(bytes) {
                Err(refusal) => Ok(Event::Refused(refusal)),
                Ok(read) => {
                    self.book = Book::of(&read);
                    self.image = read;
                    self.track.read_in(line.number);
                    Ok(Event::Done)
                }
            },
        }
    }

    fn refresh(&mut self, line: usize, key: VsKey) -> Result<Event, String> {
        let bits = match self.image.refresh(&key, &mut self.mirror) {
            Err(refusal) => return Ok(Event::Refused(refusal)),
            Ok(bits) => bits,
        };
        let book = self
            .book
            .image()
            .map_err(|refusal| format!("the book's own values are {refusal}"))?;
        let packing = packed(&book, &key)
            .map_err(|refusal| format!("accepted, and over the book {refusal}"))?;
        let rows = packing.each_ref().map(Vec::len);
        let broken = self.track.broken(&key);
        self.track.refreshed(line, &key, rows, bits);
        let wrong = wrong_rows(&packing, &self.mirror);
        Ok(Event::Refreshed(Refreshed {
            key,
            bits,
            rows,
            wrong,
            broken,
        }))
    }
}

/// The library's answer and that of the book's own rule.
fn same(library: Result<(), Refusal>, book: Result<(), Refusal>) -> Result<Event, String> {
    match (library, book) {
        (Ok(()), Ok(())) => Ok(Event::Done),
        (Err(a), Err(b)) if a == b => Ok(Event::Refused(a)),
        _ => Err(format!(
            "the library answers {library:?} and the book {book:?}"
        )),
    }
}

/// Puts a row of floats in each of these rows.
pub fn overwrite(mirror: &mut Mirror, first: usize, last: usize, row: &[f32; 4]) {
    let bytes: Vec<u8> = row.iter().flat_map(|x| x.to_le_bytes()).collect();
    for place in mirror.as_mut_bytes().as_chunks_mut::<16>().0[first..=last].iter_mut() {
        place.copy_from_slice(&bytes);
    }
}
