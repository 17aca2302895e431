//! One running image and one running mirror, as a host holds them, and what each call on them must answer and leave.

use crate::book::Book;
use crate::call::{Call, Name};
use crate::claim::Claim;
use crate::damage::patch;
use crate::image::{self, BYTES, Reason};
use crate::key::Key;
use crate::model::{Answer, Model, Output, refusal};
use crate::section::{MIRROR, Section};

pub struct World {
    model: Model,
    image: Vec<u8>,
    mirror: Vec<u8>,
    book: Book,
    claim: Claim,
}

/// What a call must answer, and why its image was refused.
pub struct Judged {
    /// The call as it is made: its mask is settled, and the texture mask that it meets.
    pub call: Call,
    pub answer: Answer,
    pub reasons: Vec<Reason>,
    /// Whether the call's image is the running one afterwards. A damaged image that is refused is
    /// not: it must be as it was given, and the list goes on with the running one.
    pub ran: bool,
    /// Whether the call packs lights for a preview and more of them light than it has.
    pub limited: bool,
    /// After a refresh for which demand 3's conditions hold, the sections whose count must be 0, by their bits.
    pub due: Option<u8>,
}

impl Judged {
    /// 0, or the number of the refusal.
    #[must_use]
    pub fn status(&self) -> u32 {
        self.answer.as_ref().err().map_or(0, |&number| number)
    }
}

impl Default for World {
    fn default() -> Self {
        Self::fresh()
    }
}

impl World {
    /// A fresh state, and a mirror of zeros.
    #[must_use]
    pub fn fresh() -> Self {
        let mut model = Model::fresh();
        let mut image = vec![0; BYTES];
        model.write(&mut image);
        Self {
            model,
            image,
            mirror: vec![0; MIRROR],
            book: Book::default(),
            claim: Claim::default(),
        }
    }

    /// The world after a list of calls on the running image, from a fresh one on.
    #[must_use]
    pub fn after(calls: &[Call]) -> Self {
        let mut world = Self::fresh();
        for call in calls {
            world.judge(call, None);
        }
        world
    }

    /// The running image.
    #[must_use]
    pub fn image(&self) -> &[u8] {
        &self.image
    }

    /// The running mirror.
    #[must_use]
    pub fn mirror(&self) -> &[u8] {
        &self.mirror
    }

    /// Judges a call; `damaged` is the image that it is given where that is not the running one.
    pub fn judge(&mut self, call: &Call, damaged: Option<&[u8]>) -> Judged {
        let mut judged = Judged {
            call: call.clone(),
            answer: Ok(Output::Nothing),
            reasons: Vec::new(),
            ran: true,
            limited: false,
            due: None,
        };
        judged.call.texture_mask = self.model.texture_mask();
        self.overwrite(call);
        if call.name == Name::ImageFresh {
            judged.ran = damaged.is_none_or(|bytes| bytes.len() == BYTES);
            if judged.ran {
                self.begin_again();
            } else {
                judged.answer = Err(refusal::WRONG_LENGTH);
            }
            return judged;
        }
        if let Some(bytes) = damaged {
            judged.reasons = image::reasons(bytes);
            if !judged.reasons.is_empty() {
                judged.answer = Err(refusal::NO_IMAGE);
                judged.ran = false;
                return judged;
            }
            self.read_in(bytes);
            judged.call.texture_mask = self.model.texture_mask();
        }
        if let Some(without) = call.own_mask {
            judged.call.key.light_active_mask = self.model.active(call.key) & !without;
        }
        judged.limited = call.is_previewed() && self.model.active(Key::default()) > 0x0F;
        judged.answer = self.model.answer(&judged.call, &self.mirror);
        if judged.answer.is_ok() && call.name.form().writes {
            self.model.write(&mut self.image);
        }
        judged.due = self.heed(&judged.call, &judged.answer);
        judged
    }

    fn overwrite(&mut self, call: &Call) {
        patch(&call.overwrite, &mut self.mirror);
        for (at, bytes) in &call.overwrite {
            self.claim.overwritten(*at, bytes.len());
        }
    }

    /// A fresh state, and the mirror that is there: demand 3's lists begin so.
    fn begin_again(&mut self) {
        let mirror = std::mem::take(&mut self.mirror);
        *self = Self {
            mirror,
            ..Self::fresh()
        };
    }

    fn read_in(&mut self, bytes: &[u8]) {
        self.model = Model::read(bytes);
        self.image.copy_from_slice(bytes);
        self.book = Book::of_image(bytes);
        self.claim.read_in();
    }

    /// What an answered call leaves in the mirror, in the book and of demand 3's conditions.
    fn heed(&mut self, call: &Call, answer: &Answer) -> Option<u8> {
        let output = answer.as_ref().ok()?;
        self.book.heed(call);
        match (call.name, output) {
            (Name::MarkFfVsDirty, _) => self.claim.marked(call.number as u8),
            (Name::TakeFfVsDirty, _) => self.claim.read_in(),
            (_, Output::Refreshed(_, mirror)) => {
                self.mirror.copy_from_slice(mirror);
                return self.claim.refreshed(call.key, self.book.texture_mask());
            }
            _ => {}
        }
        None
    }

    /// The first of the sections that are due whose count is not 0 in a mirror under the refresh's key.
    #[must_use]
    pub fn stale(&self, judged: &Judged, mirror: &[u8]) -> Option<(Section, usize)> {
        let due = judged.due?;
        let counts = self.book.wrong_rows(judged.call.key, mirror);
        counts
            .into_iter()
            .find(|&(section, count)| due & section.bit() != 0 && count != 0)
    }

    /// Whether the running image reads as the model's state: what reading and writing here must
    /// keep for any of it to mean something.
    #[must_use]
    pub fn reads_as_written(&self) -> bool {
        let mut again = vec![0; BYTES];
        Model::read(&self.image).write(&mut again);
        again == self.image && image::reasons(&self.image).is_empty()
    }
}
