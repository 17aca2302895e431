//! How often each call on an image met each refusal, lights were packed for a preview, each reason to refuse an image stood
//! alone, and demand 3's rows were counted.

use cases::call::{NAMES, Name};
use cases::image::REASONS;
use cases::model::refusal::{STATUSES, WRONG_MASK};
use cases::model::{Answer, Output};
use cases::section::{EIGHT, EIGHT_BITS};
use cases::world::Judged;

use crate::report::{Difference, Outcome, Run};

/// The calls that pack lights.
pub const PREVIEWED: [Name; 2] = [Name::FillLights, Name::Refresh];

pub struct Tally {
    /// Calls by name and by status.
    statuses: [[u64; STATUSES]; NAMES.len()],
    /// Those of them that pack lights for a preview, and those where more lights light than it has.
    previewed: [[u64; STATUSES]; PREVIEWED.len()],
    limited: [[u64; STATUSES]; PREVIEWED.len()],
    /// By reason for 9, where it stood alone.
    alone: [u64; REASONS.len()],
    /// Images read in that were not the running one, and overwritings of the mirror.
    read_in: u64,
    overwritten: u64,
    /// Refreshes after which rows were counted, those of them that did not write all eight sections, and the sections
    /// that were let off.
    counted: u64,
    partial: u64,
    let_off: u64,
}

impl Default for Tally {
    fn default() -> Self {
        Self {
            statuses: [[0; STATUSES]; NAMES.len()],
            previewed: [[0; STATUSES]; PREVIEWED.len()],
            limited: [[0; STATUSES]; PREVIEWED.len()],
            alone: [0; REASONS.len()],
            read_in: 0,
            overwritten: 0,
            counted: 0,
            partial: 0,
            let_off: 0,
        }
    }
}

fn wrote_all(answer: &Answer) -> bool {
    matches!(answer, Ok(Output::Refreshed(bits, _)) if *bits == u32::from(EIGHT_BITS))
}

impl Tally {
    pub fn count(&mut self, judged: &Judged) {
        let (call, status) = (&judged.call, judged.status() as usize);
        self.statuses[call.name as usize][status] += 1;
        if call.is_previewed() {
            let at = usize::from(call.name == Name::Refresh);
            self.previewed[at][status] += 1;
            self.limited[at][status] += u64::from(judged.limited);
        }
        if let [reason] = judged.reasons[..] {
            self.alone[reason as usize] += 1;
        }
        self.read_in += u64::from(judged.ran && call.damage.is_some());
        self.overwritten += u64::from(!call.overwrite.is_empty());
        if let Some(due) = judged.due {
            self.counted += 1;
            self.partial += u64::from(!wrote_all(&judged.answer));
            self.let_off += EIGHT.len() as u64 - u64::from(due.count_ones());
        }
    }

    pub fn add(&mut self, other: &Self) {
        let sums = self.statuses.as_flattened_mut().iter_mut();
        let sums = sums
            .chain(self.previewed.as_flattened_mut())
            .chain(self.limited.as_flattened_mut())
            .chain(&mut self.alone);
        let counts = other.statuses.as_flattened().iter();
        let counts = counts
            .chain(other.previewed.as_flattened())
            .chain(other.limited.as_flattened())
            .chain(&other.alone);
        for (sum, count) in sums.zip(counts) {
            *sum += count;
        }
        self.read_in += other.read_in;
        self.overwritten += other.overwritten;
        self.counted += other.counted;
        self.partial += other.partial;
        self.let_off += other.let_off;
    }

    /// Puts the counts into the run's summary.
    pub fn tell(&self, run: &mut Run) {
        let made = NAMES.iter().zip(self.statuses);
        for (name, statuses) in made.filter(|(_, statuses)| *statuses != [0; STATUSES]) {
            for (status, count) in statuses.into_iter().enumerate() {
                run.count(name.form().c_name, status as u32, count);
            }
        }
        for (at, name) in PREVIEWED.into_iter().enumerate() {
            let (all, limited) = (self.previewed[at], self.limited[at]);
            if all != [0; STATUSES] {
                let five = WRONG_MASK as usize;
                run.note(format!(
                    "{} for a preview: {}; accepted {}, refused 5 {}; of these with more than four lights {} and {}",
                    name.form().c_name,
                    all.iter().sum::<u64>(),
                    all[0],
                    all[five],
                    limited[0],
                    limited[five]
                ));
            }
        }
    }

    /// The notes below the table.
    pub fn tell_notes(&self, run: &mut Run) {
        let seed = run.seed;
        run.note(format!(
            "images refused 9 for one reason alone, with seed {seed}:"
        ));
        for ((_, words), count) in REASONS.iter().zip(self.alone) {
            run.note(format!("  {words:<40}{count:>12}"));
        }
        run.note(format!(
            "images read in: {}; overwritings of the mirror: {}",
            self.read_in, self.overwritten
        ));
        self.tell_counted(run);
    }

    /// The note on demand 3.
    pub fn tell_counted(&self, run: &mut Run) {
        run.note(format!(
            "refreshes after which demand 3's rows were counted: {}; not all eight sections written: {}; sections let off: {}",
            self.counted, self.partial, self.let_off
        ));
    }

    /// A status that one of these calls can have and never had; a preview that was not met.
    pub fn unmet(&self, names: &[Name]) -> Outcome {
        for &name in names {
            let form = name.form();
            let met = &self.statuses[name as usize];
            let mut statuses = [0].iter().chain(form.refusals);
            if let Some(status) = statuses.find(|&&status| met[status as usize] == 0) {
                let call = form.c_name;
                return Err(Difference {
                    call,
                    text: format!("{call} never met status {status}: raise --count\n"),
                });
            }
        }
        self.unmet_previews(names)
    }

    /// One of these calls that never packed lights for a preview, or was never refused for their mask, where more of them light
    /// than it has.
    fn unmet_previews(&self, names: &[Name]) -> Outcome {
        for (name, limited) in PREVIEWED.iter().zip(self.limited) {
            let met = limited[0] != 0 && limited[WRONG_MASK as usize] != 0;
            if names.contains(name) && !met {
                let call = name.form().c_name;
                let text = format!(
                    "{call} was never accepted, or never refused 5, for a preview of more than four lights: raise --count\n"
                );
                return Err(Difference { call, text });
            }
        }
        Ok(())
    }

    /// A reason that can stand alone and never did; rows that were never counted.
    pub fn unmet_alone(&self) -> Outcome {
        let mut reasons = REASONS.iter().zip(self.alone);
        let reason = reasons.find(|(_, count)| *count == 0);
        let lacking = match (reason, self.counted) {
            (Some(((_, words), _)), _) => format!("no image was refused for this alone: {words}"),
            (None, 0) => "demand 3's rows were never counted".to_string(),
            (None, _) => return Ok(()),
        };
        Err(Difference {
            call: "an image",
            text: format!("{lacking}: raise --count\n"),
        })
    }
}
