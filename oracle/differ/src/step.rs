//! One call on both sides: our library beside document 01's host over the unchanged Rust.

use cases::call::Call;
use cases::damage::patch;
use cases::world::{Judged, World};

use crate::guarded::Guarded;
use crate::handed::{Handed, unlike_image};
use crate::host::{Host, Lent};
use crate::memory::{Memory, Unlike};

/// The running image and the running mirror, and a state and its mirror in memory, ours beside the world's, which they are like
/// until a call differs.
pub struct Pair {
    host: Host,
    world: World,
    image: Guarded,
    mirror: Guarded,
    memory: Memory,
}

impl Pair {
    /// `shift` moves the slices off alignment.
    pub fn fresh(host: Host, shift: usize) -> Self {
        let world = World::fresh();
        Self {
            host,
            image: Guarded::holding(world.image(), shift),
            mirror: Guarded::holding(world.mirror(), shift / 4),
            memory: Memory::fresh(host.bend),
            world,
        }
    }

    /// Makes one call on both sides. The answer says what is unlike.
    pub fn step(&mut self, call: &Call, shift: usize) -> (Judged, Option<Unlike>) {
        let mut damaged = call.damage.as_ref().map(|damage| {
            let mut bytes = self.world.image().to_vec();
            damage.apply(&mut bytes);
            Guarded::holding(&bytes, shift)
        });
        let before = damaged.clone();
        let judged = self.world.judge(call, before.as_ref().map(Guarded::slice));
        patch(&call.overwrite, self.mirror.slice_mut());
        let mut handed = Handed::new(&judged.call, &self.mirror, shift);
        let expected = handed.clone().answered(&judged.answer);

        let image = damaged.as_mut().unwrap_or(&mut self.image);
        let status = self.host.call(
            &judged.call,
            Lent {
                image: image.slice_mut(),
                given: handed.given.slice(),
                out: handed.out.slice_mut(),
                number: &mut handed.numbers[1],
            },
        );

        let expected_image = match &before {
            Some(before) if !judged.ran => before.slice(),
            _ => self.world.image(),
        };
        let found = if status != judged.status() {
            let expected = judged.status();
            Some(format!("status: expected {expected}, ours {status}"))
        } else {
            let stale = stale(&self.world, &judged, &handed);
            stale
                .or_else(|| unlike_image(image, expected_image))
                .or_else(|| handed.unlike(&expected))
        };
        if let Some(damaged) = damaged
            && judged.ran
        {
            self.image = damaged;
        }
        if judged.call.lends_mirror() {
            self.mirror = handed.out;
        }
        let found = match found {
            Some(what) => Err(Unlike {
                call: judged.call.name.form().c_name,
                what,
            }),
            None => {
                let given = before.as_ref().map(Guarded::slice);
                self.memory.step(&judged, given, &self.world)
            }
        };
        (judged, found.err())
    }

    /// What the world must keep for any of it to mean something.
    pub fn reads_as_written(&self) -> bool {
        self.world.reads_as_written()
    }
}

/// Demand 3's count, on our mirror, where it is due and not 0.
fn stale(world: &World, judged: &Judged, handed: &Handed) -> Option<String> {
    let (section, count) = world.stale(judged, handed.out.slice())?;
    Some(format!("{count} rows of {section:?} are not the book's"))
}
