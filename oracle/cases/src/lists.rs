//! Lists of calls, made from a seed.

mod damages;
mod draws;
mod values;

use crate::call::{Call, Gives, Length, MATERIAL, NAMES, Name};
use crate::damage::Damage;
use crate::image::ROOM;
use crate::key::Key;
use crate::lengths::wrong_length;
use crate::random::Random;

/// Calls of a list.
pub const LENGTH: usize = 100;
/// How many of the last changes may be made again.
const MEMORY: usize = 6;

const CHANGES: [Name; 5] = [
    Name::SetTransform,
    Name::MultiplyTransform,
    Name::SetMaterial,
    Name::SetLightAt,
    Name::SetLightEnabledAt,
];
/// Document 02, T-05.
const SETTERS: [Name; 5] = [
    Name::SetFogStart,
    Name::SetFogEnd,
    Name::SetFogDensity,
    Name::SetAmbient,
    Name::SetTextureMask,
];

/// What the calls of one list have in common.
struct List<'a> {
    random: &'a mut Random,
    /// Light indices of 8 or more.
    pool: Vec<u32>,
    /// How many of them are lit at the start.
    lit: usize,
    /// One call in so many is given a damaged image.
    damage: u32,
    /// The last changes, the last of all at the end.
    changes: Vec<Call>,
    /// The key of the refreshes, and whether its mask is the state's own, without some bits.
    key: Key,
    own_mask: Option<u8>,
    /// The texture mask that was set last.
    texture_mask: u8,
    /// Whether the list keeps to demand 3's conditions mostly: no takes, and marks where they are owed.
    keeps: bool,
    /// The sections to be marked before the next refresh.
    owed: u8,
}

impl<'a> List<'a> {
    fn new(random: &'a mut Random, pool: Vec<u32>) -> Self {
        let mut list = Self {
            random,
            pool,
            lit: 0,
            damage: 1,
            changes: Vec::new(),
            key: Key::default(),
            own_mask: None,
            texture_mask: 0,
            keeps: true,
            owed: 0,
        };
        list.change_key();
        list
    }
}

/// The list with this number.
#[must_use]
pub fn list(seed: u64, number: u64) -> Vec<Call> {
    let mut random = Random::of_input(seed, number);
    let size = random.pick(&[1, 2, 5, 9, 20, ROOM, ROOM + 1, ROOM + 10]);
    let mut pool = Vec::new();
    while pool.len() < size {
        let index = overflow_index(&mut random);
        if !pool.contains(&index) {
            pool.push(index);
        }
    }
    let lit = random.pick(&[0, 0, size]);
    let damage = random.pick(&[3, 8, 30, 100]);
    let keeps = !random.chance(3);
    let list = List::new(&mut random, pool);
    let mut list = List {
        lit,
        damage,
        keeps,
        owed: 0,
        ..list
    };
    let mut calls: Vec<Call> = (0..LENGTH).map(|at| list.call(at)).collect();
    calls[0].overwrite = list.whole_mirror();
    calls
}

/// A damage by itself, for a state with few lights from index 8 on.
#[must_use]
pub fn damage(random: &mut Random) -> Damage {
    List::new(random, vec![8, 9, 70]).damage()
}

fn overflow_index(random: &mut Random) -> u32 {
    match random.below(6) {
        0 | 1 => 8 + random.below(120),
        2 => random.pick(&[8, 9, 15, 16, 255, 256, 264, 65_536, 65_544, 0x8000_0000]),
        3 => u32::MAX - random.below(3),
        _ => random.word().max(8),
    }
}

impl List<'_> {
    fn call(&mut self, at: usize) -> Call {
        let begun = at >= self.lit;
        let mut call = match begun.then(|| self.again()).flatten() {
            Some(call) => call,
            None => {
                let name = self.name(at);
                self.named(name, at)
            }
        };
        self.remember(&call);
        if self.random.chance(10) {
            call.overwrite = self.overwriting();
        }
        if begun && self.random.chance(self.damage) {
            call.damage = Some(self.damage());
            self.owe();
        }
        call
    }

    /// Calls on lights fill the table first; afterwards all calls, those that empty a state seldom.
    fn name(&mut self, at: usize) -> Name {
        if at < self.lit {
            return self
                .random
                .pick(&[Name::SetLightAt, Name::SetLightEnabledAt]);
        }
        match self.random.below(18) {
            0..5 => self.random.pick(&CHANGES),
            5..7 => self.random.pick(&SETTERS),
            7..11 => Name::Refresh,
            11 => Name::MarkFfVsDirty,
            12 if !self.keeps => Name::TakeFfVsDirty,
            _ => match self.random.pick(NAMES) {
                Name::ImageFresh if !self.random.chance(4) => Name::SetLightAt,
                Name::TakeFfVsDirty if self.keeps => Name::Refresh,
                name => name,
            },
        }
    }

    fn named(&mut self, name: Name, at: usize) -> Call {
        if name == Name::Refresh {
            return match self.marking() {
                Some(mark) => mark,
                None => self.refresh(),
            };
        }
        let mut call = Call::plain(name);
        if name.takes_key() {
            self.put_key(&mut call);
        }
        if name.takes_number() {
            call.number = match name {
                Name::SetTransform | Name::MultiplyTransform | Name::Transform => self.state(),
                Name::MarkFfVsDirty => self.bits(),
                Name::SetFogStart | Name::SetFogEnd | Name::SetFogDensity => self.float(),
                Name::SetAmbient => self.color(),
                Name::SetTextureMask => self.texture_mask(),
                _ if at < self.lit => self.pool[at],
                _ => self.index(),
            };
        }
        if name == Name::SetLightEnabledAt {
            call.enabled = self.number();
        }
        call.given = match name {
            Name::SetTransform | Name::MultiplyTransform => self.matrix(),
            Name::SetMaterial => self.floats(MATERIAL),
            Name::SetLightAt => self.light(),
            _ => Vec::new(),
        };
        self.mislay_lengths(&mut call);
        call
    }

    /// The right length mostly.
    fn mislay_lengths(&mut self, call: &mut Call) {
        let form = call.name.form();
        if let Some(bytes) = form.takes
            && self.random.chance(6)
        {
            call.given.resize(wrong_length(self.random, bytes), 0);
        }
        if matches!(form.gives, Gives::Item(_) | Gives::Fill(_) | Gives::Mirror)
            && self.random.chance(8)
        {
            call.lent = Length::Bytes(wrong_length(self.random, call.right_length()));
        }
    }

    fn remember(&mut self, call: &Call) {
        let changes = CHANGES.contains(&call.name) || SETTERS.contains(&call.name);
        let sets = changes && call.name != Name::MultiplyTransform;
        if sets && !call.has_wrong_length() {
            if self.changes.len() == MEMORY {
                self.changes.remove(0);
            }
            self.changes.push(call.clone());
        }
        if call.name == Name::SetTextureMask {
            self.texture_mask = call.number as u8;
        }
        // What is lit may change, and the state's own mask with it.
        if matches!(call.name, Name::SetLightAt | Name::SetLightEnabledAt) && self.random.chance(2)
        {
            self.owe();
        }
    }

    /// One of the last changes once more, the last of all mostly: what is stored is set again.
    fn again(&mut self) -> Option<Call> {
        if self.changes.is_empty() || !self.random.chance(8) {
            return None;
        }
        let last = self.changes.len() - 1;
        let at = if self.random.chance(2) {
            self.random.below(last as u32 + 1) as usize
        } else {
            last
        };
        let call = &self.changes[at];
        Some(Call {
            number: call.number,
            enabled: call.enabled,
            given: call.given.clone(),
            ..Call::plain(call.name)
        })
    }
}
