//! Light directions, eight lights a refresh on a state in memory: our rows beside the unchanged Rust's, in which the definition's
//! directions stand, read in exact fractions, where document 02 (T-04) leaves the Rust no oracle. Elsewhere the fractions must
//! agree with the Rust.

use cases::direction_inputs::{BATCH, VIEWS, batch, edges};
use cases::directions::{Direction, Rule, unit};
use cases::eight::{Eight, KEY, Rows};
use cases::floats::{INFINITY, SIGN, is_zero, with_one_nan};
use cases::image::SLOTS;
use cases::section::{LIGHT_ROWS, MIRROR, Section};
use cases::seen::{AS_BEFORE, Border, INSIDE, OUTSIDE, Seen};

use crate::bends::Bend;
use crate::host::Host;
use crate::raw::{self, FfLight, FfState};
use crate::report::{self, Difference, Outcome, Run};
use crate::shrink::shrink;
use crate::workers::first_failing;

const CALL: &str = "ff_state_refresh";
const FLOATS: usize = MIRROR / 4;
const VIEW: u32 = 2;
/// Where a direction stands among the floats of a light.
const DIRECTION: usize = 15;

/// How the summary calls the directions of each `Rule`, in its order, and their borders.
const RULES: [(&str, &[Border]); 3] = [
    ("directions, the Rust's", INSIDE),
    ("directions, others", OUTSIDE),
    ("with NaN or infinity", AS_BEFORE),
];

/// How many directions of each rule were compared, and how many of them stood at each of its borders.
#[derive(Default)]
struct Tally {
    compared: [u64; RULES.len()],
    met: [Vec<u64>; RULES.len()],
    /// Those of which the Rust packs another thing than the definition.
    parted: u64,
}

impl Tally {
    fn count(&mut self, seen: &Seen, parted: bool) {
        self.parted += u64::from(parted);
        let rule = seen.rule as usize;
        let (_, borders) = RULES[rule];
        self.compared[rule] += 1;
        let met = &mut self.met[rule];
        met.resize(borders.len(), 0);
        for (count, border) in met.iter_mut().zip(borders) {
            *count += u64::from((border.met)(seen));
        }
    }

    fn add(&mut self, other: &Self) {
        self.parted += other.parted;
        for rule in 0..RULES.len() {
            self.compared[rule] += other.compared[rule];
            let (met, more) = (&mut self.met[rule], &other.met[rule]);
            met.resize(met.len().max(more.len()), 0);
            for (sum, count) in met.iter_mut().zip(more) {
                *sum += count;
            }
        }
    }
}

/// Eight lights, ours in a state in memory beside the Rust's.
struct Pair {
    state: Box<FfState>,
    mirror: Box<[u32; FLOATS]>,
    rust: Eight,
    tally: Tally,
}

impl Default for Pair {
    fn default() -> Self {
        let mut pair = Self {
            state: Box::new(FfState::ZEROS),
            mirror: Box::new([0; FLOATS]),
            rust: Eight::default(),
            tally: Tally::default(),
        };
        // SAFETY: here and below the pointer is to memory of a state's size, which outlives the call.
        unsafe { raw::ff_state_fresh(&mut *pair.state) };
        for index in 0..SLOTS as u32 {
            // SAFETY: as above.
            let status = unsafe { raw::ff_state_set_light_enabled_at(&mut *pair.state, index, 1) };
            assert_eq!(status, 0, "a slot has room");
        }
        pair
    }
}

impl Pair {
    fn set_view(&mut self, number: usize) {
        let view = &VIEWS[number];
        self.rust.set_view(view);
        let floats = view.map(f32::from_bits);
        // SAFETY: as above; a matrix is 16 floats.
        let status =
            unsafe { raw::ff_state_set_transform(&mut *self.state, VIEW, floats.as_ptr()) };
        assert_eq!(status, 0, "the view is a known state");
    }

    /// Our rows of lights with these directions, or the refresh's status or bits where they are wrong.
    fn ours(&mut self, directions: &[Direction; SLOTS]) -> Result<[Rows; SLOTS], String> {
        for (index, d) in (0..).zip(directions) {
            let mut light = FfLight {
                type_: 3,
                floats: [0.0; 25],
            };
            light.floats[DIRECTION..DIRECTION + 3].copy_from_slice(&d.map(f32::from_bits));
            // SAFETY: as above, and the light is apart.
            let status = unsafe { raw::ff_state_set_light_at(&mut *self.state, index, &light) };
            assert_eq!(status, 0, "a slot has room");
        }
        let [a, b, c, d, e, f, g, h] = KEY.fields();
        let (mirror, mut bits) = (self.mirror.as_mut_ptr(), 0);
        let s = &mut *self.state;
        // SAFETY: as above; the mirror has as many words, each a float by its bits.
        let status = unsafe {
            raw::ff_state_refresh(s, a, b, c, d, e, f, g, h, mirror.cast(), FLOATS, &mut bits)
        };
        if status != 0 || bits & u32::from(Section::Lights.bit()) == 0 {
            return Err(format!("status {status}, bits {bits}"));
        }
        let rows = &self.mirror.as_chunks::<4>().0[Section::Lights.first_row()..];
        Ok(core::array::from_fn(|light| {
            core::array::from_fn(|row| rows[LIGHT_ROWS * light + row].map(with_one_nan))
        }))
    }

    /// What is unlike in a refresh with these directions, and in which light.
    fn unlike(&mut self, host: Host, directions: &[Direction; SLOTS]) -> Option<(usize, String)> {
        let mut ours = match self.ours(directions) {
            Ok(rows) => rows,
            Err(what) => return Some((0, format!("  {what}\n"))),
        };
        let rust = self.rust.rows(directions);
        (0..SLOTS).find_map(|light| {
            let seen = Seen::new(self.rust.in_view(directions[light]));
            let (unit, rust, ours) = (unit(seen.direction), &rust[light], &mut ours[light]);
            self.tally.count(&seen, packed(rust) != unit);
            bend(host.bend, &seen, rust, ours);
            let what = unlike(&seen, unit, rust, ours)?;
            Some((light, what))
        })
    }
}

/// The packed direction of a light.
fn packed(rows: &Rows) -> Direction {
    let [x, y, z, _] = rows[1];
    [x, y, z]
}

/// What is unlike in our rows of a light; `unit` is its direction in exact fractions.
fn unlike(seen: &Seen, unit: Direction, rust: &Rows, ours: &Rows) -> Option<String> {
    let mut expected = *rust;
    if seen.rule == Rule::Definition {
        expected[1][..3].copy_from_slice(&unit);
    }
    if expected == *ours && packed(&expected) == unit {
        return None;
    }
    let mut text = report::floats("seen", &seen.direction);
    text += &report::floats("the Rust", &packed(rust));
    text += &report::floats("exact", &unit);
    text += &report::floats("ours", &packed(ours));
    if packed(&expected) != unit {
        text += "  the fractions are not the Rust, where it rules\n";
    }
    let other = (0..LIGHT_ROWS).find(|&row| row != 1 && expected[row] != ours[row]);
    if let Some(row) = other {
        text += &format!("  row {row} of the light is another too\n");
    }
    Some(text)
}

/// Bends what a refresh left of one light.
fn bend(bend: Option<Bend>, seen: &Seen, rust: &Rows, ours: &mut Rows) {
    let unit = &mut ours[1][..3];
    match bend {
        Some(Bend::DirectionUnscaled) => unit.copy_from_slice(&packed(rust)),
        Some(Bend::DirectionLastBit) if !is_zero(unit[2]) => unit[2] ^= 1,
        Some(Bend::DirectionZeroSign) => {
            for x in unit.iter_mut().filter(|x| **x == SIGN) {
                *x = 0;
            }
        }
        // Small components are dropped where they are not normal.
        Some(Bend::DirectionFlushed) if seen.rule == Rule::Definition => {
            for x in unit.iter_mut().filter(|x| **x & INFINITY == 0) {
                *x &= SIGN;
            }
        }
        _ => {}
    }
}

/// A batch: its view, and whether it is one of the edges, or else its number among those inside or outside the domain.
#[derive(Clone, Copy)]
struct Batch {
    view: usize,
    drawn: Option<(u64, bool)>,
}

impl Batch {
    fn numbered(number: u64) -> Self {
        let edges = VIEWS.len() as u64;
        let Some(number) = number.checked_sub(edges) else {
            return Self {
                view: number as usize,
                drawn: None,
            };
        };
        let (number, inside) = (number / 2, number % 2 == 0);
        // The other two views are of directions that overflow.
        let view = match number % 8 {
            other @ (2 | 3) if !inside => other,
            other => other % 2,
        };
        Self {
            view: view as usize,
            drawn: Some((number, inside)),
        }
    }

    fn directions(self, seed: u64, rust: &Eight) -> Vec<Direction> {
        match self.drawn {
            None => edges(),
            Some((number, inside)) => batch(seed, number, inside, rust),
        }
    }

    /// The first refresh that is unlike.
    fn run(self, seed: u64, host: Host, pair: &mut Pair) -> Option<[Direction; SLOTS]> {
        pair.set_view(self.view);
        let directions = self.directions(seed, &pair.rust);
        let mut eights = directions.as_chunks().0.iter();
        eights
            .find(|eight| pair.unlike(host, eight).is_some())
            .copied()
    }
}

fn difference(seed: u64, host: Host, number: u64) -> Difference {
    let batch = Batch::numbered(number);
    let mut pair = Pair::default();
    let eight = batch.run(seed, host, &mut pair);
    let eight = eight.expect("the batch is unlike each time that it is made");
    let (light, _) = pair.unlike(host, &eight).expect("as above");
    let alone = |d: &Direction| {
        let mut eight = [[0; 3]; SLOTS];
        eight[light] = *d;
        let mut pair = Pair::default();
        pair.set_view(batch.view);
        pair.unlike(host, &eight).map(|(_, what)| what)
    };
    let mut text = format!(
        "difference: {CALL}, seed {seed}, directions, batch {number}, view {}, light {light}; ",
        batch.view
    );
    // Alone it may be like the Rust's: then the eight are told as they are.
    if alone(&eight[light]).is_some() {
        let least = shrink(eight[light], |d| alone(d).is_some());
        text += "smallest:\n";
        text += &report::floats("given", &least);
        text += &alone(&least).expect("a direction that fails was kept");
    } else {
        text += "with the others only:\n";
        text += &report::floats("eight", eight.as_flattened());
    }
    Difference { call: CALL, text }
}

/// The edges under each view, then at least `count` directions of the domain and as many outside.
pub fn directions(run: &mut Run, host: Host, count: u64) -> Outcome {
    let seed = run.seed;
    let batches = VIEWS.len() as u64 + 2 * count.div_ceil(BATCH as u64);
    let passes = |number: u64, pair: &mut Pair| {
        let batch = Batch::numbered(number);
        batch.run(seed, host, pair).is_none()
    };
    let (failing, pairs) = first_failing(run, "directions", batches, BATCH as u64, passes);
    let mut tally = Tally::default();
    for pair in &pairs {
        tally.add(&pair.tally);
    }
    tell(&tally, run);
    match failing {
        Some(number) => Err(difference(seed, host, number)),
        None => unmet(&tally),
    }
}

fn tell(tally: &Tally, run: &mut Run) {
    for (at, (words, borders)) in RULES.into_iter().enumerate() {
        run.count(words, 0, tally.compared[at]);
        run.note(format!("{words}, at borders:"));
        for (border, count) in borders.iter().zip(&tally.met[at]) {
            run.note(format!("  {:<48}{count:>12}", border.words));
        }
    }
    run.note(format!(
        "directions that the Rust packs otherwise: {}",
        tally.parted
    ));
}

/// A border at which no direction stood.
fn unmet(tally: &Tally) -> Outcome {
    for (at, (words, borders)) in RULES.into_iter().enumerate() {
        let count = |border: usize| tally.met[at].get(border).copied().unwrap_or(0);
        if let Some(border) = (0..borders.len()).find(|&border| count(border) == 0) {
            let lacking = borders[border].words;
            return Err(Difference {
                call: CALL,
                text: format!("{words}: none at this border: {lacking}\n"),
            });
        }
    }
    Ok(())
}
