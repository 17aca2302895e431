//! The calls on a state in memory beside the unchanged Rust's, each called as a host calls it; and how the cost of each
//! grows with the lights stored from index 8 on and with the matrices of the palette.

use std::fmt::Write;
use std::hint::black_box;
use std::mem::MaybeUninit;

use mtld3d_types::{D3DLIGHT9, D3DMATERIAL9, D3DMATRIX, D3DTS_VIEW, D3DTS_WORLD};
use original::dxso::{FfVsFlags, FfVsKey};
use original::ff_state::{FfState, FfVsDirty};

use crate::measure::{Times, alternating};
use crate::raw::{self, FfLight};
use crate::refresh::{Mirror, fills};
use crate::scene::{KEY, key, spot, spread};

const ROWS: usize = 1115;
const FLOATS: usize = 4 * ROWS;
/// Players, each with a mirror of its own.
const PLAYERS: usize = 6;
/// Calls of a sample, one after the other.
const CALLS: usize = 1024;
const PALETTE: u32 = 16;

/// The most that ours may take, in times of the Rust's.
const SET: Option<f64> = Some(1.3);
const SIX: Option<f64> = Some(1.6);

/// One state on each side, held in memory, with the same calls made on both.
struct Both {
    ours: Box<raw::FfState>,
    theirs: Box<FfState>,
}

fn accepted(answer: u32) {
    assert_eq!(answer, 0, "a call is refused");
}

/// The light as it lies in memory.
fn light(l: &D3DLIGHT9) -> FfLight {
    let (d, s, a) = (&l.diffuse, &l.specular, &l.ambient);
    FfLight {
        type_: l.type_,
        floats: [
            d.r,
            d.g,
            d.b,
            d.a,
            s.r,
            s.g,
            s.b,
            s.a,
            a.r,
            a.g,
            a.b,
            a.a,
            l.position.x,
            l.position.y,
            l.position.z,
            l.direction.x,
            l.direction.y,
            l.direction.z,
            l.range,
            l.falloff,
            l.attenuation0,
            l.attenuation1,
            l.attenuation2,
            l.theta,
            l.phi,
        ],
    }
}

// Calls of the Rust as a host makes them: not inlined into the loop.
#[inline(never)]
fn set_transform(s: &mut FfState, state: u32, m: &D3DMATRIX) {
    s.set_transform(state, m);
}
#[inline(never)]
fn multiply_transform(s: &mut FfState, state: u32, m: &D3DMATRIX) {
    s.multiply_transform(state, m);
}
#[inline(never)]
fn set_material(s: &mut FfState, m: &D3DMATERIAL9) {
    s.set_material(m);
}
#[inline(never)]
fn set_light_at(s: &mut FfState, index: u32, l: &D3DLIGHT9) {
    s.set_light_at(index, l);
}
#[inline(never)]
fn set_light_enabled_at(s: &mut FfState, index: u32, on: bool) {
    s.set_light_enabled_at(index, on);
}
#[inline(never)]
fn vs_source_light_inputs(s: &FfState) -> u32 {
    s.vs_source_light_inputs()
}
#[inline(never)]
fn fill_palette(s: &FfState, key: &FfVsKey, rows: &mut [MaybeUninit<[f32; 4]>]) {
    s.fill_palette_section(key, rows);
}

impl Both {
    /// Eight spot lights in the slots, and so many lights from index 8 on, all on; the first forty matrices of the palette.
    fn new(overflow: u32) -> Self {
        let mut both = Self {
            ours: Box::new(raw::FfState::ZEROS),
            theirs: Box::new(FfState::new()),
        };
        // SAFETY: here and below the pointers are to a state, to an item and to a number, which outlive the call.
        unsafe { raw::ff_state_fresh(&mut *both.ours) };
        for i in 0..40u8 {
            both.set_transform(D3DTS_WORLD + u32::from(i), &spread(f32::from(i) * 0.25));
        }
        for index in 0..8 + overflow {
            both.set_light(index);
        }
        both
    }

    fn set_transform(&mut self, state: u32, m: &D3DMATRIX) {
        // SAFETY: as above.
        accepted(unsafe { raw::ff_state_set_transform(&mut *self.ours, state, m.m.as_ptr()) });
        self.theirs.set_transform(state, m);
    }

    fn set_light(&mut self, index: u32) {
        // SAFETY: as above.
        accepted(unsafe { raw::ff_state_set_light_at(&mut *self.ours, index, &light(&spot())) });
        // SAFETY: as above.
        accepted(unsafe { raw::ff_state_set_light_enabled_at(&mut *self.ours, index, 1) });
        self.theirs.set_light_at(index, &spot());
        self.theirs.set_light_enabled_at(index, true);
    }

    /// The times of one call on both, made often.
    fn calls(
        &mut self,
        mut ours: impl FnMut(&mut raw::FfState, usize) -> u32,
        mut theirs: impl FnMut(&mut FfState, usize),
    ) -> Times {
        alternating(
            CALLS,
            || (0..CALLS).for_each(|i| accepted(ours(black_box(&mut self.ours), i))),
            || (0..CALLS).for_each(|i| theirs(black_box(&mut self.theirs), i)),
        )
    }

    fn set_transforms(&mut self, states: [u32; 4], ms: &[D3DMATRIX]) -> Times {
        self.calls(
            // SAFETY: as above.
            |s, i| unsafe { raw::ff_state_set_transform(s, states[i % 4], ms[i % 64].m.as_ptr()) },
            |s, i| set_transform(s, states[i % 4], &ms[i % 64]),
        )
    }

    fn multiplies(&mut self) -> Times {
        let m = D3DMATRIX::IDENTITY;
        self.calls(
            // SAFETY: as above.
            |s, i| unsafe {
                raw::ff_state_multiply_transform(s, D3DTS_WORLD + i as u32 % 4, m.m.as_ptr())
            },
            |s, i| multiply_transform(s, D3DTS_WORLD + i as u32 % 4, &m),
        )
    }

    fn set_materials(&mut self) -> Times {
        let mut m = D3DMATERIAL9::default();
        let floats = [0f32; 17];
        self.calls(
            // SAFETY: as above.
            |s, _| unsafe { raw::ff_state_set_material(s, black_box(&floats).as_ptr()) },
            |s, _| set_material(s, black_box(&mut m)),
        )
    }

    fn set_lights(&mut self, index: u32) -> Times {
        let (l, l2) = (light(&spot()), spot());
        self.calls(
            // SAFETY: as above.
            |s, _| unsafe { raw::ff_state_set_light_at(s, index, black_box(&l)) },
            |s, _| set_light_at(s, index, black_box(&l2)),
        )
    }

    fn enables(&mut self, index: u32) -> Times {
        self.calls(
            // SAFETY: as above.
            |s, i| unsafe { raw::ff_state_set_light_enabled_at(s, index, i as u32 % 2) },
            |s, i| set_light_enabled_at(s, index, i % 2 == 1),
        )
    }

    fn inputs(&mut self) -> Times {
        self.calls(
            |s, _| {
                let mut out = 0;
                // SAFETY: as above.
                let answer = unsafe { raw::ff_state_vs_source_light_inputs(s, &mut out) };
                black_box(out);
                answer
            },
            |s, _| {
                black_box(vs_source_light_inputs(s));
            },
        )
    }

    /// One refresh of ours, of what is dirty, into a mirror.
    fn refresh(s: &mut raw::FfState, key: [u8; 8], mirror: &mut [f32]) -> u32 {
        let [rhw, lit, specular, indexed, preview, mask, fog, count] = key;
        let mut bits = 0;
        let (to, len) = (mirror.as_mut_ptr(), mirror.len());
        // SAFETY: as above; the pointer goes with the slice's length.
        accepted(unsafe {
            raw::ff_state_refresh(
                s, rhw, lit, specular, indexed, preview, mask, fog, count, to, len, &mut bits,
            )
        });
        bits
    }

    /// Six refreshes of the palette, each into a mirror of its own, beside six fills.
    fn six(&mut self, key: &FfVsKey, numbers: [u8; 8], matrices: usize, cleared: bool) -> Times {
        let mut a = vec![0f32; PLAYERS * FLOATS];
        let mut b = vec![[MaybeUninit::new([0f32; 4]); ROWS]; PLAYERS];
        Self::refresh(&mut self.ours, numbers, &mut a[..FLOATS]);
        self.theirs.take_ff_vs_dirty();
        let times = alternating(
            1,
            || {
                for mirror in a.chunks_exact_mut(FLOATS) {
                    if cleared {
                        black_box(&mut *mirror).fill(0.0);
                    }
                    let s = black_box(&mut *self.ours);
                    // SAFETY: as above.
                    accepted(unsafe { raw::ff_state_mark_ff_vs_dirty(s, PALETTE) });
                    assert_eq!(
                        Self::refresh(s, numbers, mirror),
                        PALETTE,
                        "other bits are dirty"
                    );
                }
            },
            || {
                for mirror in &mut b {
                    if cleared {
                        black_box(&mut *mirror).fill(MaybeUninit::new([0.0; 4]));
                    }
                    let s = black_box(&mut *self.theirs);
                    s.mark_ff_vs_dirty(FfVsDirty::PALETTE);
                    s.take_ff_vs_dirty();
                    fill_palette(s, key, &mut mirror[95..95 + 4 * matrices]);
                }
            },
        );
        for (ours, theirs) in a.chunks_exact(FLOATS).zip(&b) {
            assert!(
                ours[380..][..16 * matrices] == floats(theirs)[380..][..16 * matrices],
                "the mirrors differ"
            );
        }
        times
    }

    /// All sections dirty, into one mirror.
    fn all(&mut self, key: &FfVsKey) -> Times {
        let mut a = vec![0f32; FLOATS];
        let mut b = [MaybeUninit::new([0f32; 4]); ROWS];
        let times = alternating(
            1,
            || {
                let s = black_box(&mut *self.ours);
                // SAFETY: as above.
                accepted(unsafe { raw::ff_state_mark_ff_vs_dirty(s, 255) });
                Self::refresh(s, KEY, black_box(&mut a));
            },
            || {
                let s = black_box(&mut *self.theirs);
                s.mark_ff_vs_dirty(FfVsDirty::all());
                fills(s, key, black_box(&mut b));
            },
        );
        assert!(a == floats(&b), "the mirrors differ");
        times
    }

    fn nothing(&mut self, key: &FfVsKey) -> Times {
        let mut a = vec![0f32; FLOATS];
        let mut b = [MaybeUninit::new([0f32; 4]); ROWS];
        Self::refresh(&mut self.ours, KEY, &mut a);
        self.theirs.take_ff_vs_dirty();
        alternating(
            1,
            || {
                Self::refresh(black_box(&mut *self.ours), KEY, black_box(&mut a));
            },
            || fills(black_box(&mut *self.theirs), key, black_box(&mut b)),
        )
    }
}

fn floats(mirror: &Mirror) -> Vec<f32> {
    // SAFETY: every row was a value from the start.
    mirror
        .iter()
        .flat_map(|row| unsafe { row.assume_init() })
        .collect()
}

/// Call, loop, bound and times, for the table.
pub fn times() -> Vec<(&'static str, &'static str, Option<f64>, Times)> {
    let ms: Vec<D3DMATRIX> = (0..64u8).map(|i| spread(f32::from(i) * 0.25)).collect();
    let key = key();
    let palette = [0, 1, 2, 3].map(|i| D3DTS_WORLD + i);
    let mut s = Both::new(0);
    let mut o = Both::new(8);
    vec![
        (
            "set_transform",
            "in memory, palette",
            SET,
            s.set_transforms(palette, &ms),
        ),
        (
            "set_transform",
            "in memory, view",
            SET,
            s.set_transforms([D3DTS_VIEW; 4], &ms),
        ),
        (
            "multiply_transform",
            "in memory, palette",
            None,
            s.multiplies(),
        ),
        ("set_material", "in memory", None, s.set_materials()),
        ("set_light_at", "in memory, a slot", None, s.set_lights(3)),
        (
            "set_light_at",
            "in memory, an overflow light",
            None,
            o.set_lights(9),
        ),
        (
            "set_light_enabled_at",
            "in memory, a slot",
            None,
            s.enables(3),
        ),
        (
            "set_light_enabled_at",
            "in memory, an overflow light",
            None,
            o.enables(9),
        ),
        (
            "vs_source_light_inputs",
            "in memory, slots alone",
            None,
            Both::new(0).inputs(),
        ),
        (
            "vs_source_light_inputs",
            "in memory, eight overflow lights",
            None,
            Both::new(8).inputs(),
        ),
        (
            "refresh",
            "in memory, nothing dirty",
            None,
            Both::new(0).nothing(&key),
        ),
        ("refresh", "in memory, all", None, Both::new(0).all(&key)),
        (
            "six refreshes of 40",
            "in memory, mirrors as they are",
            SIX,
            Both::new(0).six(&key, KEY, 40, false),
        ),
        (
            "six refreshes of 40",
            "in memory, mirrors cleared",
            SIX,
            Both::new(0).six(&key, KEY, 40, true),
        ),
    ]
}

/// Overflow lights and palette matrices at which the growth is measured.
const LIGHTS: [u32; 8] = [0, 8, 16, 24, 32, 40, 48, 56];
const MATRICES: [u8; 8] = [1, 5, 10, 15, 20, 25, 30, 40];

struct Growth {
    call: &'static str,
    points: Vec<(u32, Times)>,
}

fn growths() -> Vec<Growth> {
    let over = |call, time: fn(&mut Both) -> Times| Growth {
        call,
        points: LIGHTS
            .iter()
            .map(|&n| (n, time(&mut Both::new(n))))
            .collect(),
    };
    vec![
        over("set_light_at, the last light", |both| {
            both.set_lights(7 + LIGHTS[7])
        }),
        over("set_light_enabled_at, light 8", |both| both.enables(8)),
        over("vs_source_light_inputs", Both::inputs),
        over("refresh, all sections", |both| both.all(&key())),
        Growth {
            call: "refresh, the palette alone, by matrices",
            points: MATRICES
                .iter()
                .map(|&n| {
                    let mut key = key();
                    let mut numbers = KEY;
                    if n < 40 {
                        key.flags = FfVsFlags::LIGHTING_ENABLED | FfVsFlags::SPECULAR_ENABLE;
                        numbers[3] = 0;
                    }
                    key.vertex_blend_count = n;
                    numbers[7] = n;
                    let six = Both::new(0).six(&key, numbers, usize::from(n), false);
                    let one = |t: f64| t / PLAYERS as f64;
                    (
                        u32::from(n),
                        Times {
                            ours: one(six.ours),
                            theirs: one(six.theirs),
                        },
                    )
                })
                .collect(),
        },
    ]
}

/// Prints a table of the growth, and draws it to the file.
pub fn growth(svg: &str) -> std::io::Result<()> {
    let growths = growths();
    println!("| call | at | ours, ns | Rust, ns |");
    println!("|---|---:|---:|---:|");
    for growth in &growths {
        for (n, times) in &growth.points {
            println!(
                "| {} | {n} | {:.1} | {:.1} |",
                growth.call, times.ours, times.theirs
            );
        }
    }
    std::fs::write(svg, drawn(&growths))
}

/// A panel for each call: ours drawn, the Rust dashed, over the number of lights or matrices.
fn drawn(growths: &[Growth]) -> String {
    const WIDTH: f64 = 300.0;
    const HEIGHT: f64 = 190.0;
    const LEFT: f64 = 50.0;
    const TOP: f64 = 26.0;
    let mut svg = String::new();
    let total = HEIGHT * growths.len().div_ceil(2) as f64;
    let _ = writeln!(
        svg,
        "<svg xmlns=\"http://www.w3.org/2000/svg\" width=\"{}\" height=\"{total}\" font-family=\"sans-serif\" font-size=\"10\">",
        2.0 * WIDTH
    );
    let _ = writeln!(svg, "<rect width=\"100%\" height=\"100%\" fill=\"white\"/>");
    for (at, growth) in growths.iter().enumerate() {
        let (x0, y0) = (WIDTH * (at % 2) as f64, HEIGHT * (at / 2) as f64);
        let most = growth
            .points
            .iter()
            .map(|(_, t)| t.ours.max(t.theirs))
            .fold(1.0, f64::max);
        let last = f64::from(growth.points.last().map_or(1, |p| p.0));
        let (w, h) = (WIDTH - LEFT - 20.0, HEIGHT - TOP - 34.0);
        let x = |n: u32| x0 + LEFT + w * f64::from(n) / last;
        let y = |t: f64| y0 + TOP + h * (1.0 - t / most);
        let _ = writeln!(
            svg,
            "<text x=\"{}\" y=\"{}\" font-size=\"11\">{}</text>",
            x0 + LEFT,
            y0 + 16.0,
            growth.call
        );
        let _ = writeln!(
            svg,
            "<path d=\"M{} {}V{}H{}\" fill=\"none\" stroke=\"#888\"/>",
            x0 + LEFT,
            y0 + TOP,
            y0 + TOP + h,
            x0 + LEFT + w
        );
        for part in [0.0, 0.5, 1.0] {
            let _ = writeln!(
                svg,
                "<text x=\"{}\" y=\"{:.1}\" text-anchor=\"end\">{:.0}</text>",
                x0 + LEFT - 4.0,
                y(most * part) + 3.0,
                most * part
            );
        }
        for (n, _) in &growth.points {
            let _ = writeln!(
                svg,
                "<text x=\"{:.1}\" y=\"{}\" text-anchor=\"middle\">{n}</text>",
                x(*n),
                y0 + TOP + h + 12.0
            );
        }
        let _ = writeln!(
            svg,
            "<text x=\"{}\" y=\"{}\">ns a call; drawn ours, dashed the Rust</text>",
            x0 + LEFT,
            y0 + TOP + h + 26.0
        );
        let line = |of: fn(&Times) -> f64| {
            let points: Vec<String> = growth
                .points
                .iter()
                .map(|(n, t)| format!("{:.1},{:.1}", x(*n), y(of(t))))
                .collect();
            points.join(" ")
        };
        let _ = writeln!(
            svg,
            "<polyline points=\"{}\" fill=\"none\" stroke=\"#b03a2e\" stroke-width=\"1.5\"/>",
            line(|t| t.ours)
        );
        let _ = writeln!(
            svg,
            "<polyline points=\"{}\" fill=\"none\" stroke=\"#1f4e79\" stroke-width=\"1.5\" stroke-dasharray=\"4 3\"/>",
            line(|t| t.theirs)
        );
    }
    svg.push_str("</svg>\n");
    svg
}
