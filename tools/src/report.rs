//! `calls-replay`: a list replayed, the counts after each accepted refresh, and the first wrong row explained.

use std::fmt::Write as _;
use std::path::Path;

use crate::blame::{blame, told};
use crate::check::{read_image, read_mirror};
use crate::command::{Args, Found, read_list, read_short, write};
use crate::compare::counts;
use crate::explain::{explained, short};
use crate::key;
use crate::list::{self, Call, Line};
use crate::reasons::findings;
use crate::recording::recorded;
use crate::replay::{Event, Refreshed, World};
use crate::sections::SECTIONS;
use crate::show::reason_line;
use crate::track::Broken;
use crate::words::counted;

#[must_use]
pub fn help() -> String {
    format!(
        "\
calls-replay LIST [--image FILE] [--mirror FILE] [--keep-going] [--write-image FILE] [--write-mirror FILE] [--record FILE]

Replays a list of calls on a fresh state and prints, after each accepted refresh, how many rows of each section differ
from a full packing of a plain book that was fed with the calls' arguments only. It stops at the first wrong row and says
since which call it is wrong, and which of demand 3's conditions the list breaks: every section is marked between two
accepted refreshes whose keys differ in a shape field (all but has_rhw), and between the reading in of an image and the
next accepted refresh; refreshes are the only takes; a section that was overwritten is let off until it is marked.
  --image FILE         begins by reading this image in
  --mirror FILE        begins with this mirror; else each float begins as 0xCDCDCDCD
  --keep-going         does not stop at a wrong row
  --write-image FILE   writes the image as it is at the end
  --write-mirror FILE  writes the mirror as it is at the end
  --record FILE        writes the list as the Rust crate's Recorder writes it, numbers and all

{}
{}
Status: 0 every row was right and no condition broken, 1 a wrong row or a broken condition, 2 bad usage or input: nothing
is written then.
",
        list::HELP,
        key::HELP
    )
}

pub fn tool(words: Vec<String>) -> Result<Found, String> {
    let valued = [
        "--image",
        "--mirror",
        "--write-image",
        "--write-mirror",
        "--record",
    ];
    let args = Args::part(words, &["--keep-going"], &valued)?;
    let [path] = args.plain.as_slice() else {
        return Err("write one LIST: calls-replay LIST (--help says more)".into());
    };
    let folder = Path::new(path).parent().unwrap_or(Path::new(""));
    let mut lines = list::read(path, &read_list(Path::new(path))?, |file| {
        read_short(&folder.join(file))
    })?;
    let mut world = World::fresh();
    if let Some(path) = args.value("--mirror") {
        world.mirror = read_mirror(path)?;
    }
    if let Some(path) = args.value("--image") {
        let bytes = read_image(path)?.as_bytes().as_slice().into();
        lines.insert(
            0,
            Line {
                number: 0,
                text: format!("--image {path}"),
                call: Call::ReadIn(bytes),
            },
        );
    }
    let recorded = match args.value("--record") {
        Some(_) => recorded(&lines, &world.mirror)?.0,
        None => Vec::new(),
    };
    let replay = replayed(world, &lines, args.has("--keep-going"))?;
    let mut text = replay.text + "\n";
    for (option, bytes) in [
        ("--write-image", replay.world.image.as_bytes().as_slice()),
        ("--write-mirror", replay.world.mirror.as_bytes().as_slice()),
        ("--record", recorded.as_slice()),
    ] {
        if let Some(path) = args.value(option) {
            write(path, bytes)?;
            let _ = writeln!(text, "written: {path}");
        }
    }
    Ok(Found {
        text: text + &replay.end,
        wrong: replay.wrong,
    })
}

/// A list that was replayed.
pub struct Replayed {
    pub text: String,
    /// What it comes to, and what to do next.
    pub end: String,
    pub wrong: bool,
    pub world: World,
}

#[derive(Default)]
struct Tally {
    made: usize,
    accepted: usize,
    refused: usize,
    broken: usize,
    wrong: usize,
    /// What to do about the first wrong row.
    advice: String,
}

/// Replays the lines, to the first wrong row or to the end.
pub fn replayed(start: World, lines: &[Line], keep_going: bool) -> Result<Replayed, String> {
    let (mut text, mut tally) = (head(), Tally::default());
    let mut world = start.clone();
    // The world right after the last accepted refresh, and the place of the next line.
    let (mut before, mut from) = (start, 0);
    for (place, line) in lines.iter().enumerate() {
        tally.made += 1;
        match world.step(line)? {
            Event::Done => {}
            Event::Refused(refusal) => {
                tally.refused += 1;
                let _ = writeln!(text, "{:>5}  {}: {refusal}", line.number, short(line));
                refused_image(&mut text, line);
            }
            Event::Took(bits) => {
                tally.broken += 1;
                let _ = writeln!(
                    text,
                    "{:>5}  take: condition broken: {}",
                    line.number,
                    told(&Broken::Take { bits })
                );
            }
            Event::Refreshed(refreshed) => {
                tally.accepted += 1;
                table_line(&mut text, line, &refreshed, &world);
                for broken in &refreshed.broken {
                    tally.broken += 1;
                    let _ = writeln!(text, "       condition broken: {}", told(broken));
                }
                if let Some(row) = refreshed.wrong.first() {
                    tally.wrong += 1;
                    if tally.wrong == 1 {
                        let why = blame(&before, &lines[from..place], line, &refreshed.key, row)?;
                        explained(&mut text, lines, line, &refreshed.wrong, row, &why);
                        let advice = why.causes.iter().map(|cause| cause.advice.as_str());
                        tally.advice = advice.collect::<Vec<_>>().join("; ");
                    }
                    if !keep_going {
                        break;
                    }
                }
                (before, from) = (world.clone(), place + 1);
            }
        }
    }
    Ok(Replayed {
        text,
        end: end(&tally, keep_going),
        wrong: tally.wrong + tally.broken > 0,
        world,
    })
}

fn head() -> String {
    let names = SECTIONS.map(|section| format!(" {:>9}", section.name));
    format!(
        "wrong rows / rows of each section, under the refresh's key; + the refresh wrote it, ~ it is let off\n\n line  {}\n",
        names.concat()
    )
}

fn table_line(text: &mut String, line: &Line, refreshed: &Refreshed, world: &World) {
    let wrong = counts(&refreshed.wrong);
    let cells = std::array::from_fn::<_, 8, _>(|i| {
        let written = if refreshed.bits & SECTIONS[i].bit != 0 {
            "+"
        } else {
            ""
        };
        let hit = if world.track.hit[i].is_some() {
            "~"
        } else {
            ""
        };
        format!(
            " {:>9}",
            format!("{}/{}{written}{hit}", wrong[i], refreshed.rows[i])
        )
    });
    let _ = writeln!(text, "{:>5}  {}", line.number, cells.concat());
}

/// Why an image that was to be read in is none.
fn refused_image(text: &mut String, line: &Line) {
    if let Call::ReadIn(bytes) = &line.call {
        for finding in findings(bytes).iter().take(3) {
            let _ = writeln!(text, "       {}", reason_line(finding));
        }
    }
}

fn end(tally: &Tally, keep_going: bool) -> String {
    let verdict = if tally.wrong > 0 {
        let seen = if keep_going {
            "Rows were wrong, the first is explained above."
        } else {
            "Stopped at the first wrong row."
        };
        format!("{seen}\nNext: {}.", tally.advice)
    } else if tally.broken > 0 {
        "No row was wrong, but the list breaks demand 3's conditions: with other values rows can go stale.\nNext: mark what is named above.".into()
    } else if tally.accepted == 0 {
        "No refresh was accepted, so nothing was compared.".into()
    } else {
        "Every row was right after each accepted refresh, and the list keeps demand 3's conditions."
            .into()
    };
    format!(
        "{} made, {} of them refused; {} accepted. {verdict}\n",
        counted(tally.made, "call"),
        tally.refused,
        counted(tally.accepted, "refresh")
    )
}
