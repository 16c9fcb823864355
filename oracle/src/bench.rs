//! The time of every stage and of the program `select`, as a ratio to the published Rust's on the
//! same feeds in the same run. Above 1 the library is the slower one. A frame has a ratio to the
//! library's own six calls too, the dispatcher to the library's own searches, and the watched gain
//! stage to the library's own stage. Below the table is how many calls one core carries.

mod dispatch;
mod frames;
mod programs;
pub mod rival;
mod stages;

use crate::{
    feed::{self, Record},
    selection::{changed, drawn_speech},
};
use std::{fs, io};

const SAMPLE: &str = concat!(env!("CARGO_MANIFEST_DIR"), "/../samples/speech.feed");

/// The records that are drawn.
const DRAWN: u64 = 4_000;

/// A feed whose records the stages are timed on.
struct Feed {
    name: &'static str,
    records: Vec<Record>,
}

/// The sample, records that are drawn, and the sample at full scale, where sums clip.
fn feeds() -> io::Result<[Feed; 3]> {
    const LOUDNESS: i16 = 256;
    let sample = fs::read(SAMPLE).map(|bytes| feed::records(&bytes))?;
    let sample = sample.ok_or_else(|| io::Error::other(format!("{SAMPLE}: no whole records")))?;
    let full_scale = sample.iter().map(|record| changed(record, LOUDNESS, 0));
    let full_scale = full_scale.collect();
    let feed = |name, records| Feed { name, records };
    Ok([
        feed("speech", sample),
        feed("generated", drawn_speech(DRAWN)),
        feed("full scale", full_scale),
    ])
}

/// A line of the table, a ratio for each feed.
struct Row {
    name: String,
    ratios: Vec<f64>,
    /// The greatest ratio that is allowed, in hundredths.
    most: Option<f64>,
}

impl Row {
    /// A stage, or a program's work, which must not be slower than the Rust's.
    fn held(name: &str, ratios: Vec<f64>) -> Self {
        Self::within(name, 100.0, ratios)
    }

    /// What may take so many hundredths of the other side's time.
    fn within(name: &str, most: f64, ratios: Vec<f64>) -> Self {
        Self {
            name: name.to_string(),
            ratios,
            most: Some(most),
        }
    }

    /// A call of a few nanoseconds, or lines of a few bytes: shown, and not counted.
    fn shown(name: &str, ratios: Vec<f64>) -> Self {
        Self {
            name: format!("({name})"),
            ratios,
            most: None,
        }
    }
}

/// Prints the table and how many calls one core carries, and gives how many ratios are above what
/// is allowed. Those in brackets are shown only.
pub fn report() -> io::Result<usize> {
    const WIDTH: usize = 34;
    let mut slow = 0;
    let mut print = |row: Row| {
        print!("{:WIDTH$}", row.name);
        for ratio in row.ratios {
            // Of two digits, as it is shown.
            let above = row.most.is_some_and(|most| (100.0 * ratio).round() > most);
            slow += usize::from(above);
            print!("{ratio:>11.2}{}", if above { '*' } else { ' ' });
        }
        println!();
    };
    let feeds = feeds()?;
    print!("{:WIDTH$}", "time, the Rust's being 1");
    for feed in &feeds {
        print!("{:>11} ", feed.name);
    }
    println!();
    let stages = stages::measured(&feeds);
    stages.rows.into_iter().for_each(&mut print);
    programs::rows(&feeds)?.into_iter().for_each(&mut print);
    println!("calls that one core carries");
    for (side, name) in ["the library", "the Rust"].into_iter().enumerate() {
        print!("{name:WIDTH$}");
        for carried in &stages.carried {
            print!("{:>11} ", carried[side]);
        }
        println!();
    }
    Ok(slow)
}

/// The best time of each side. Their rounds alternate, so that both see the same machine.
fn best(rounds: usize, mut ours: impl FnMut() -> f64, mut other: impl FnMut() -> f64) -> [f64; 2] {
    let mut best = [f64::MAX; 2];
    for _ in 0..rounds {
        best[0] = best[0].min(ours());
        best[1] = best[1].min(other());
    }
    best
}
