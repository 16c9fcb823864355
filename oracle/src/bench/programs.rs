//! The program `select`, with all that it reads and prints, and reading and printing alone.

use super::{Feed, Row, best, rival::NO_SUBFRAME};
use crate::{
    feed::{BODIES, Record, bytes},
    inputs::Random,
    selection::program_path,
    words::quiet,
};
use std::{
    env,
    fs::{self, File},
    io,
    path::{Path, PathBuf},
    process::{self, Command, Stdio},
    time::Instant,
};

const ROUNDS: usize = 7;

/// A feed of a stage's records is repeated to so many bytes, and so many are read or printed.
const STAGES: usize = 3_000_000;
const ALONE: usize = 20_000_000;

pub fn rows(feeds: &[Feed]) -> io::Result<Vec<Row>> {
    let programs = Programs::new()?;
    let mut ratios = Vec::new();
    for feed in feeds {
        let records: Vec<u8> = feed.records.iter().flat_map(record).collect();
        let feed = records.repeat(STAGES.div_ceil(records.len()));
        ratios.push(programs.ratio("rival-select", &feed)?);
    }
    let mut rows = vec![Row::held("select", ratios)];
    for (row, name, feed) in alone() {
        rows.push(row(name, vec![programs.ratio("rival-lines", &feed)?]));
    }
    Ok(rows)
}

fn record(Record { kind, body }: &Record) -> Vec<u8> {
    [&[*kind], body.as_slice()].concat()
}

/// How a line of the table is made.
type Line = fn(&str, Vec<f64>) -> Row;

/// Feeds on which hardly anything is computed. A reset costs `select` the clearing of 143 words too.
fn alone() -> [(Line, &'static str, Vec<u8>); 4] {
    // About as many bytes are printed: a reset and a reading, a reset, a filtering.
    const READING: usize = 32;
    const RESET: usize = 14;
    const FILTERED: usize = 720;
    let mut refused = vec![0; 1 + BODIES[2]];
    refused[..2].copy_from_slice(&[2, NO_SUBFRAME]);
    // A reset, and subframe one with index 189.
    let reading = [0, 6, 1, 189];
    // Filters that let all through. Here the Rust leaves the filtering out, and `select` does not.
    let one = [4096, 0, 0, 0, 0, 0, 0, 0, 0, 0, 0];
    let speech = quiet::<50>(&mut Random::at(0), 3);
    let filtering = [&speech, &one[..], &one, &[0; 20]].concat();
    let filtering = [vec![5], bytes(&filtering)].concat();
    let times = [refused.len(), READING, RESET, FILTERED].map(|bytes| ALONE / bytes);
    let [searches, readings, resets, filterings] = times;
    [
        (
            Row::held,
            "read 20 MB of refused searches",
            refused.repeat(searches),
        ),
        (
            Row::held,
            "print 20 MB of readings",
            reading.repeat(readings),
        ),
        (
            Row::held,
            "print 20 MB of filtered words",
            filtering.repeat(filterings),
        ),
        (Row::shown, "print 20 MB of resets", vec![0; resets]),
    ]
}

/// The two programs, and where their feed is put.
struct Programs {
    select: PathBuf,
    rivals: PathBuf,
    feed: PathBuf,
}

impl Programs {
    fn new() -> io::Result<Self> {
        let feed = format!("mr74-bench-{}.feed", process::id());
        Ok(Self {
            select: program_path().map_err(io::Error::other)?,
            rivals: env::current_exe()?,
            feed: env::temp_dir().join(feed),
        })
    }

    /// The ratio on a feed, for which both must print the same.
    fn ratio(&self, rival: &str, feed: &[u8]) -> io::Result<f64> {
        fs::write(&self.feed, feed)?;
        let ours = || self.command(&self.select, &[]);
        let other = || self.command(&self.rivals, &[rival]);
        let printed = [ours()?.output()?, other()?.output()?];
        if printed[0] != printed[1] {
            let message = format!("select and {rival} print different lines");
            return Err(io::Error::other(message));
        }
        let [ours, other] = best(ROUNDS, || time(ours()), || time(other()));
        Ok(ours / other)
    }

    fn command(&self, program: &Path, words: &[&str]) -> io::Result<Command> {
        let mut command = Command::new(program);
        command.args(words).stdin(File::open(&self.feed)?);
        Ok(command)
    }
}

impl Drop for Programs {
    fn drop(&mut self) {
        // Where it can't be removed it stays.
        let _ = fs::remove_file(&self.feed);
    }
}

/// Seconds from start to end.
fn time(command: io::Result<Command>) -> f64 {
    let mut command = command.expect("the feed that was written");
    command.stdout(Stdio::null());
    let start = Instant::now();
    let status = command.status().expect("a program that ran before");
    assert!(status.success(), "{status}");
    start.elapsed().as_secs_f64()
}
