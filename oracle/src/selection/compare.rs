//! The comparison of the program `select` with the published Rust.

use super::{
    answers::Case,
    feeds::{ENDS, Feed, Name, Part, Parts, given},
    program,
};
use crate::{
    compare::{Line, in_threads},
    counts::Cases,
    feed::{Record, sample_bytes},
    upper::Upper,
};
use std::{
    env,
    fmt::Display,
    ops::RangeInclusive,
    path::{Path, PathBuf},
};

const PROGRAM: &str = concat!(env!("CARGO_MANIFEST_DIR"), "/../target/bin/select");

/// The records of a feed, and the parts that the feeds of each name have of all records.
const FEED_RECORDS: u64 = 50_000;
const SHARES: [Name; 5] = [
    Name::Mixed,
    Name::Extreme,
    Name::Speech,
    Name::Mixed,
    Name::Speech,
];

/// How often each end of a truncated feed is taken, and for how many records.
const ROUNDS: u64 = 13;
const ROUND_RECORDS: u64 = 750_000;

/// The bytes of filled feeds are about each power of two of so many places, at most so many away.
const POWERS: RangeInclusive<u32> = 12..=18;
const AWAY: u64 = 2;
const FILLED_EACH: u64 = 4;

/// The records that the library's step is compared on, at most.
const STEP_RECORDS: u64 = 1_100_000;

/// The records that it is compared on with players.
const PLAYER_RECORDS: u64 = 750_000;

/// What was compared, and which answers were met.
struct Tally {
    lines: Line,
    cases: Cases<Case>,
}

impl Tally {
    fn new() -> Self {
        Self {
            lines: Line::new("published Rust, lines"),
            cases: Cases::new(),
        }
    }

    fn add(&mut self, part: Self) {
        self.lines.add(part.lines);
        self.cases.add(part.cases);
    }

    /// Compares one feed. After a difference the rest of it is left aside.
    fn compare(
        &mut self,
        program: &Path,
        (index, name): (u64, &dyn Display),
        parts: impl Iterator<Item = Part> + Send,
    ) {
        let outcome = program::run(program, parts, |part| {
            self.lines.compared += part.records();
            self.cases.add_counts(&part.cases);
        });
        match outcome {
            Ok(None) => {}
            Ok(Some(difference)) => self.lines.tell_difference(index, || {
                format!(
                    "{name} record {}\n        select   {:?}\n        expected {:?}",
                    difference.record, difference.ours, difference.expected
                )
            }),
            Err(error) => self
                .lines
                .tell_difference(index, || format!("{name}: {}: {error}", program.display())),
        }
    }
}

/// The program `select`.
pub fn program_path() -> Result<PathBuf, String> {
    let path = env::var_os("MR74_SELECT").filter(|path| !path.is_empty());
    let path = path.map_or(PathBuf::from(PROGRAM), PathBuf::from);
    if !path.is_file() {
        return Err(format!(
            "{} is missing: `rt check select` builds it, or set MR74_SELECT to another",
            path.display()
        ));
    }
    Ok(path)
}

/// Compares at least so many records of feeds that are drawn, then truncated feeds, the sample and
/// the empty feed.
pub fn compare(records: u64, sample: &[Record]) -> Result<Vec<Line>, String> {
    let program = &program_path()?;
    let mut tally = Tally::new();
    let drawn = drawn(records);
    let truncated = truncated((records / ROUND_RECORDS).clamp(1, ROUNDS));
    let filled = filled();
    for feeds in [&drawn, &truncated, &filled] {
        let parts = in_threads(feeds.len() as u64, Tally::new, |tally, indexes| {
            for index in indexes {
                let feed = feeds[index as usize];
                tally.compare(program, (index, &feed), Parts::new(feed, sample));
            }
        });
        for part in parts {
            tally.add(part);
        }
    }
    let speech = sample_bytes();
    let given_feeds = [("the sample", speech.as_slice()), ("the empty feed", &[])];
    for (name, bytes) in given_feeds {
        tally.compare(program, (0, &name), [given(bytes)].into_iter());
    }
    eprintln!(
        "{} feeds of {FEED_RECORDS} records at most, {} truncated ones, {} filled ones",
        drawn.len(),
        truncated.len(),
        filled.len()
    );
    let cases = Line::of_cases(tally.cases.counts(|_| true));
    let mut lines = vec![tally.lines, cases];
    lines.extend(compare_steps(records, sample));
    Ok(lines)
}

/// Compares the library's step on feeds of so many records at most, and on truncated ones.
fn compare_steps(records: u64, sample: &[Record]) -> Vec<Line> {
    let mut feeds = drawn(records.min(STEP_RECORDS));
    feeds.extend(truncated(1));
    super::steps::compare(&feeds, &[[Upper::Handset; 2]], sample)
}

/// Compares the library's step with a player's searcher or reader or both.
pub fn compare_players() -> Vec<Line> {
    const UPPERS: [[Upper; 2]; 3] = [
        [Upper::Player, Upper::Player],
        [Upper::Player, Upper::Handset],
        [Upper::Handset, Upper::Player],
    ];
    let mut feeds = drawn(PLAYER_RECORDS);
    feeds.extend(truncated(1));
    super::steps::compare(&feeds, &UPPERS, &super::sample())
}

/// Feeds of all names but truncated ones, of so many records together.
fn drawn(records: u64) -> Vec<Feed> {
    let full = (0..records / FEED_RECORDS).map(|_| FEED_RECORDS);
    let rest = Some(records % FEED_RECORDS).filter(|&rest| rest > 0);
    (0..)
        .zip(full.chain(rest))
        .map(|(seed, records)| Feed {
            name: SHARES[seed as usize % SHARES.len()],
            records,
            seed,
        })
        .collect()
}

/// Each end with other records before it each time.
fn truncated(rounds: u64) -> Vec<Feed> {
    (0..rounds * ENDS)
        .map(|seed| Feed {
            name: Name::Truncated,
            records: seed / ENDS,
            seed,
        })
        .collect()
}

/// Some feeds of each length.
fn filled() -> Vec<Feed> {
    let lengths = POWERS.flat_map(|power| (1 << power) - AWAY..=(1 << power) + AWAY);
    lengths
        .flat_map(|bytes| (0..FILLED_EACH).map(move |seed| (bytes, seed)))
        .map(|(bytes, seed)| Feed {
            name: Name::Filled,
            records: bytes,
            seed,
        })
        .collect()
}
