//! The selection feed: read by the rules of 01 with the stages of the published Rust, drawn, and
//! compared with the program `select`.

mod answers;
pub mod bodies;
mod compare;
mod drawn;
mod encoder;
mod feeds;
mod program;
pub mod record;
mod stages;
mod states;
mod steps;
mod watched;

pub use answers::{Answer, Answered, TITLE, filter_words, hertz, printed};
pub use compare::{compare, compare_players, program_path};
pub use encoder::changed;
pub use stages::{LagReader, Stages, first};
pub use states::functions;
pub use watched::printed as printed_watched;

use crate::feed::{self, Record};
use feeds::{Feed, Making, NAMES, Name, Parts};
use std::io::{self, Write};

/// The sample's records; none where there is no sample.
pub fn sample() -> Vec<Record> {
    feed::steps("records", |record| Some(record.clone()), |_| true)
}

/// Records as an encoder hands them on, drawn.
pub fn drawn_speech(records: u64) -> Vec<Record> {
    let feed = Feed {
        name: Name::Speech,
        records,
        seed: 0,
    };
    let mut making = Making::new(feed, Stages::default(), &[]);
    let mut records = Vec::new();
    while let Some(made) = making.next() {
        let (kind, body) = (made.bytes[0], made.bytes[1..].to_vec());
        records.push(Record { kind, body });
    }
    records
}

/// The name of the feeds whose records are those of the watch.
const WATCH: &str = "watch";

/// Writes the feed of this name, of so many records.
pub fn write_feed(
    output: &mut impl Write,
    name: &str,
    records: u64,
    seed: u64,
) -> Result<(), String> {
    if name == WATCH {
        return write_parts(output, [watched::drawn(records, seed)]);
    }
    let Some(&(_, name)) = NAMES.iter().find(|(known, _)| *known == name) else {
        let known = NAMES.map(|(known, _)| known).join(" ");
        return Err(format!("no feed {name}; known: {known} {WATCH}"));
    };
    let feed = Feed {
        name,
        records,
        seed,
    };
    write_parts(output, Parts::new(feed, &sample()).map(|part| part.bytes))
}

fn write_parts(
    output: &mut impl Write,
    parts: impl IntoIterator<Item = Vec<u8>>,
) -> Result<(), String> {
    for bytes in parts {
        match output.write_all(&bytes) {
            // A reader that has what it wanted.
            Err(error) if error.kind() == io::ErrorKind::BrokenPipe => return Ok(()),
            written => written.map_err(|error| error.to_string())?,
        }
    }
    Ok(())
}
