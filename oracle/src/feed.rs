//! The selection feed whose records the stages are called with too.

use std::{env, fs, io, path::PathBuf};

const FEED: &str = concat!(
    env!("CARGO_MANIFEST_DIR"),
    "/../../shared/feeds/speech.feed"
);

/// The length of a body by the record's kind.
pub const BODIES: [usize; 7] = [0, 160, 551, 163, 245, 184, 2];

#[derive(Clone)]
pub struct Record {
    pub kind: u8,
    pub body: Vec<u8>,
}

fn path() -> PathBuf {
    let path = env::var_os("MR74_FEED").filter(|path| !path.is_empty());
    path.map_or(PathBuf::from(FEED), PathBuf::from)
}

/// The feed as it stands; empty where there is no such file.
pub fn sample_bytes() -> Vec<u8> {
    let path = path();
    match fs::read(&path) {
        Err(error) if error.kind() == io::ErrorKind::NotFound => Vec::new(),
        feed => feed.unwrap_or_else(|error| panic!("{}: {error}", path.display())),
    }
}

/// What is made of the feed's records, in order. Nothing where there is no such file, or where no
/// record is `needed`, which `name` tells.
pub fn steps<S>(
    name: &str,
    step: impl Fn(&Record) -> Option<S>,
    needed: impl Fn(&S) -> bool,
) -> Vec<S> {
    let path = path();
    let steps: Vec<S> = records(&sample_bytes())
        .unwrap_or_else(|| {
            panic!(
                "{}: a feed with a bad kind or an incomplete record",
                path.display()
            )
        })
        .iter()
        .filter_map(step)
        .collect();
    if !steps.iter().any(needed) {
        eprintln!("no feed with {name} at {}: left out", path.display());
        return Vec::new();
    }
    steps
}

/// The records, unless one has a bad kind or is incomplete.
pub fn records(feed: &[u8]) -> Option<Vec<Record>> {
    let mut records = Vec::new();
    let mut rest = feed;
    while let Some((&kind, after)) = rest.split_first() {
        let length = *BODIES.get(usize::from(kind))?;
        let (body, after) = after.split_at_checked(length)?;
        let body = body.to_vec();
        records.push(Record { kind, body });
        rest = after;
    }
    Some(records)
}

/// Words of two bytes, high byte first.
pub fn words(bytes: &[u8]) -> Vec<i16> {
    bytes
        .chunks(2)
        .map(|pair| i16::from_be_bytes([pair[0], pair[1]]))
        .collect()
}

/// Takes the first words away.
pub fn taken<const N: usize>(words: &mut &[i16]) -> [i16; N] {
    let (first, rest) = words.split_first_chunk().expect("a record's words");
    *words = rest;
    *first
}

/// The bytes of which `words` makes these words.
pub fn bytes(words: &[i16]) -> Vec<u8> {
    words.iter().flat_map(|word| word.to_be_bytes()).collect()
}
