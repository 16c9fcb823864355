//! The recorded feeds with the answers of the published Rust: what the program `select` reads and
//! prints, and the samples that stand beside it. The program's answers are not asked for.

use super::{
    answers::{Case, answers, printed},
    bodies,
    feeds::{ENDS, Feed, Making, Name},
    stages::Stages,
};
use crate::{
    calls,
    codec::mr74::gain::quantization::GainLimit,
    feed::{BODIES, sample_bytes},
    filtering, gain, open_loop, pulses,
    record::write_files,
    words::{EXCITATION, SUBFRAME},
};
use std::{collections::BTreeMap, fs, io, path::Path};

/// The sample's records that are taken, from its start.
const SPEECH_RECORDS: usize = 300;

/// Records that are drawn. The seed of the truncated feed is also its end: 300 bytes of a pitch
/// record's body are there.
const EXTREME: Feed = Feed {
    name: Name::Extreme,
    records: 160,
    seed: 2,
};
const TRUNCATED: Feed = Feed {
    name: Name::Truncated,
    records: 300,
    seed: BODIES[1] as u64 + 300,
};

/// A feed that ends by a bad kind, the greatest, with bytes behind it that are no records of the feed.
const UNKNOWN_KIND: Feed = Feed {
    name: Name::Truncated,
    records: 60,
    seed: ENDS - 1,
};

/// How often each answer and each refusal of a kind must be there, but for the one that ends the
/// feed.
const LEAST: usize = 3;
const REFUSALS: [(u8, u8); 10] = [
    (2, 2),
    (2, 3),
    (2, 4),
    (3, 6),
    (4, 2),
    (4, 7),
    (4, 14),
    (6, 2),
    (6, 4),
    (6, 5),
];

const RESET: u8 = 0;

/// The bytes behind a bad kind, at least.
const BEHIND: usize = 100;

/// Writes what the program reads and prints, and gives its number of records.
pub fn write(folder: &Path) -> io::Result<usize> {
    let speech = sample()?;
    let mut feed = listing();
    feed.extend(&speech[..length(&speech, SPEECH_RECORDS)]);
    feed.extend(open_loop::record::sample());
    feed.extend(filtering::record::sample());
    for drawn in [EXTREME, TRUNCATED] {
        // The records are drawn for fresh stages.
        feed.push(RESET);
        feed.extend(bytes(drawn));
    }
    assert_all_met(&feed);
    write_files(folder, &feed, &printed(&feed))?;
    Ok(answers(&feed).len())
}

/// Writes what the program reads and prints for a feed that a bad kind ends, and gives its number of
/// records.
pub fn write_unknown_kind(folder: &Path) -> io::Result<usize> {
    let feed = [listing(), vec![RESET], bytes(UNKNOWN_KIND)].concat();
    let answers = answers(&feed);
    assert!(
        matches!(answers.last().map(Case::of), Some(Case::Refused9)),
        "the end of the feed"
    );
    let read = length(&feed, answers.len() - 1) + 1;
    assert!(read + BEHIND <= feed.len(), "bytes behind the bad kind");
    write_files(folder, &feed, &printed(&feed))?;
    Ok(answers.len())
}

/// Writes the feed of 01's listing and the sample, each with what is printed for it.
pub fn write_samples(folder: &Path) -> io::Result<usize> {
    fs::create_dir_all(folder)?;
    let mut records = 0;
    for (name, feed) in [("listing", listing()), ("speech", sample()?)] {
        fs::write(folder.join(name).with_extension("feed"), &feed)?;
        fs::write(folder.join(name).with_extension("out"), printed(&feed))?;
        records += answers(&feed).len();
    }
    Ok(records)
}

fn sample() -> io::Result<Vec<u8>> {
    let sample = sample_bytes();
    if sample.is_empty() {
        return Err(io::Error::other("no sample of speech: set MR74_FEED"));
    }
    Ok(sample)
}

/// The length of the first records of a feed that has them all.
fn length(feed: &[u8], records: usize) -> usize {
    let mut length = 0;
    for _ in 0..records {
        length += 1 + BODIES[usize::from(feed[length])];
    }
    length
}

fn bytes(feed: Feed) -> Vec<u8> {
    let mut making = Making::new(feed, Stages::default(), &[]);
    let mut bytes = Vec::new();
    while let Some(made) = making.next() {
        bytes.extend(made.bytes);
    }
    bytes
}

/// The feed whose lines 01 lists: all samples are 0.
fn listing() -> Vec<u8> {
    let silence = [0; SUBFRAME];
    let pitch = |subframe| {
        bodies::pitch(&calls::Call {
            excitation: vec![0; EXCITATION],
            target: silence.to_vec(),
            impulse: silence.to_vec(),
            open_loop: [80, 80],
            subframe,
        })
    };
    let pulses = bodies::pulses(&pulses::Call {
        target: silence,
        impulse: silence,
        lag: 40,
        gain: 0,
    });
    let gain = bodies::gain(&gain::Call {
        target: silence,
        adaptive: silence,
        filtered: silence,
        exponent: 0,
        fraction: 0,
        limit: GainLimit::Unrestricted,
    });
    let records = [
        (RESET, Vec::new()),
        (1, vec![0; BODIES[1]]),
        (2, pitch(1)),
        (2, pitch(2)),
        (2, pitch(2)),
        (3, pulses),
        (4, gain),
        (6, vec![1, 189]),
    ];
    let records = records.map(|(kind, body)| [vec![kind], body].concat());
    records.concat()
}

/// Asserts that each kind is accepted, and is refused by each number that it can be, and that the
/// feed ends with a refusal that stops it.
fn assert_all_met(feed: &[u8]) {
    let mut met = BTreeMap::new();
    let mut at = 0;
    let answers = answers(feed);
    for answered in &answers {
        let kind = feed[at];
        let number = answered
            .as_ref()
            .map_or_else(|refusal| refusal.number, |_| 0);
        *met.entry((kind, number)).or_insert(0) += 1;
        at += 1 + BODIES[usize::from(kind)];
    }
    let accepted = (0..BODIES.len() as u8).map(|kind| (kind, 0));
    for place in accepted.chain(REFUSALS) {
        let times = met.get(&place).copied().unwrap_or(0);
        assert!(
            times >= LEAST,
            "kind and refusal {place:?}: {times} records"
        );
    }
    let last = answers.last().map(Case::of);
    assert!(matches!(last, Some(Case::Refused10)), "the end of the feed");
}
