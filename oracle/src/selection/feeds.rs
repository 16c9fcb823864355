//! Feeds by their name, their number of records and their seed.

use super::{
    answers::{Answered, Case, TITLE, answers, push_answer},
    drawn::{byte, extreme_record, mixed, mixed_of},
    encoder::Encoder,
    stages::{Stages, first},
};
use crate::{
    counts::Cases,
    feed::{BODIES, Record},
    inputs::Random,
};
use std::fmt;

#[derive(Clone, Copy, PartialEq, Eq)]
pub enum Name {
    /// All kinds in any order, from the sources of the stages, with faults.
    Mixed,
    /// All kinds in any order, of extreme words and numbers.
    Extreme,
    /// Pieces of speech as an encoder hands them on.
    Speech,
    /// Mixed records, then one that is not all there, or of a bad kind.
    Truncated,
    /// Mixed records that fill so many bytes, for a program that reads in blocks.
    Filled,
}

pub const NAMES: [(&str, Name); 5] = [
    ("mixed", Name::Mixed),
    ("extreme", Name::Extreme),
    ("speech", Name::Speech),
    ("truncated", Name::Truncated),
    ("filled", Name::Filled),
];

/// The ends of truncated feeds: after each number of bytes of a body, and the bad kinds.
const BAD_KINDS: usize = 256 - BODIES.len();
pub const ENDS: u64 = (all_bodies() + BAD_KINDS) as u64;

const fn all_bodies() -> usize {
    let mut sum = 0;
    let mut kind = 0;
    while kind < BODIES.len() {
        sum += BODIES[kind];
        kind += 1;
    }
    sum
}

/// A feed that can be made again.
#[derive(Clone, Copy)]
pub struct Feed {
    pub name: Name,
    /// The records, a last one that is refused left aside; of a filled feed the bytes.
    pub records: u64,
    pub seed: u64,
}

impl fmt::Display for Feed {
    fn fmt(&self, f: &mut fmt::Formatter<'_>) -> fmt::Result {
        let named = NAMES.iter().find(|(_, name)| *name == self.name);
        let (name, _) = named.expect("a name for each");
        write!(f, "feed {name} {} {}", self.records, self.seed)
    }
}

/// A part of a feed, the lines that answer it, and which answers they are.
pub struct Part {
    pub bytes: Vec<u8>,
    pub lines: String,
    pub cases: Cases<Case>,
}

impl Part {
    /// The number of its records.
    pub fn records(&self) -> u64 {
        self.cases
            .counts(|_| true)
            .iter()
            .map(|(_, count)| count)
            .sum()
    }

    fn new() -> Self {
        Self {
            bytes: Vec::new(),
            lines: String::new(),
            cases: Cases::new(),
        }
    }
}

/// A record of a feed.
pub struct Made<'a> {
    pub bytes: Vec<u8>,
    pub answered: &'a Answered,
    pub stages: &'a Stages,
}

/// A feed and its answers as they are made.
pub struct Making<'a> {
    feed: Feed,
    random: Random,
    encoder: Encoder<'a>,
    pub stages: Stages,
    last: Option<Answered>,
    done: u64,
    ended: bool,
}

impl<'a> Making<'a> {
    /// The feed for these stages, which are fresh.
    pub fn new(feed: Feed, stages: Stages, sample: &'a [Record]) -> Self {
        let mut random = Random::at(feed.seed);
        Self {
            encoder: Encoder::new(&mut random, sample),
            feed,
            random,
            stages,
            last: None,
            done: 0,
            ended: false,
        }
    }

    /// The next record, none at the end.
    fn record(&mut self) -> Option<Vec<u8>> {
        let random = &mut self.random;
        let record = match self.feed.name {
            _ if self.done == self.feed.records => {
                let cut = self.feed.name == Name::Truncated && !self.ended;
                self.ended = true;
                return cut.then(|| self.end());
            }
            Name::Filled => return Some(self.filling()),
            Name::Mixed | Name::Truncated => mixed(random, &self.stages),
            Name::Extreme => extreme_record(random, &self.stages),
            Name::Speech => self.encoder.next(random, &self.stages, self.last.as_ref()),
        };
        self.done += 1;
        assert_eq!(record.body.len(), BODIES[usize::from(record.kind)]);
        let mut bytes = record.body;
        bytes.insert(0, record.kind);
        Some(bytes)
    }

    /// A record that has room, else a reset or a part of the record: a feed of an even seed has
    /// records that end at each whole block of bytes, one of an odd seed may end inside a record.
    fn filling(&mut self) -> Vec<u8> {
        const BLOCK: u64 = 1 << 12;
        let left = self.feed.records - self.done;
        let resets = self.feed.seed.is_multiple_of(2);
        let room = match resets {
            true => left.min(BLOCK - self.done % BLOCK) as usize,
            false => left as usize,
        };
        let Record { kind, mut body } = mixed(&mut self.random, &self.stages);
        let mut bytes = vec![kind];
        if body.len() < room {
            bytes.append(&mut body);
        } else if resets {
            bytes = vec![0];
        } else {
            bytes.extend(&body[..room - 1]);
        }
        self.done += bytes.len() as u64;
        bytes
    }

    /// What a truncated feed ends with: a part of a record, or a bad kind and at times more.
    fn end(&mut self) -> Vec<u8> {
        let random = &mut self.random;
        let mut end = (self.feed.seed % ENDS) as usize;
        for (kind, length) in (0..).zip(BODIES) {
            if end < length {
                let mut bytes = mixed_of(random, &self.stages, kind).body;
                bytes.truncate(end);
                bytes.insert(0, kind);
                return bytes;
            }
            end -= length;
        }
        let kind = (BODIES.len() + end) as u8;
        let more = (0..random.below(4) * 200).map(|_| byte(random));
        [kind].into_iter().chain(more).collect()
    }

    /// The next record with its answer and the stages after it.
    pub fn next(&mut self) -> Option<Made<'_>> {
        let bytes = self.record()?;
        let head = first(&bytes).expect("a record");
        let answered = match head {
            Ok(head) => self.stages.step(head.kind, head.body),
            Err(refusal) => Err(refusal),
        };
        Some(Made {
            bytes,
            answered: self.last.insert(answered),
            stages: &self.stages,
        })
    }
}

/// The parts of a feed.
pub struct Parts<'a> {
    making: Making<'a>,
    number: u64,
    begun: bool,
}

impl<'a> Parts<'a> {
    pub fn new(feed: Feed, sample: &'a [Record]) -> Self {
        Self {
            making: Making::new(feed, Stages::default(), sample),
            number: 0,
            begun: false,
        }
    }
}

impl Iterator for Parts<'_> {
    type Item = Part;

    /// The first part has the header, even where it has no record.
    fn next(&mut self) -> Option<Part> {
        const BYTES: usize = 1 << 16;
        let mut part = Part::new();
        if !self.begun {
            part.lines.push_str(TITLE);
            self.begun = true;
        }
        while part.bytes.len() < BYTES
            && let Some(made) = self.making.next()
        {
            self.number += 1;
            part.bytes.extend(made.bytes);
            part.cases.count(Case::of(made.answered));
            push_answer(&mut part.lines, self.number, made.answered);
        }
        (!part.lines.is_empty()).then_some(part)
    }
}

/// A feed that is there already, as one part.
pub fn given(bytes: &[u8]) -> Part {
    let mut part = Part::new();
    part.bytes = bytes.to_vec();
    part.lines.push_str(TITLE);
    for (number, answered) in (1..).zip(answers(bytes)) {
        part.cases.count(Case::of(&answered));
        push_answer(&mut part.lines, number, &answered);
    }
    part
}
