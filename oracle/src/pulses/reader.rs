//! The pulse reader, on all words that it accepts and on refused ones.

use crate::{
    codec::mr74::codebook::Codebook,
    compare::{Function, Line, in_threads},
    lent::{Answered, unwritten},
    project::{PlacesAnswer, read_pulses},
    subframes::{Refusal, check_lengths},
    words::SUBFRAME,
};
use std::ops::RangeInclusive;

const POSITIONS: u64 = 1 << 13;
const SIGNS: u64 = 1 << 4;

pub fn functions() -> [Function; 3] {
    [compare_accepted, compare_words, compare_lengths].map(|compare| Function {
        name: "read_pulses",
        compare,
    })
}

/// A reading, and the length of the list that is lent.
#[derive(Debug, Clone, Copy)]
pub struct Reading {
    pub positions: u16,
    pub signs: u16,
    pub length: usize,
}

impl Reading {
    fn new(positions: u16, signs: u16) -> Self {
        Self {
            positions,
            signs,
            length: SUBFRAME,
        }
    }

    /// The published reading, with the check of 01 that its type makes needless.
    pub fn read(&self) -> Result<Codebook, Refusal> {
        check_lengths([self.length], [SUBFRAME])?;
        Ok(Codebook::try_new(self.positions, self.signs)?)
    }

    /// Compares the answer and the list that was lent.
    fn compare(&self, line: &mut Line, index: u64) {
        let answered = Answered::new([self.length], |[samples]| {
            read_pulses(self.positions, self.signs, samples)
        });
        let read = self.read();
        let samples = match &read {
            Ok(codebook) => codebook.samples_q13().to_vec(),
            Err(_) => unwritten(self.length),
        };
        let answer = answer(read.map(|codebook| *codebook.positions()));
        answered.compare(line, (index, self), answer, [("samples", &samples)]);
    }
}

/// An answer of the library, by the places of the pulses or the refusal.
fn answer(answer: Result<[usize; 4], Refusal>) -> PlacesAnswer {
    let (refusal, [first, second, third, last]) = match answer {
        Ok(places) => (None, places),
        Err(refusal) => (Some(refusal), [0; 4]),
    };
    PlacesAnswer {
        number: refusal.map_or(0, |refusal| refusal.number),
        magnitude: refusal.map_or(0, |refusal| refusal.detail),
        first,
        second,
        third,
        last,
    }
}

/// Compares the readings of all the indexes below `count`.
fn compare(with: &'static str, count: u64, reading: impl Fn(u64) -> Reading + Sync) -> Vec<Line> {
    let mut line = Line::new(with);
    let parts = in_threads(
        count,
        || Line::new(with),
        |line, indexes| {
            for index in indexes {
                reading(index).compare(line, index);
            }
        },
    );
    for part in parts {
        line.add(part);
    }
    vec![line]
}

fn compare_accepted() -> Vec<Line> {
    compare("codebook.rs", POSITIONS * SIGNS, |index| {
        Reading::new((index / SIGNS) as u16, (index % SIGNS) as u16)
    })
}

/// Every bad position word with some sign words, and every bad sign word with some position words.
fn compare_words() -> Vec<Line> {
    const BAD_POSITIONS: RangeInclusive<u16> = POSITIONS as u16..=u16::MAX;
    const BAD_SIGNS: RangeInclusive<u16> = SIGNS as u16..=u16::MAX;
    const SOME_SIGNS: [u16; 7] = [0, 1, 7, 15, 16, 8192, u16::MAX];
    const SOME_POSITIONS: [u16; 7] = [0, 1, 15, 512, 4097, 8191, 8192];
    let bad_positions =
        SOME_SIGNS.map(|signs| BAD_POSITIONS.map(move |positions| Reading::new(positions, signs)));
    let bad_signs =
        SOME_POSITIONS.map(|positions| BAD_SIGNS.map(move |signs| Reading::new(positions, signs)));
    let readings: Vec<_> = bad_positions
        .into_iter()
        .flatten()
        .chain(bad_signs.into_iter().flatten())
        .collect();
    compare("rule of 01 for the words", readings.len() as u64, |index| {
        readings[index as usize]
    })
}

/// Lists of other lengths, with good and bad words.
fn compare_lengths() -> Vec<Line> {
    const LENGTHS: [usize; 8] = [0, 1, 39, 41, 80, 194, 296, 1000];
    const SOME_POSITIONS: [u16; 6] = [0, 6, 5461, 8191, 8192, u16::MAX];
    const SOME_SIGNS: [u16; 5] = [0, 10, 15, 16, u16::MAX];
    let mut readings = Vec::new();
    for length in LENGTHS {
        for positions in SOME_POSITIONS {
            readings.extend(SOME_SIGNS.map(|signs| Reading {
                positions,
                signs,
                length,
            }));
        }
    }
    compare(
        "rule of 01 for the length",
        readings.len() as u64,
        |index| readings[index as usize],
    )
}
