//! Feeds that have records of the resonance watch, which `select` does not know: on them
//! `oracle/standard/run` compares the published Rust with the standard's text.
//!
//! | kind | record | body | line |
//! |---|---|---|---|
//! | 7 | `fresh` | | count and seven gains of a fresh watch |
//! | 8 | `watch` | a count and seven gains, which become the watch | |
//! | 9 | `spectrum` | ten values | 1 if resonant, else 0, and the count after |
//! | 10 | `limit` | the pitch gain | the limit, and the gain held by it |
//! | 11 | `commit` | the row's pitch gain | the seven gains after |

use super::{
    answers::push_answer,
    stages::{Stages, first},
};
use crate::{
    codec::mr74::spectral::LPC_ORDER,
    feed::{BODIES, bytes, words},
    inputs::Random,
    record::push_line,
    stability::{BOUND, GAINS, Runs, Watch, Watched, pitch_gain, stored_gain},
};

const TITLE: &str = "mr74 watched\n";

const FRESH: u8 = BODIES.len() as u8;
const WATCH: u8 = FRESH + 1;
const SPECTRUM: u8 = FRESH + 2;
const LIMIT: u8 = FRESH + 3;
const COMMIT: u8 = FRESH + 4;

/// The length of a body by the record's kind.
const WATCH_BODIES: [usize; 5] = [0, 1 + 2 * GAINS, 2 * LPC_ORDER, 2, 2];

/// Answers a record of the watch: its name and the numbers of its line.
fn step(watch: &mut Watch, kind: u8, body: &[u8]) -> (&'static str, Vec<i32>) {
    let of_gains = |watch: &Watch| watch.gains().map(i32::from);
    match kind {
        FRESH => {
            *watch = Watch::default();
            let mut numbers = vec![watch.count().into()];
            numbers.extend(of_gains(watch));
            ("fresh", numbers)
        }
        WATCH => {
            let gains = words(&body[1..]).try_into().expect("seven gains");
            *watch = Watch::of(body[0], gains);
            ("watch", Vec::new())
        }
        SPECTRUM => {
            let spectrum = words(body).try_into().expect("ten values");
            let resonant = watch.observe(&spectrum);
            ("spectrum", vec![resonant.into(), watch.count().into()])
        }
        LIMIT => {
            let gain = words(body)[0];
            let limit = watch.limit(gain).pitch_q14();
            ("limit", vec![limit.into(), gain.min(limit).into()])
        }
        _ => {
            watch.commit(words(body)[0]);
            ("commit", of_gains(watch).to_vec())
        }
    }
}

/// The lines of a feed of whole records: of those of 01 and of those of the watch.
pub fn printed(feed: &[u8]) -> String {
    let mut lines = TITLE.to_string();
    let (mut stages, mut watch) = (Stages::default(), Watch::default());
    let mut rest = feed;
    for number in 1.. {
        let Some((&kind, after)) = rest.split_first() else {
            break;
        };
        if let Some(place) = kind.checked_sub(FRESH)
            && let Some(&length) = WATCH_BODIES.get(usize::from(place))
            && let Some((body, behind)) = after.split_at_checked(length)
        {
            let (name, numbers) = step(&mut watch, kind, body);
            push_line(&mut lines, &format!("{number} {name}"), numbers);
            rest = behind;
        } else {
            let Some(Ok(head)) = first(rest) else {
                panic!("record {number} is not whole, or of a bad kind");
            };
            if head.kind == 0 {
                watch = Watch::default();
            }
            push_answer(&mut lines, number, &stages.step(head.kind, head.body));
            rest = head.rest;
        }
    }
    lines
}

/// A feed of so many records of the watch.
pub fn drawn(records: u64, seed: u64) -> Vec<u8> {
    let mut random = Random::at(seed);
    let mut drawing = Drawing {
        runs: Runs::drawn(&mut random),
        random,
        watch: Watch::default(),
        given: None,
    };
    (0..records).flat_map(|_| drawing.record()).collect()
}

/// Records of the watch as they are drawn, with the watch that they lead to.
struct Drawing {
    random: Random,
    runs: Runs,
    watch: Watch,
    /// The pitch gain that was drawn with the watch of the last record.
    given: Option<i16>,
}

impl Drawing {
    /// The next record: its kind and its body.
    fn record(&mut self) -> Vec<u8> {
        let (kind, body) = match self.given.take() {
            Some(gain) => (LIMIT, bytes(&[gain])),
            None => self.any(),
        };
        step(&mut self.watch, kind, &body);
        [vec![kind], body].concat()
    }

    fn any(&mut self) -> (u8, Vec<u8>) {
        let random = &mut self.random;
        match random.below(200) {
            0 => {
                self.runs = Runs::drawn(random);
                (FRESH, Vec::new())
            }
            1..10 => {
                let watched = Watched::any(random);
                self.given = Some(watched.pitch_gain);
                let body = [vec![watched.count], bytes(&watched.gains)].concat();
                (WATCH, body)
            }
            10..90 => {
                let (_, spectrum) = self.runs.next(random);
                (SPECTRUM, bytes(&spectrum))
            }
            90..160 => (LIMIT, bytes(&[self.limited()])),
            _ => (COMMIT, bytes(&[stored_gain(random)])),
        }
    }

    /// A gain that brings the sum to about its bound where one does, or any.
    fn limited(&mut self) -> i16 {
        let random = &mut self.random;
        let stored: i32 = self.watch.gains().map(i32::from).iter().sum();
        let eighth = i32::from(BOUND) + random.below(5) as i32 - 2 - stored;
        match i16::try_from(8 * eighth + random.below(8) as i32) {
            Ok(gain) if gain > BOUND && random.below(4) != 0 => gain,
            _ => pitch_gain(random),
        }
    }
}
