//! Chains of pushes of the detector, each drawn from one source of words.

use super::{
    HALF_FRAME, HISTORY,
    cases::Case,
    pushes::{Push, Step},
};
use crate::{
    inputs::Random,
    speech::Speech,
    turns::{Turn, Turns},
    words::{extreme, mixed, quiet, smooth, uniform},
};

const SHORTEST_PERIOD: u64 = 20;
const PERIODS: u64 = 124;

type HalfFrame = [i16; HALF_FRAME];

/// Where the words of a chain come from.
enum Source {
    /// The feed as it stands.
    Feed,
    /// The feed's words made louder or quieter.
    ChangedFeed,
    /// Uniform words, shifted right by so many places.
    Noise(u32),
    Extreme,
    Speech(Box<Speech>),
    Periodic(Wave),
    /// Words of a few units, equal pulses and equal words, where correlations are often equal.
    Ties,
    /// Total energies at a limit of the scaling.
    Limit(Wave, i64),
    /// Words of full scale that repeat earlier ones, or turn their signs.
    FullScale,
    /// Words whose shorter lag is about as good as a longer one has to be.
    Threshold(Wave),
    /// Half frames about a level, so that the correlations with the half frames before may all be
    /// negative.
    Levels,
    /// Words of full scale behind words about a level, of which a section's long is about the
    /// greatest, or the least.
    Greatest(Rise),
}

pub struct Chain<'a> {
    random: Random,
    source: Source,
    feed: &'a [Step],
    /// The next place in the feed, and the places of every other chain.
    place: usize,
    turns: Turns,
}

impl<'a> Chain<'a> {
    /// The chain of this index; the first is the feed, where there is one.
    pub fn at(index: u64, feed: &'a [Step]) -> Self {
        const SOURCES: u64 = 12;
        let mut random = Random::at(index);
        let source = match index % SOURCES {
            0 if index == 0 && !feed.is_empty() => Source::Feed,
            0 => Source::Noise(random.below(16) as u32),
            1 => Source::Extreme,
            2 => Source::Ties,
            3 => Source::Levels,
            4 => Source::FullScale,
            5 | 6 => {
                let period = SHORTEST_PERIOD + index / SOURCES % PERIODS;
                Source::Periodic(Wave::periodic(&mut random, period as usize))
            }
            7 | 8 => Source::Threshold(Wave::threshold(&mut random)),
            9 => {
                let limit = [LOW_LIMIT, HIGH_LIMIT][random.below(2) as usize];
                Source::Limit(Wave::threshold(&mut random), limit)
            }
            10 if !feed.is_empty() => Source::ChangedFeed,
            _ => {
                let bits = 3 + random.below(13) as u32;
                Source::Speech(Box::new(Speech::new(&mut random, bits)))
            }
        };
        let place = match source {
            Source::ChangedFeed => random.below(feed.len() as u64) as usize,
            _ => 0,
        };
        Self {
            random,
            source,
            feed,
            place,
            turns: Turns::default(),
        }
    }

    /// A chain made for the greatest longs. `at` gives none, so that the recorded sample and the feeds
    /// that are drawn stay as they are.
    pub fn greatest(index: u64) -> Self {
        let mut random = Random::at(index);
        Self {
            source: Source::Greatest(Rise::new(&mut random)),
            random,
            feed: &[],
            place: 0,
            turns: Turns::default(),
        }
    }

    /// The case that an accepted push of this chain counts as.
    pub fn case(&self) -> Case {
        match self.source {
            Source::Feed => Case::Feed,
            Source::ChangedFeed => Case::ChangedFeed,
            Source::Noise(_) => Case::Noise,
            Source::Extreme => Case::Extreme,
            Source::Speech(_) => Case::Speech,
            Source::Periodic(_) => Case::Periodic,
            Source::Ties => Case::Ties,
            Source::Limit(..) => Case::Limit,
            Source::FullScale => Case::FullScale,
            Source::Threshold(_) => Case::Threshold,
            Source::Levels => Case::Levels,
            Source::Greatest(_) => Case::Greatest,
        }
    }

    /// The next step, which may lean on the history that the published detector keeps. The first
    /// is a reset.
    pub fn next(&mut self, history: &[i16; HISTORY]) -> Option<Step> {
        if matches!(self.source, Source::Feed) {
            self.place += 1;
            return self.feed.get(self.place - 1).cloned();
        }
        Some(match self.turns.next(&mut self.random)? {
            Turn::Reset => Step::Reset,
            Turn::Accepted => Step::Push(Push::new(self.words(history).to_vec())),
            Turn::Refused => {
                let mut push = Push::new(self.words(history).to_vec());
                push.add_faults(&mut self.random);
                Step::Push(push)
            }
        })
    }

    /// The words of a push that is accepted.
    pub fn words(&mut self, history: &[i16; HISTORY]) -> HalfFrame {
        let random = &mut self.random;
        match &mut self.source {
            Source::Feed | Source::ChangedFeed => self.changed(),
            Source::Noise(places) => {
                if random.below(4) == 0 {
                    *places = random.below(16) as u32;
                }
                quiet(random, *places)
            }
            Source::Extreme => match random.below(4) {
                0 => mixed(random),
                _ => extreme(random),
            },
            Source::Speech(speech) => speech.half_frame(random),
            Source::Periodic(wave) | Source::Threshold(wave) => wave.words(random),
            Source::Ties => tied_words(random),
            Source::Limit(wave, limit) => limit_words(random, history, wave, *limit),
            Source::FullScale => full_scale_words(random, history),
            Source::Levels => level_words(random),
            Source::Greatest(rise) => rise.words(random),
        }
    }

    /// The feed's next half frame with other loudness.
    fn changed(&mut self) -> HalfFrame {
        let samples = loop {
            self.place = (self.place + 1) % self.feed.len();
            if let Step::Push(push) = &self.feed[self.place] {
                break &push.samples;
            }
        };
        let loudness = [1, 2, 8, 32, 256][self.random.below(5) as usize];
        let places = self.random.below(8) as u32;
        let mut words = [0; HALF_FRAME];
        for (word, sample) in words.iter_mut().zip(samples) {
            *word = sample.saturating_mul(loudness) >> places;
        }
        words
    }
}

/// Words of a few units; or equal words: all, at equal distances, or a few.
fn tied_words(random: &mut Random) -> HalfFrame {
    let [height_places, places] = [random.below(16), 13 + random.below(3)];
    let [height] = quiet(random, height_places as u32);
    let mut words = [0; HALF_FRAME];
    match random.below(8) {
        0..4 => return quiet(random, places as u32),
        4 => words.fill(height),
        5 => {
            let distance = 1 + random.below(HALF_FRAME as u64) as usize;
            let start = random.below(distance as u64) as usize;
            for place in (start..HALF_FRAME).step_by(distance) {
                words[place] = height;
            }
        }
        _ => {
            for _ in 0..1 + random.below(4) {
                words[random.below(HALF_FRAME as u64) as usize] = height;
            }
        }
    }
    words
}

/// Each word repeats the sign of an earlier one, or turns it; where that is 0 it is drawn, or is
/// that of the word before. At the end a few may do the contrary, so that a sum that was clipped
/// comes back.
fn full_scale_words(random: &mut Random, history: &[i16; HISTORY]) -> HalfFrame {
    let lag = (SHORTEST_PERIOD + random.below(PERIODS)) as usize;
    let turns = random.below(2) == 0;
    let contrary = random.below(32).saturating_sub(16) as usize;
    let run = 1 + random.below(32);
    let mut words = [0; HISTORY + HALF_FRAME];
    words[..HISTORY].copy_from_slice(history);
    for place in HISTORY..words.len() {
        let earlier = match words[place - lag] {
            0 if random.below(run) == 0 => uniform::<1>(random)[0],
            0 => words[place - 1],
            word => word,
        };
        let ends = place + contrary >= words.len();
        let positive = (earlier >= 0) ^ turns ^ ends;
        words[place] = if positive { i16::MAX } else { i16::MIN };
    }
    let (_, words) = words.split_at(HISTORY);
    words.try_into().expect("a half frame")
}

/// One level, or two, and at times a little noise.
fn level_words(random: &mut Random) -> HalfFrame {
    let places = random.below(16) as u32;
    let [first, second] = quiet(random, places);
    let change = random.below(2 * HALF_FRAME as u64) as usize;
    let noise = at_times_noise(random, places + 3);
    std::array::from_fn(|place| {
        let level: i16 = if place < change { first } else { second };
        level.saturating_add(noise[place])
    })
}

/// Zeros, or noise that is shifted right by so many places, 15 at most.
fn at_times_noise(random: &mut Random, places: u32) -> HalfFrame {
    match random.below(2) {
        0 => [0; HALF_FRAME],
        _ => quiet(random, places.min(15)),
    }
}

/// Two half frames about a level, which fill the history, then one of full scale.
struct Rise {
    /// The words about the level and those of full scale, each two in turn.
    levels: [i16; 2],
    ends: [i16; 2],
    /// The half frames about the level that are done.
    done: usize,
}

impl Rise {
    /// The words of full scale are all equal, or of both signs in turn. Those about the level have
    /// the same signs, or the opposite ones.
    fn new(random: &mut Random) -> Self {
        const ENDS: [[i16; 2]; 3] = [[i16::MIN; 2], [i16::MAX; 2], [i16::MIN, i16::MAX]];
        // From about this level on the sum of 80 products with words of full scale is clipped.
        const CLIPS: i16 = 26214;
        // 80 such words, shifted right, have an energy of about 33/32 of a power of 4, where the
        // published inverse root is furthest above the exact one; their halves too.
        const FURTHEST: i16 = 21040;
        let ends = ENDS[random.below(ENDS.len() as u64) as usize];
        let level = match random.below(4) {
            0 | 1 => CLIPS,
            2 => FURTHEST >> random.below(4),
            _ => random.below(1 << 15) as i16,
        };
        let level = level.saturating_add(random.below(33) as i16 - 16);
        let turns = random.below(2) == 0;
        let levels = ends.map(|end| if (end < 0) ^ turns { -level } else { level });
        Self {
            levels,
            ends,
            done: 0,
        }
    }

    /// The next half frame. Behind that of full scale another rise starts.
    fn words(&mut self, random: &mut Random) -> HalfFrame {
        if self.done == 2 {
            let ends = self.ends;
            *self = Self::new(random);
            return std::array::from_fn(|place| ends[place % 2]);
        }
        self.done += 1;
        let noise = at_times_noise(random, 12);
        std::array::from_fn(|place| self.levels[place % 2].saturating_add(noise[place]))
    }
}

/// The sums of squares of which twice the value is a limit of the scaling.
const LOW_LIMIT: i64 = 1 << 19;
const HIGH_LIMIT: i64 = 1 << 30;

/// Words with which the squares of all 223 come to the limit, one more or one less. While the
/// history has too little of that, only their share of it.
fn limit_words(
    random: &mut Random,
    history: &[i16; HISTORY],
    wave: &mut Wave,
    limit: i64,
) -> HalfFrame {
    let total = limit + [-1, -1, 0, 0, 1][random.below(5) as usize];
    let share = limit * HALF_FRAME as i64 / (HISTORY + HALF_FRAME) as i64;
    let missing = total - squares(history);
    let wished = if missing > 2 * share { share } else { missing };
    let words = wave.words(random);
    with_squares(random, words, wished)
}

fn squares(words: &[i16]) -> i64 {
    words.iter().map(|&word| i64::from(word).pow(2)).sum()
}

/// These words made louder or quieter, a few of them chosen such that the squares come to the
/// wished sum. It is not met where it is negative.
fn with_squares(random: &mut Random, mut words: HalfFrame, wished: i64) -> HalfFrame {
    const CHOSEN: usize = 8;
    let mut places = [0; CHOSEN];
    for place in &mut places {
        *place = random.below(HALF_FRAME as u64) as usize;
        words[*place] = 0;
    }
    let wished = wished.max(0);
    let factor = (0.99 * wished as f64 / squares(&words).max(1) as f64).sqrt();
    for word in &mut words {
        // Toward zero, so the squares stay below those that are wished.
        *word = (f64::from(*word) * factor) as i16;
    }
    for place in places {
        words[place] = 0;
        let root = (wished - squares(&words)).max(0).isqrt();
        words[place] = root.min(i16::MAX.into()) as i16;
        if random.below(2) == 0 {
            words[place] = -words[place];
        }
    }
    words
}

/// Words that repeat after a period, but for a part whose signs turn each time, and for some
/// noise.
struct Wave {
    same: Vec<i16>,
    turned: Vec<i16>,
    /// The places by which the noise is shifted right, if there is any.
    noise: Option<u32>,
    time: usize,
}

impl Wave {
    /// Words of this period, of any loudness and of one of several shapes.
    fn periodic(random: &mut Random, period: usize) -> Self {
        let places = random.below(15) as u32;
        let mut same = drawn(random, period, places);
        match random.below(4) {
            0 => {
                let height = same[0];
                same.fill(0);
                same[period / 2] = height;
            }
            1 => {
                let [high, low] = [same[0], same[1]];
                same[..period / 2].fill(high);
                same[period / 2..].fill(low);
            }
            2 => {
                smooth(&mut same);
                smooth(&mut same);
            }
            _ => {}
        }
        let noise = (random.below(2) == 0).then(|| (places + 3).min(15));
        Self {
            turned: vec![0; period],
            same,
            noise,
            time: random.below(period as u64) as usize,
        }
    }

    /// Words that agree with those two periods before, and about 0.85 as well with those one
    /// period before. The two lags are in neighbouring sections.
    fn threshold(random: &mut Random) -> Self {
        let period = match random.below(2) {
            0 => 20 + random.below(20),
            _ => 40 + random.below(32),
        };
        let places = random.below(14) as u32;
        let same = drawn(random, period as usize, places);
        let part = 220 + random.below(140) as i32;
        let turned = drawn(random, period as usize, places);
        let turned = turned
            .iter()
            .map(|&word| (i32::from(word) * part / 1000) as i16);
        Self {
            turned: turned.collect(),
            same,
            noise: (random.below(2) == 0).then(|| (places + 4).min(15)),
            time: 0,
        }
    }

    fn words(&mut self, random: &mut Random) -> HalfFrame {
        let noise: HalfFrame = match self.noise {
            None => [0; HALF_FRAME],
            Some(places) => quiet(random, places),
        };
        noise.map(|noise| {
            let place = self.time % self.same.len();
            let turns = !(self.time / self.same.len()).is_multiple_of(2);
            let turned = self.turned[place];
            let turned = if turns { -turned } else { turned };
            self.time += 1;
            self.same[place]
                .saturating_add(turned)
                .saturating_add(noise)
        })
    }
}

fn drawn(random: &mut Random, length: usize, places: u32) -> Vec<i16> {
    (0..length).map(|_| quiet::<1>(random, places)[0]).collect()
}
