//! Chains of calls of the search, each drawn from one source of words.

use crate::{
    calls::{Call, Step},
    cases::Case,
    codec::mr74::pitch::search::convolve,
    inputs::Random,
    search::Searcher,
    speech::Speech,
    subframes::{number, window},
    turns::{Turn, Turns},
    upper::Upper,
    words::{
        EXCITATION, HISTORY, SUBFRAME, extreme, impulse_response, mixed, quiet, smooth, uniform,
    },
};

type Words = ([i16; EXCITATION], [i16; SUBFRAME], [i16; SUBFRAME]);

/// Where the words of a chain come from.
enum Source {
    /// The feed as it stands.
    Feed,
    /// The feed's words made louder or quieter, with other lags at times.
    ChangedFeed,
    Uniform,
    /// Words of a few units, where correlations are often equal.
    Quiet,
    Extreme,
    Speech(Box<Speech>),
    /// Targets that are made of the excitation at a wished lag, often at an end of the window.
    Wished,
    /// Energies at the limit above which the filter is scaled.
    Limit,
}

pub struct Chain<'a> {
    random: Random,
    source: Source,
    feed: &'a [Step],
    /// The next place in the feed, and the places of every other chain.
    place: usize,
    turns: Turns,
}

impl<'a> Chain<'a> {
    /// The chain of this index; the first is the feed, where there is one.
    pub fn at(index: u64, feed: &'a [Step]) -> Self {
        let mut random = Random::at(index);
        let source = match index % 8 {
            0 if index == 0 && !feed.is_empty() => Source::Feed,
            0 => Source::Uniform,
            1 => Source::Quiet,
            2 => Source::Extreme,
            3 | 4 => Source::Wished,
            5 => Source::Limit,
            6 if !feed.is_empty() => Source::ChangedFeed,
            _ => {
                let bits = 3 + random.below(13) as u32;
                Source::Speech(Box::new(Speech::new(&mut random, bits)))
            }
        };
        let place = match source {
            Source::ChangedFeed => random.below(feed.len() as u64) as usize,
            _ => 0,
        };
        Self {
            random,
            source,
            feed,
            place,
            turns: Turns::default(),
        }
    }

    /// The case that an accepted search of this chain counts as.
    pub fn case(&self) -> Case {
        match self.source {
            Source::Feed => Case::Feed,
            Source::ChangedFeed => Case::ChangedFeed,
            Source::Uniform => Case::Uniform,
            Source::Quiet => Case::Quiet,
            Source::Extreme => Case::Extreme,
            Source::Speech(_) => Case::Speech,
            Source::Wished => Case::Wished,
            Source::Limit => Case::Limit,
        }
    }

    /// The next step, which may lean on the state that the published search is in. The first is a
    /// reset.
    pub fn next(&mut self, searcher: &Searcher) -> Option<Step> {
        if matches!(self.source, Source::Feed) {
            self.place += 1;
            return self.feed.get(self.place - 1).cloned();
        }
        Some(match self.turns.next(&mut self.random)? {
            Turn::Reset => Step::Reset,
            Turn::Accepted => Step::Search(self.call(searcher)),
            Turn::Refused => {
                let mut call = self.call(searcher);
                let expected = number(searcher.search.next);
                call.add_faults(&mut self.random, expected, searcher.upper);
                Step::Search(call)
            }
        })
    }

    /// A call that is accepted.
    pub fn call(&mut self, searcher: &Searcher) -> Call {
        let random = &mut self.random;
        let upper = searcher.upper;
        let open_loop = [open_loop(random, upper), open_loop(random, upper)];
        self.call_about(searcher, open_loop)
    }

    /// The same, with words that may lean on the windows of these lags. The call may have other
    /// lags.
    pub fn call_about(&mut self, searcher: &Searcher, mut open_loop: [u16; 2]) -> Call {
        let random = &mut self.random;
        let (excitation, target, impulse) = match &mut self.source {
            Source::Feed | Source::ChangedFeed => return self.changed(searcher, open_loop),
            Source::Uniform => uniform_words(random),
            Source::Quiet => quiet_words(random),
            Source::Extreme => extreme_words(random),
            Source::Wished => wished_words(random, range(searcher, open_loop)),
            Source::Limit => limit_words(random, range(searcher, open_loop)),
            Source::Speech(speech) => {
                speech.advance(random);
                let lags = [speech.open_loop(random), speech.open_loop(random)];
                open_loop = lags.map(|lag| lag.min(searcher.upper.samples()));
                (speech.excitation, speech.target(), speech.impulse)
            }
        };
        Call {
            excitation: excitation.to_vec(),
            target: target.to_vec(),
            impulse: impulse.to_vec(),
            open_loop,
            subframe: number(searcher.search.next),
        }
    }

    /// The feed's next search with other loudness, and at times with these lags. Its own are at most
    /// the upper lag.
    fn changed(&mut self, searcher: &Searcher, open_loop: [u16; 2]) -> Call {
        let mut call = loop {
            self.place = (self.place + 1) % self.feed.len();
            if let Step::Search(call) = &self.feed[self.place] {
                break call.clone();
            }
        };
        let loudness = [1, 2, 8, 32, 256][self.random.below(5) as usize];
        let places = self.random.below(8) as u32;
        for word in call.excitation.iter_mut().chain(&mut call.target) {
            *word = word.saturating_mul(loudness) >> places;
        }
        call.open_loop = match self.random.below(4) {
            0 => open_loop,
            _ => call.open_loop.map(|lag| lag.min(searcher.upper.samples())),
        };
        call.subframe = number(searcher.search.next);
        call
    }
}

/// A lag at an end of the windows or at the end of the fractions, or any.
fn open_loop(random: &mut Random, upper: Upper) -> u16 {
    let upper = u64::from(upper.samples());
    let lag = match random.below(8) {
        0 => 20 + random.below(6),
        1 => upper - 7 + random.below(8),
        2 => 78 + random.below(12),
        _ => 20 + random.below(upper - 19),
    };
    lag as u16
}

/// The whole lags that the search will look at.
fn range(searcher: &Searcher, open_loop: [u16; 2]) -> [usize; 2] {
    let open_loop = searcher.upper.open_loop(open_loop);
    let open_loop = open_loop.expect("lags within limits");
    window(searcher, open_loop, searcher.search.next)
}

fn uniform_words(random: &mut Random) -> Words {
    if random.below(4) == 0 {
        return (uniform(random), uniform(random), uniform(random));
    }
    let [a, b, c] = [(); 3].map(|()| random.below(13) as u32);
    (quiet(random, a), quiet(random, b), quiet(random, c))
}

fn quiet_words(random: &mut Random) -> Words {
    let [a, b] = [(); 2].map(|()| 10 + random.below(6) as u32);
    (quiet(random, a), quiet(random, b), impulse_response(random))
}

fn extreme_words(random: &mut Random) -> Words {
    let impulse = match random.below(3) {
        0 => impulse_response(random),
        1 => extreme(random),
        _ => mixed(random),
    };
    let target = match random.below(4) {
        0 => mixed(random),
        _ => extreme(random),
    };
    (extreme(random), target, impulse)
}

fn wished_words(random: &mut Random, [start, end]: [usize; 2]) -> Words {
    let wished = match random.below(8) {
        0 => start - 1,
        1 => start,
        2 => end,
        3 => end + 1,
        _ => start + random.below((end - start) as u64 + 1) as usize,
    };
    let places = random.below(12) as u32;
    let mut excitation = quiet(random, places);
    for _ in 0..random.below(4) {
        smooth(&mut excitation);
    }
    let impulse = match random.below(8) {
        0 => mixed(random),
        _ => impulse_response(random),
    };
    // A part of the filtered words at the lag beside it draws the fraction to that side.
    let beside = match random.below(3) {
        0 => wished - 1,
        1 => wished + 1,
        _ => wished,
    };
    let part = random.below(4) as i32;
    let louder = [1, 1, 1, 8][random.below(4) as usize];
    let [at, beside] = [wished, beside].map(|lag| {
        let words = excitation[HISTORY - lag..][..SUBFRAME].try_into();
        convolve(words.expect("a subframe"), &impulse)
    });
    let target = std::array::from_fn(|place| {
        let (at, beside) = (i32::from(at[place]), i32::from(beside[place]));
        let word = ((6 - part) * at + part * beside) / 6 * louder;
        word.clamp(i16::MIN.into(), i16::MAX.into()) as i16
    });
    (excitation, target, impulse)
}

/// Words whose energy at the first lag is 2^26, one step above or one step below.
fn limit_words(random: &mut Random, [start, _]: [usize; 2]) -> Words {
    const HALF: i16 = 4096;
    const BESIDE_WINDOW: usize = 4;
    let [a, b] = [(); 2].map(|()| 6 + random.below(10) as u32);
    let mut excitation: [i16; EXCITATION] = quiet(random, a);
    let first = &mut excitation[HISTORY + BESIDE_WINDOW - start..][..SUBFRAME];
    first.fill(0);
    // The response leaves the words as they are: the energy is twice the sum of their squares.
    let mut impulse = [0; SUBFRAME];
    impulse[0] = HALF;
    let place = random.below(SUBFRAME as u64 - 2) as usize;
    let further = 1 + random.below((SUBFRAME - place) as u64 - 2) as usize;
    first[place] = HALF;
    first[place + further] = match random.below(8) {
        0 => HALF - 1,
        1..4 => HALF,
        _ => -HALF,
    };
    if random.below(4) == 0 {
        first[SUBFRAME - 1] = 1;
    }
    (excitation, quiet(random, b), impulse)
}
