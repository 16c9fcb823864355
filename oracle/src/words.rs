//! Lists of words: at random, at the ends of their type, sparse, and the response of a filter.

use crate::inputs::Random;
use std::fmt;

/// A subframe, and the excitation that the search is lent: 154 words of history and a subframe.
pub const SUBFRAME: usize = 40;
pub const HISTORY: usize = 154;
pub const EXCITATION: usize = HISTORY + SUBFRAME;

/// The least and the greatest words and those about 0.
pub const ENDS: [i16; 7] = [i16::MIN, -i16::MAX, -1, 0, 1, i16::MAX - 1, i16::MAX];

/// A list of words of which a report shows only the first.
#[derive(Clone, Copy, PartialEq, Eq)]
pub struct Words<const N: usize>(pub [i16; N]);

impl<const N: usize> fmt::Debug for Words<N> {
    fn fmt(&self, f: &mut fmt::Formatter<'_>) -> fmt::Result {
        shortened(&self.0, f)
    }
}

/// The first words of a list and how many it has.
pub fn shortened(words: &[i16], f: &mut fmt::Formatter<'_>) -> fmt::Result {
    const SHOWN: usize = 4;
    write!(f, "[")?;
    for word in words.iter().take(SHOWN) {
        write!(f, "{word}, ")?;
    }
    write!(f, ".. {} words]", words.len())
}

pub fn uniform<const N: usize>(random: &mut Random) -> [i16; N] {
    let mut words = [0; N];
    for four in words.chunks_mut(4) {
        let mut bits = random.word();
        for word in four {
            *word = bits as i16;
            bits >>= 16;
        }
    }
    words
}

/// Uniform words, all shifted right by so many places.
pub fn quiet<const N: usize>(random: &mut Random, places: u32) -> [i16; N] {
    uniform(random).map(|word: i16| word >> places)
}

/// Words that are extreme in one of several ways.
pub fn extreme<const N: usize>(random: &mut Random) -> [i16; N] {
    match random.below(8) {
        0 => [0; N],
        1 => [end(random); N],
        2 => [uniform::<1>(random)[0]; N],
        3 => std::array::from_fn(|_| end(random)),
        4 => uniform(random).map(|word: i16| if word < 0 { i16::MIN } else { i16::MAX }),
        5 | 6 => square_wave(random),
        _ => sparse(random),
    }
}

fn end(random: &mut Random) -> i16 {
    ENDS[random.below(ENDS.len() as u64) as usize]
}

/// Two words in turn, each for a few places.
fn square_wave<const N: usize>(random: &mut Random) -> [i16; N] {
    let [high, low] = match random.below(4) {
        0 => [i16::MAX, i16::MIN],
        1 => [end(random), end(random)],
        2 => uniform(random),
        _ => {
            let [word] = uniform(random);
            [word, word.saturating_neg()]
        }
    };
    let half = 1 + random.below(12) as usize;
    let start = random.below(24) as usize;
    std::array::from_fn(|place| {
        if ((start + place) / half).is_multiple_of(2) {
            high
        } else {
            low
        }
    })
}

/// Zeros but for one to four words.
fn sparse<const N: usize>(random: &mut Random) -> [i16; N] {
    let mut words = [0; N];
    for _ in 0..1 + random.below(4) {
        words[random.below(N as u64) as usize] = match random.below(2) {
            0 => end(random),
            _ => uniform::<1>(random)[0],
        };
    }
    words
}

/// Words of any of these kinds.
pub fn mixed<const N: usize>(random: &mut Random) -> [i16; N] {
    match random.below(4) {
        0 => uniform(random),
        1 => {
            let places = random.below(16) as u32;
            quiet(random, places)
        }
        _ => extreme(random),
    }
}

/// Words at random places whose squares have this sum.
pub fn with_squares(random: &mut Random, mut squares: u64) -> [i16; SUBFRAME] {
    // So many of the words are free; from the rest the greatest square is taken away each time.
    let free = random.below(SUBFRAME as u64 - 15);
    let mut words = Vec::new();
    for _ in 0..free {
        let most = (2 * squares / (free + 1)).isqrt();
        let word = random.below(most.min(i16::MAX as u64) + 1);
        squares -= word * word;
        words.push(word as i16);
    }
    while squares > 0 {
        let word = squares.isqrt().min(i16::MAX as u64);
        squares -= word * word;
        words.push(word as i16);
    }
    words.resize(SUBFRAME, 0);
    let decays = random.below(2) == 0;
    if decays {
        words.sort_by(|a, b| b.cmp(a));
    }
    for place in 0..SUBFRAME {
        if !decays {
            words.swap(place, random.below(SUBFRAME as u64) as usize);
        }
        if random.below(2) == 0 {
            words[place] = -words[place];
        }
    }
    words.try_into().expect("a subframe")
}

/// Each word becomes the mean of itself and the next.
pub fn smooth(words: &mut [i16]) {
    for place in 1..words.len() {
        words[place - 1] = words[place - 1].midpoint(words[place]);
    }
}

/// The response of a filter with two poles to a pulse of 4096, which stands for 1.
pub fn impulse_response(random: &mut Random) -> [i16; SUBFRAME] {
    const ONE: i64 = 4096;
    // The square of the poles' radius, and twice its cosine: within these the response decays.
    let square = 400 + random.below(3500) as i64;
    let widest = 2 * (square * ONE).isqrt();
    let twice = random.below(2 * widest as u64 + 1) as i64 - widest;
    let (mut before, mut now) = (0, ONE);
    std::array::from_fn(|_| {
        let word = now.clamp(i16::MIN.into(), i16::MAX.into()) as i16;
        (before, now) = (now, (twice * now - square * before) / ONE);
        word
    })
}
