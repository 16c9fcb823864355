//! Lists of wrong lengths, which make a call refused.

use crate::{
    inputs::Random,
    subframes::{Refusal, check_lengths},
};

/// The lengths of a call's lists, in the order in which they are checked.
pub struct Lengths<const N: usize> {
    pub needed: [usize; N],
    pub lengths: [usize; N],
}

impl<const N: usize> Lengths<N> {
    /// The lengths of this index. In turn each is wrong alone, and each choice of some is.
    pub fn at(index: u64, needed: [usize; N]) -> Self {
        let wrong = match index % 2 {
            0 => 1 << (index / 2 % N as u64),
            _ => 1 + index / 2 % ((1 << N) - 1),
        };
        Self::with_wrong(&mut Random::at(index), needed, wrong)
    }

    /// One of the lengths is wrong, or two are.
    pub fn one_or_two(random: &mut Random, needed: [usize; N]) -> Self {
        let [one, other] = [(); 2].map(|()| 1 << random.below(N as u64));
        let wrong = match random.below(2) {
            0 => one,
            _ => one | other,
        };
        Self::with_wrong(random, needed, wrong)
    }

    /// Each length with a bit in `wrong` is another than the needed one.
    fn with_wrong(random: &mut Random, needed: [usize; N], wrong: u64) -> Self {
        let mut lengths = needed;
        for (place, length) in lengths.iter_mut().enumerate() {
            if wrong >> place & 1 != 0 {
                *length = wrong_length(random, *length);
            }
        }
        Self { needed, lengths }
    }

    pub fn checked(&self) -> Result<(), Refusal> {
        check_lengths(self.lengths, self.needed)
    }

    /// The places of the lists with a wrong length.
    fn wrong(&self) -> Vec<usize> {
        (0..N)
            .filter(|&place| self.lengths[place] != self.needed[place])
            .collect()
    }
}

/// Another length than the needed one. Some agree with it in their low byte, some are those that
/// other lists need.
fn wrong_length(random: &mut Random, needed: usize) -> usize {
    const LENGTHS: [usize; 7] = [1, 10, 11, 40, 50, 92, 1000];
    other_than(needed, || match random.below(8) {
        0 => 0,
        1 => needed - 1,
        2 => needed + 1,
        3 => needed + 256,
        4 => random.below(300) as usize,
        _ => LENGTHS[random.below(LENGTHS.len() as u64) as usize],
    })
}

/// The first of the lengths drawn that is not the needed one.
pub fn other_than(needed: usize, mut drawn: impl FnMut() -> usize) -> usize {
    loop {
        let length = drawn();
        if length != needed {
            return length;
        }
    }
}

/// `refused!(LIST, ..)`: for each list the texts of its two cases.
macro_rules! refused {
    ($($list:literal),+) => {
        [$([
            concat!("refusal 1, by the length of the ", $list, " alone"),
            concat!("refusal 1, by the length of the ", $list, ", others being wrong after it"),
        ]),+]
    };
}
pub(crate) use refused;

/// How often each list was the first with a wrong length, alone or before others.
pub struct Refusals<const N: usize> {
    texts: [[&'static str; 2]; N],
    counts: [[u64; 2]; N],
    /// How often the wrong length was 0, one less, one more, and the same in its low byte.
    lengths: [u64; LENGTHS.len()],
    /// How often each list was wrong alone: empty, not empty but too short, and too long.
    alone: [[u64; ALONE.len()]; N],
}

const LENGTHS: [&str; 4] = [
    "refusal 1, by a length of 0",
    "refusal 1, by a length that is one less",
    "refusal 1, by a length that is one more",
    "refusal 1, by a length that is the same in its low byte",
];

const ALONE: [&str; 3] = [
    "refusal 1, by an empty list alone, of the list for which that is rarest",
    "refusal 1, by a list alone that is too short, of the list for which that is rarest",
    "refusal 1, by a list alone that is too long, of the list for which that is rarest",
];

impl<const N: usize> Refusals<N> {
    pub fn new(texts: [[&'static str; 2]; N]) -> Self {
        Self {
            texts,
            counts: [[0; 2]; N],
            lengths: [0; LENGTHS.len()],
            alone: [[0; ALONE.len()]; N],
        }
    }

    pub fn count(&mut self, lengths: &Lengths<N>) {
        let wrong = lengths.wrong();
        let first = wrong[0];
        self.counts[first][usize::from(wrong.len() > 1)] += 1;
        let [length, needed] = [lengths.lengths[first], lengths.needed[first]];
        let low_byte = length as u8 == needed as u8;
        let kinds = [
            length == 0,
            length + 1 == needed,
            length == needed + 1,
            low_byte,
        ];
        for (count, met) in self.lengths.iter_mut().zip(kinds) {
            *count += u64::from(met);
        }
        if wrong.len() == 1 {
            let kind = match length {
                0 => 0,
                _ if length < needed => 1,
                _ => 2,
            };
            self.alone[first][kind] += 1;
        }
    }

    pub fn add(&mut self, part: Self) {
        add_counts(self.counts.as_flattened_mut(), part.counts.as_flattened());
        add_counts(&mut self.lengths, &part.lengths);
        add_counts(self.alone.as_flattened_mut(), part.alone.as_flattened());
    }

    /// The texts and counts of the cases. No list comes after the last.
    pub fn counts(&self) -> Vec<(&'static str, u64)> {
        let texts = self.texts.as_flattened().iter();
        let lists = texts.zip(self.counts.as_flattened()).take(2 * N - 1);
        let lengths = LENGTHS.iter().zip(&self.lengths);
        lists
            .chain(lengths)
            .map(|(&text, &count)| (text, count))
            .collect()
    }

    /// Each list must be wrong alone in each of these ways, so of each way the list for which it is
    /// rarest is a case.
    pub fn rarest_alone(&self) -> [(&'static str, u64); ALONE.len()] {
        std::array::from_fn(|kind| {
            let rarest = self.alone.iter().map(|counts| counts[kind]).min();
            (ALONE[kind], rarest.expect("a list"))
        })
    }
}

/// Adds what another thread counted.
pub fn add_counts(counts: &mut [u64], parts: &[u64]) {
    for (count, part) in counts.iter_mut().zip(parts) {
        *count += part;
    }
}
