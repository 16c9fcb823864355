//! Lists that the library is lent to write.

use crate::compare::Line;
use std::fmt::{self, Debug};

/// A list with words beside it that a call must leave alone.
pub struct Lent(Vec<i16>);

impl Lent {
    const BESIDE: usize = 50;

    pub fn new(words: &[i16]) -> Self {
        let beside = [0x5a5a; Self::BESIDE];
        Self([&beside, words, &beside].concat())
    }

    pub fn words(&mut self) -> &mut [i16] {
        let end = self.0.len() - Self::BESIDE;
        &mut self.0[Self::BESIDE..end]
    }

    /// The first word that is not the expected one, here and as expected.
    pub fn difference(&self, expected: &[i16]) -> Option<[Word; 2]> {
        let expected = Self::new(expected).0;
        let place = (0..expected.len()).find(|&place| self.0[place] != expected[place])?;
        Some([&self.0, &expected].map(|words| Word {
            place: place as isize - Self::BESIDE as isize,
            word: words[place],
        }))
    }
}

/// A word of a list; one beside it has a place below 0 or from its length up.
pub struct Word {
    place: isize,
    word: i16,
}

impl fmt::Debug for Word {
    fn fmt(&self, f: &mut fmt::Formatter<'_>) -> fmt::Result {
        write!(f, "{} at {}", self.word, self.place)
    }
}

/// What the library answered, and the lists that it was lent to write.
pub struct Answered<A, const N: usize> {
    answer: A,
    lists: [Lent; N],
}

impl<A: Debug + PartialEq, const N: usize> Answered<A, N> {
    /// Lends lists of these lengths.
    pub fn new(lengths: [usize; N], call: impl FnOnce([&mut [i16]; N]) -> A) -> Self {
        let mut lists = lengths.map(|length| Lent::new(&unwritten(length)));
        let answer = call(lists.each_mut().map(Lent::words));
        Self { answer, lists }
    }

    /// Compares the answer and the lists of the call of this index.
    pub fn compare(
        &self,
        line: &mut Line,
        (index, input): (u64, &dyn Debug),
        answer: A,
        lists: [(&str, &[i16]); N],
    ) {
        line.compared += 1;
        let mut pairs = self.lists.iter().zip(lists);
        let difference = pairs.find_map(|(list, (name, expected))| {
            Some(list.difference(expected)?.map(|word| (name, word)))
        });
        match difference {
            Some([ours, other]) => {
                line.difference(index, input, &(&self.answer, ours), &(answer, other));
            }
            None if self.answer != answer => {
                line.difference(index, input, &self.answer, &answer);
            }
            None => {}
        }
    }
}

/// What a list holds before a call.
pub fn unwritten(length: usize) -> Vec<i16> {
    (0..length).map(|place| 0x1111 + place as i16).collect()
}
