//! Lists of inputs: all of them, or the ends of the argument types and a sample.

use std::{fmt::Debug, ops::RangeInclusive};

/// Inputs that a comparison samples at random, where it cannot take all.
pub const SAMPLE: u64 = 100_000_000;

const SEED: u64 = 0x6d72_3734_0001;

/// A list of inputs. An index without an input is passed over.
pub struct Inputs<F> {
    pub count: u64,
    pub at: F,
}

/// Every input of a type of at most 32 bits.
pub fn every<I: Argument>() -> Inputs<impl Fn(u64) -> Option<I> + Sync> {
    assert!(I::BITS <= 32);
    Inputs {
        count: 1 << I::BITS,
        at: |index| Some(I::from_bits(index)),
    }
}

/// The combinations of the ends of the argument types, then `count` pseudo-random inputs.
pub fn sample<I: Argument>(count: u64) -> Inputs<impl Fn(u64) -> Option<I> + Sync> {
    let ends = I::ends();
    Inputs {
        count: ends.len() as u64 + count,
        at: move |index| {
            let end = ends.get(index as usize).copied();
            Some(end.unwrap_or_else(|| I::random(&mut Random::at(index))))
        },
    }
}

impl<F> Inputs<F> {
    /// Only the inputs that the condition admits.
    pub fn only<I: Copy>(
        self,
        admits: impl Fn(I) -> bool + Sync,
    ) -> Inputs<impl Fn(u64) -> Option<I> + Sync>
    where
        F: Fn(u64) -> Option<I> + Sync,
    {
        Inputs {
            count: self.count,
            at: move |index| (self.at)(index).filter(|&input| admits(input)),
        }
    }

    /// The inputs that a function makes of these.
    pub fn map<I, J>(
        self,
        function: impl Fn(I) -> J + Sync,
    ) -> Inputs<impl Fn(u64) -> Option<J> + Sync>
    where
        F: Fn(u64) -> Option<I> + Sync,
    {
        Inputs {
            count: self.count,
            at: move |index| (self.at)(index).map(&function),
        }
    }

    /// Each of these inputs with each of the counts.
    pub fn with_each<I>(
        self,
        counts: RangeInclusive<i16>,
    ) -> Inputs<impl Fn(u64) -> Option<(I, i16)> + Sync>
    where
        F: Fn(u64) -> Option<I> + Sync,
    {
        let first = *counts.start();
        let each = counts.count() as u64;
        Inputs {
            count: self.count * each,
            at: move |index| {
                (self.at)(index / each).map(|input| (input, first + (index % each) as i16))
            },
        }
    }

    /// These inputs and then the others.
    pub fn then<I, G>(self, others: Inputs<G>) -> Inputs<impl Fn(u64) -> Option<I> + Sync>
    where
        F: Fn(u64) -> Option<I> + Sync,
        G: Fn(u64) -> Option<I> + Sync,
    {
        Inputs {
            count: self.count + others.count,
            at: move |index: u64| match index.checked_sub(self.count) {
                None => (self.at)(index),
                Some(index) => (others.at)(index),
            },
        }
    }
}

/// Splitmix64. Every index has its own start, so the inputs do not depend on the threads.
pub struct Random(u64);

impl Random {
    pub fn at(index: u64) -> Self {
        let mut start = Self(SEED ^ index);
        Self(start.word())
    }

    pub fn word(&mut self) -> u64 {
        self.0 = self.0.wrapping_add(0x9e37_79b9_7f4a_7c15);
        let word = (self.0 ^ (self.0 >> 30)).wrapping_mul(0xbf58_476d_1ce4_e5b9);
        let word = (word ^ (word >> 27)).wrapping_mul(0x94d0_49bb_1331_11eb);
        word ^ (word >> 31)
    }

    /// A number below `limit`, nearly uniform for small limits.
    pub fn below(&mut self, limit: u64) -> u64 {
        self.word() % limit
    }
}

/// An argument, or a tuple of arguments.
pub trait Argument: Copy + Debug + Send + Sync {
    const BITS: u32;

    /// The value whose bits are the lowest of these.
    fn from_bits(bits: u64) -> Self;

    /// The few extreme values, for tuples all their combinations.
    fn corners() -> Vec<Self>;

    /// The extreme values, zero, the powers of two of both signs, and the neighbours of all these;
    /// for tuples all their combinations.
    fn ends() -> Vec<Self>;

    /// A uniform value or one of a random number of bits, so that small magnitudes occur.
    fn random(random: &mut Random) -> Self;

    /// The values of the arguments.
    fn words(self) -> Vec<i64>;
}

macro_rules! number {
    ($($type:ty)+) => {$(
        impl Argument for $type {
            const BITS: u32 = <$type>::BITS;

            fn from_bits(bits: u64) -> Self {
                bits as $type
            }

            fn corners() -> Vec<Self> {
                within(&[<$type>::MIN as i128, -1, 0, 1, <$type>::MAX as i128])
            }

            fn ends() -> Vec<Self> {
                let (lowest, highest) = (<$type>::MIN as i128, <$type>::MAX as i128);
                let mut ends = Vec::new();
                for near in -2..=2 {
                    ends.extend([lowest + near, near, highest + near]);
                }
                for power in (0..<$type>::BITS).map(|bit| 1i128 << bit) {
                    for near in -1..=1 {
                        ends.extend([power + near, -power + near]);
                    }
                }
                within(&ends)
            }

            fn random(random: &mut Random) -> Self {
                let value = random.word() as $type;
                let choice = random.word();
                if choice % 2 == 0 {
                    value
                } else {
                    value >> ((choice >> 32) % u64::from(<$type>::BITS))
                }
            }

            fn words(self) -> Vec<i64> {
                vec![i64::from(self)]
            }
        }
    )+};
}

number!(i16 i32 i64 u8 u16 u32);

/// The values that the type holds, in order and each once.
fn within<T: TryFrom<i128> + Ord>(values: &[i128]) -> Vec<T> {
    let mut within: Vec<T> = values
        .iter()
        .filter_map(|&value| T::try_from(value).ok())
        .collect();
    within.sort();
    within.dedup();
    within
}

fn combinations<A: Copy, B: Copy>(left: &[A], right: &[B]) -> Vec<(A, B)> {
    left.iter()
        .flat_map(|&a| right.iter().map(move |&b| (a, b)))
        .collect()
}

impl<A: Argument, B: Argument> Argument for (A, B) {
    const BITS: u32 = A::BITS + B::BITS;

    fn from_bits(bits: u64) -> Self {
        (A::from_bits(bits >> B::BITS), B::from_bits(bits))
    }

    fn corners() -> Vec<Self> {
        combinations(&A::corners(), &B::corners())
    }

    fn ends() -> Vec<Self> {
        combinations(&A::ends(), &B::ends())
    }

    fn random(random: &mut Random) -> Self {
        (A::random(random), B::random(random))
    }

    fn words(self) -> Vec<i64> {
        [self.0.words(), self.1.words()].concat()
    }
}

/// A triple is a pair with a third argument.
fn triple<A, B, C>(((a, b), c): ((A, B), C)) -> (A, B, C) {
    (a, b, c)
}

impl<A: Argument, B: Argument, C: Argument> Argument for (A, B, C) {
    const BITS: u32 = A::BITS + B::BITS + C::BITS;

    fn from_bits(bits: u64) -> Self {
        triple(Argument::from_bits(bits))
    }

    fn corners() -> Vec<Self> {
        <((A, B), C)>::corners().into_iter().map(triple).collect()
    }

    fn ends() -> Vec<Self> {
        <((A, B), C)>::ends().into_iter().map(triple).collect()
    }

    fn random(random: &mut Random) -> Self {
        triple(Argument::random(random))
    }

    fn words(self) -> Vec<i64> {
        let (a, b, c) = self;
        ((a, b), c).words()
    }
}
