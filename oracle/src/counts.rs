//! Counts of the cases that a comparison must meet: equal answers say nothing about a case that no
//! input met.

use std::marker::PhantomData;

/// The cases of one comparison, declared by `cases!`.
pub trait Counted: Copy + 'static {
    const TEXTS: &'static [(Self, &'static str)];

    fn place(self) -> usize;
}

/// `cases! { CASE => TEXT, .. }` declares the enum `Case`.
macro_rules! cases {
    ($($case:ident => $text:literal,)+) => {
        #[derive(Clone, Copy)]
        pub enum Case {
            $($case,)+
        }

        impl $crate::counts::Counted for Case {
            const TEXTS: &'static [(Self, &'static str)] = &[$((Self::$case, $text),)+];

            fn place(self) -> usize {
                self as usize
            }
        }

        // `Found` has a bit for each.
        const _: () = assert!(<Case as $crate::counts::Counted>::TEXTS.len() <= 128);
    };
}
pub(crate) use cases;

/// How many calls met each case.
pub struct Cases<C>(Vec<u64>, PhantomData<C>);

impl<C: Counted> Cases<C> {
    pub fn new() -> Self {
        Self(vec![0; C::TEXTS.len()], PhantomData)
    }

    pub fn count(&mut self, case: C) {
        self.0[case.place()] += 1;
    }

    /// Counts the cases that one call met, once each.
    pub fn count_found(&mut self, found: &Found<C>) {
        for (place, count) in self.0.iter_mut().enumerate() {
            *count += (found.0 >> place & 1) as u64;
        }
    }

    pub fn add(&mut self, part: Self) {
        self.add_counts(&part);
    }

    pub fn add_counts(&mut self, part: &Self) {
        for (count, part) in self.0.iter_mut().zip(&part.0) {
            *count += part;
        }
    }

    /// The texts and counts of the cases that are asked for.
    pub fn counts(&self, asked: impl Fn(C) -> bool) -> Vec<(&'static str, u64)> {
        C::TEXTS
            .iter()
            .filter(|&&(case, _)| asked(case))
            .map(|&(case, text)| (text, self.0[case.place()]))
            .collect()
    }
}

/// The cases that one call met, a bit each.
pub struct Found<C>(u128, PhantomData<C>);

impl<C: Counted> Found<C> {
    pub fn new() -> Self {
        Self(0, PhantomData)
    }

    pub fn case(&mut self, case: C, met: bool) {
        self.0 |= u128::from(met) << case.place();
    }

    pub fn add(&mut self, other: &Self) {
        self.0 |= other.0;
    }

    pub fn has(&self, case: C) -> bool {
        self.0 >> case.place() & 1 != 0
    }

    /// Asserts that a sample's calls met all the cases that are asked for.
    pub fn assert_met(&self, asked: impl Fn(C) -> bool) {
        for &(case, text) in C::TEXTS {
            assert!(
                !asked(case) || self.has(case),
                "no call for the sample: {text}"
            );
        }
    }

    /// Of these, the cases that are declared before another one.
    pub fn before(&self, case: C) -> Self {
        Self(self.0 & ((1 << case.place()) - 1), PhantomData)
    }

    /// Whether the other has all of these.
    pub fn is_within(&self, other: &Self) -> bool {
        self.missing_in(other) == 0
    }

    /// How many of these the other has not.
    pub fn missing_in(&self, other: &Self) -> u32 {
        (self.0 & !other.0).count_ones()
    }
}
