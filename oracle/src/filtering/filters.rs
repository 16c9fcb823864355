//! The cases of one filter, found from the values inside it.
//!
//! Both published filters make a word in the same way: eleven doubled products, a sum that is
//! clipped after each of them, a shift by 3 and a rounding. The residual filter adds the products,
//! the synthesis filter subtracts all but the first. They do not tell where they clip, so their
//! words are made once more here; the callers assert that they are those which the published
//! functions answer.
//!
//! That the shift clips has cases, but none where this changes the word: the rounding, which clips
//! too, gives the same word without it.

use super::{COEFFICIENTS, INPUT, ORDER};
use crate::{
    codec::mr74::postfilter::product,
    counts::{Found, cases},
    sums::{Sum, clip32},
    words::SUBFRAME,
};
use std::ops::{Neg, Range};

const SHIFT: u32 = 3;

cases! {
    FirstProduct => "first product clipped, -32768 by -32768",
    FirstProductMatters => "first product clipped, without which the word would be another",
    TapProduct => "later product clipped, -32768 by -32768",
    TapProductMatters => "later product clipped, without which the word would be another",
    SumAbove => "sum clipped at the upper end on its way",
    SumBelow => "sum clipped at the lower end on its way",
    BackFromTop => "sum clipped at the upper end, where a clip only at its end changes the word",
    BackFromBottom => "sum clipped at the lower end, where a clip only at its end changes the word",
    ShiftAbove => "shift clipped at the upper end",
    ShiftBelow => "shift clipped at the lower end",
    RoundingClip => "rounding clipped, but not the shift",
    Greatest => "word 32767",
    Least => "word -32768",
    Rounded => "word that cutting in place of rounding would change",
    Half => "sum exactly between two words",
    NegativeHalf => "negative sum exactly between two words",
}

#[derive(Clone, Copy)]
enum Filter {
    Residual,
    Synthesis,
}

/// The published residual filter.
pub fn residual(
    found: &mut Found<Case>,
    coefficients: &[i16; COEFFICIENTS],
    samples: &[i16; INPUT],
) -> [i16; SUBFRAME] {
    std::array::from_fn(|place| {
        let products =
            std::array::from_fn(|tap| product(samples[ORDER + place - tap], coefficients[tap]));
        Filter::Residual.word(found, &products)
    })
}

/// The published synthesis filter, which goes on from these words.
pub fn synthesis(
    found: &mut Found<Case>,
    history: &[i16; ORDER],
    coefficients: &[i16; COEFFICIENTS],
    excitation: &[i16; SUBFRAME],
) -> [i16; SUBFRAME] {
    let mut words = [0; INPUT];
    words[..ORDER].copy_from_slice(history);
    for (place, &excitation) in (ORDER..).zip(excitation) {
        let products = std::array::from_fn(|tap| match tap {
            0 => product(excitation, coefficients[0]),
            _ => product(coefficients[tap], words[place - tap]),
        });
        words[place] = Filter::Synthesis.word(found, &products);
    }
    let (_, words) = words.split_at(ORDER);
    words.try_into().expect("a subframe")
}

impl Filter {
    /// The word of these products, in the order in which they are summed up.
    fn word(self, found: &mut Found<Case>, products: &[i32; COEFFICIENTS]) -> i16 {
        // No product is the least long, so each can be turned.
        let terms = products.iter().enumerate();
        let sum = Sum::of(terms.map(|(tap, &product)| self.term(tap, product)));
        let word = find_word(found, sum.clipped);
        if sum.clips() {
            let back = word_of(clip32(sum.exact)) != word;
            found.case(Case::SumAbove, sum.clips_above);
            found.case(Case::SumBelow, sum.clips_below);
            found.case(Case::BackFromTop, sum.clips_above && back);
            found.case(Case::BackFromBottom, sum.clips_below && back);
        }
        self.find_products(found, products, word);
        word
    }

    /// What a product adds to the sum.
    fn term<T: Neg<Output = T>>(self, tap: usize, product: T) -> T {
        match self {
            Self::Synthesis if tap > 0 => -product,
            _ => product,
        }
    }

    fn find_products(self, found: &mut Found<Case>, products: &[i32; COEFFICIENTS], word: i16) {
        for (case, matters, taps) in [
            (Case::FirstProduct, Case::FirstProductMatters, 0..1),
            (Case::TapProduct, Case::TapProductMatters, 1..COEFFICIENTS),
        ] {
            if products[taps.clone()].iter().any(clipped) {
                let other = word_of(self.sum_without_clip(products, taps));
                found.case(case, true);
                found.case(matters, other != word);
            }
        }
    }

    /// The sum where the products of these taps are not clipped. It starts with the first product,
    /// and is clipped after each other.
    fn sum_without_clip(self, products: &[i32; COEFFICIENTS], taps: Range<usize>) -> i32 {
        let mut sum = 0;
        for (tap, product) in products.iter().enumerate() {
            let missing = taps.contains(&tap) && clipped(product);
            let exact = i64::from(*product) + i64::from(missing);
            sum = match tap {
                0 => exact,
                _ => clip32(sum + self.term(tap, exact)).into(),
            };
        }
        clip32(sum)
    }
}

/// Whether a product was clipped: all others are even.
fn clipped(product: &i32) -> bool {
    *product == i32::MAX
}

fn word_of(sum: i32) -> i16 {
    find_word(&mut Found::new(), sum)
}

/// The word that a sum becomes.
fn find_word(found: &mut Found<Case>, sum: i32) -> i16 {
    let exact = i64::from(sum) << SHIFT;
    let shifted = clip32(exact);
    let above = exact > i64::from(shifted);
    let below = exact < i64::from(shifted);
    let rounded = shifted.checked_add(1 << 15);
    let word = (rounded.unwrap_or(i32::MAX) >> 16) as i16;
    let half = shifted & 0xffff == 0x8000;
    found.case(Case::ShiftAbove, above);
    found.case(Case::ShiftBelow, below);
    found.case(Case::RoundingClip, rounded.is_none() && !above);
    found.case(Case::Greatest, word == i16::MAX);
    found.case(Case::Least, word == i16::MIN);
    found.case(Case::Rounded, word != (shifted >> 16) as i16);
    found.case(Case::Half, half);
    found.case(Case::NegativeHalf, half && sum < 0);
    word
}
