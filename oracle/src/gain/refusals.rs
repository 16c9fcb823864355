//! Calls that are refused, by the rule of 01 and 02. All lists have a value that would matter.

use super::{
    calls::{Call, EXPONENTS, LISTS, PITCH_LISTS, answer, checked, checked_pitch, pitch_answer},
    sources::Drawn,
};
use crate::{
    compare::Line,
    project,
    published::{EXPONENT, FRACTION},
    words::SUBFRAME,
};

/// Lengths of lists, of which some agree with the right one in their low byte or are those of two
/// lists.
const LENGTHS: [usize; 8] = [0, 1, 39, SUBFRAME, 41, 80, 120, 256 + SUBFRAME];

/// What a call of `quantize` is refused for: the lengths of its lists, the pair and the limit choice.
type Refused = ([usize; LISTS], Pair, u8);
pub type Pair = (i16, u16);

/// Every combination of the lengths that has a wrong one, so each list is wrong alone and before
/// others.
fn wrong_lengths<const N: usize>() -> Vec<[usize; N]> {
    (0..LENGTHS.len().pow(N as u32))
        .map(|index| {
            let mut rest = index;
            [(); N].map(|()| {
                let length = LENGTHS[rest % LENGTHS.len()];
                rest /= LENGTHS.len();
                length
            })
        })
        .filter(|lengths| *lengths != [SUBFRAME; N])
        .collect()
}

pub fn compare_pitch_gain() -> Vec<Line> {
    let mut line = Line::new("rule of 01 for the lengths");
    for (index, lengths) in (0..).zip(wrong_lengths::<PITCH_LISTS>()) {
        let lists = lengths.map(|length| vec![i16::MIN; length]);
        let ours = project::pitch_gain(lists.each_ref().map(Vec::as_slice));
        let refused = checked_pitch(lengths).map(|()| unreachable!("a call that is refused"));
        let expected = pitch_answer(refused);
        line.compare(index, &lengths, &ours, &expected);
    }
    vec![line]
}

pub fn compare_quantize() -> Vec<Line> {
    let refused = [
        ("rule of 01 for the lengths", with_wrong_lengths()),
        ("rule of 01 for the limit choice", with_wrong_choices()),
        ("rule of 01 for the exponent", with_wrong_exponents()),
    ];
    let refused = refused.into_iter().map(|(with, calls)| {
        let mut line = Line::new(with);
        for (index, call) in (0..).zip(&calls) {
            compare_refusal(&mut line, index, call);
        }
        line
    });
    refused.chain(compare_fractions()).collect()
}

/// Good pairs and bad ones.
pub const PAIRS: [Pair; 10] = [
    (0, 0),
    (-128, 32767),
    (127, 0),
    (-129, 0),
    (128, 0),
    (i16::MIN, 32767),
    (i16::MAX, u16::MAX),
    (0, 32768),
    (127, u16::MAX),
    (-129, 32768),
];

/// Wrong lengths, with good and bad choices and pairs.
fn with_wrong_lengths() -> Vec<Refused> {
    let mut calls = Vec::new();
    for lengths in wrong_lengths() {
        for choice in [0, 1, 2, u8::MAX] {
            calls.extend(PAIRS.map(|pair| (lengths, pair, choice)));
        }
    }
    calls
}

/// Every wrong choice, with good and bad pairs.
fn with_wrong_choices() -> Vec<Refused> {
    let calls =
        (2..=u8::MAX).flat_map(|choice| PAIRS.map(|pair| ([SUBFRAME; LISTS], pair, choice)));
    calls.collect()
}

fn with_wrong_exponents() -> Vec<Refused> {
    with_pairs(wrong_exponents())
}

/// Every wrong exponent, with good and bad fractions.
pub fn wrong_exponents() -> impl Iterator<Item = Pair> {
    const SOME_FRACTIONS: [u16; 4] = [0, 32767, 32768, u16::MAX];
    let exponents = (i16::MIN..=i16::MAX).filter(|exponent| !EXPONENTS.contains(exponent));
    exponents.flat_map(|exponent| SOME_FRACTIONS.map(|fraction| (exponent, fraction)))
}

/// Every fraction, with exponents at both ends and beyond them and with both limits: the published
/// row, or the refusal. The words are drawn anew for each fraction.
fn compare_fractions() -> [Line; 2] {
    const SOME_EXPONENTS: [i16; 5] = [-129, -128, 0, 127, 128];
    let mut line = Line::new("gain/quantization.rs and rule of 02 for every fraction");
    let [mut accepted, mut exponents, mut fractions] = [0; 3];
    for fraction in 0..=u16::MAX {
        let call = Drawn::at(fraction.into(), &[]).call;
        let clips = call.clips();
        for exponent in SOME_EXPONENTS {
            for choice in [0, 1] {
                let ours = project::quantize(call.lists(), exponent, fraction, choice);
                let limit = checked([SUBFRAME; LISTS], exponent, fraction, choice);
                let row = limit.map(|limit| {
                    let call = Call {
                        exponent,
                        fraction,
                        limit,
                        ..call.clone()
                    };
                    (call.quantize(), clips)
                });
                match row.map_err(|refusal| refusal.number) {
                    Ok(_) => accepted += 1,
                    Err(EXPONENT) => exponents += 1,
                    Err(FRACTION) => fractions += 1,
                    Err(number) => unreachable!("refused by {number}"),
                }
                let expected = answer(row);
                let input = (exponent, fraction, choice);
                line.compare(fraction.into(), &input, &ours, &expected);
            }
        }
    }
    let cases = Line::of_cases([
        ("accepted", accepted),
        ("refused 7", exponents),
        ("refused 14", fractions),
    ]);
    [line, cases]
}

/// These pairs with both limits.
fn with_pairs(pairs: impl Iterator<Item = Pair>) -> Vec<Refused> {
    pairs
        .flat_map(|pair| [0, 1].map(|choice| ([SUBFRAME; LISTS], pair, choice)))
        .collect()
}

fn compare_refusal(line: &mut Line, index: u64, call: &Refused) {
    let &(lengths, (exponent, fraction), choice) = call;
    let lists = lengths.map(|length| vec![i16::MAX; length]);
    let ours = project::quantize(
        lists.each_ref().map(Vec::as_slice),
        exponent,
        fraction,
        choice,
    );
    let refused = checked(lengths, exponent, fraction, choice);
    let expected = answer(refused.map(|_| unreachable!("a call that is refused")));
    line.compare(index, call, &ours, &expected);
}
