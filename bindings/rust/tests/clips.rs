//! The counts of clipped terms: none of silence, known ones of loud words, and none of a refusal.

use mr74::{
    SUBFRAME_SAMPLES, entries,
    gain::quantization::{
        GainClips, GainLimit, PitchClips, Prediction, QuantizedRow, pitch_gain, quantize,
    },
};

type Words = [i16; SUBFRAME_SAMPLES];

const SILENCE: Words = [0; SUBFRAME_SAMPLES];
const LOW: Words = [i16::MIN; SUBFRAME_SAMPLES];
const HIGH: Words = [i16::MAX; SUBFRAME_SAMPLES];

fn pitch_clips(target: &Words, adaptive: &Words) -> [u8; 2] {
    let PitchClips { energy, target } = pitch_gain(target, adaptive).clips();
    [energy, target]
}

fn row(target: &Words, adaptive: &Words, filtered: &Words) -> QuantizedRow {
    let prediction = Prediction {
        exponent: 0,
        fraction: 0,
    };
    let row = quantize(target, adaptive, filtered, prediction, GainLimit::Resonance);
    row.expect("a prediction in its range")
}

/// Zeros but for the word at one place.
fn one(place: usize, word: i16) -> Words {
    let mut words = SILENCE;
    words[place] = word;
    words
}

#[test]
fn silence_is_not_clipped() {
    assert_eq!(pitch_clips(&SILENCE, &SILENCE), [0, 0]);
    assert_eq!(pitch_clips(&LOW, &SILENCE), [0, 0]);
    let clips = row(&SILENCE, &SILENCE, &SILENCE).clips();
    let none = GainClips {
        energy: 0,
        target: 0,
        innovation: 0,
        target_innovation: 0,
        adaptive_innovation: 0,
    };
    assert_eq!(clips, none);
}

#[test]
fn every_clipped_term_counts_once() {
    // -32768 by -32768 clips product and sum.
    assert_eq!(pitch_clips(&LOW, &LOW), [40, 40]);
    // The first term of these fits, at either end.
    assert_eq!(pitch_clips(&HIGH, &HIGH), [39, 39]);
    assert_eq!(pitch_clips(&LOW, &HIGH), [39, 39]);
    for place in [0, 7, 39] {
        let words = one(place, i16::MIN);
        assert_eq!(pitch_clips(&words, &words), [1, 1]);
    }
}

#[test]
fn a_sum_may_reach_its_end_and_zeros_behind_it_are_not_clipped() {
    // The sum of the squares is 2^30 - 1, so the sum is 2147483647.
    let mut words = SILENCE;
    words[..4].copy_from_slice(&[i16::MAX, 255, 22, 5]);
    assert_eq!(pitch_clips(&words, &words), [0, 0]);
    words[20] = 1;
    assert_eq!(pitch_clips(&words, &words), [1, 1]);
    words[39] = -1;
    assert_eq!(pitch_clips(&words, &words), [2, 2]);
}

#[test]
fn a_sum_that_comes_back_counts_the_terms_that_clipped() {
    let mut target = HIGH;
    target[20..].fill(-i16::MAX);
    // The first fits, 19 are clipped at the upper end, two fit, 18 are clipped at the lower end.
    assert_eq!(pitch_clips(&target, &HIGH), [39, 37]);
}

#[test]
fn each_sum_has_its_own_count() {
    let clips = |target, adaptive, filtered| {
        let GainClips {
            energy,
            target,
            innovation,
            target_innovation,
            adaptive_innovation,
        } = row(target, adaptive, filtered).clips();
        [
            energy,
            target,
            innovation,
            target_innovation,
            adaptive_innovation,
        ]
    };
    assert_eq!(clips(&LOW, &LOW, &LOW), [40, 40, 0, 33, 33]);
    assert_eq!(clips(&LOW, &SILENCE, &LOW), [0, 0, 0, 33, 0]);
    assert_eq!(clips(&SILENCE, &LOW, &LOW), [40, 0, 0, 0, 33]);
    assert_eq!(clips(&HIGH, &LOW, &SILENCE), [40, 39, 0, 0, 0]);
    assert_eq!(clips(&HIGH, &SILENCE, &LOW), [0, 0, 0, 32, 0]);
    // The pitch gain has the first two.
    assert_eq!(pitch_clips(&HIGH, &LOW), [40, 39]);
}

#[test]
fn a_refusal_has_no_counts() {
    let gain = entries::pitch_gain(&LOW[1..], &LOW);
    assert_eq!((gain.number, gain.magnitude), (1, 39));
    assert_eq!([gain.energy_clips, gain.target_clips], [0, 0]);
    for (exponent, limit, number) in [(0, 2, 2), (128, 0, 7), (0, 0, 14)] {
        let row = entries::quantize(&LOW, &LOW, &LOW, exponent, 32768, limit);
        let clips = [
            row.energy_clips,
            row.target_clips,
            row.innovation_clips,
            row.target_innovation_clips,
            row.adaptive_innovation_clips,
        ];
        assert_eq!((row.number, clips), (number, [0; 5]));
    }
}
