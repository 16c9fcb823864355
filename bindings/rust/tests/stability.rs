//! The resonance watch: which spectra raise the count, which gains choose the limit, what enters the
//! stored gains, and that a refusal leaves it as it was.

mod words;

use mr74::{
    Refusal, SUBFRAME_SAMPLES,
    encoder_stability::{Stability, WatchedRow},
    entries::{self, GainAnswer, LimitAnswer, SpectrumAnswer, WatchedGainAnswer},
    gain::quantization::{GainLimit, Prediction, pitch_gain, quantize},
};
use words::{Drawn, SILENCE};

type Words = [i16; SUBFRAME_SAMPLES];
type Spectrum = [i16; 10];

const LEVEL: Prediction = Prediction {
    exponent: 0,
    fraction: 0,
};

/// Not close: of the gaps that are looked at two are 1100 and five 1500.
const OPEN: Spectrum = [
    31000, 30000, 28900, 27800, 26300, 24800, 23300, 21800, 20300, 18000,
];

/// The gap of the fourth and the fifth word is 1499.
const CLOSE: Spectrum = moved(4, 1);

/// `OPEN` with the words from a place on so much higher, so that the gap before it is narrower.
const fn moved(place: usize, higher: i16) -> Spectrum {
    let mut words = OPEN;
    let mut i = place;
    while i < words.len() {
        words[i] += higher;
        i += 1;
    }
    words
}

fn watch(count: u8, gains_q11: [i16; 7]) -> Stability {
    Stability { count, gains_q11 }
}

/// Whether a spectrum raises the count.
fn is_close(lsp: Spectrum) -> bool {
    let gains = [1, 2, 3, 4, 5, 6, 7];
    let mut watched = watch(5, gains);
    assert!(!watched.observe_spectrum(&lsp));
    assert!(watched == watch(6, gains) || watched == watch(0, gains));
    watched.count == 6
}

#[test]
fn twelve_close_spectra_in_a_row_are_resonant() {
    let mut watched = Stability::default();
    for count in 1..12 {
        assert!(!watched.observe_spectrum(&CLOSE));
        assert_eq!(watched.count, count);
    }
    for _ in 0..3 {
        assert!(watched.observe_spectrum(&CLOSE));
        assert_eq!(watched.count, 12);
    }
    assert!(!watched.observe_spectrum(&OPEN));
    assert_eq!(watched, Stability::default());
    // Any count is taken.
    for (count, resonant, after) in [
        (10, false, 11),
        (11, true, 12),
        (13, true, 12),
        (254, true, 12),
        (255, true, 12),
    ] {
        let mut watched = watch(count, [7; 7]);
        assert_eq!(watched.observe_spectrum(&CLOSE), resonant);
        assert_eq!(watched, watch(after, [7; 7]));
        assert!(!watched.observe_spectrum(&OPEN));
        assert_eq!(watched, watch(0, [7; 7]));
    }
}

#[test]
fn five_upper_gaps_are_close_below_1500() {
    assert!(!is_close(OPEN));
    for place in 4..9 {
        assert!(is_close(moved(place, 1)));
        assert!(is_close(moved(place, 1500)));
        assert!(!is_close(moved(place, -1)));
    }
}

#[test]
fn the_first_and_the_last_gap_are_not_looked_at() {
    for word in [i16::MIN, 0, 30000, 31000, i16::MAX] {
        let mut lsp = OPEN;
        lsp[0] = word;
        assert!(!is_close(lsp));
        lsp[9] = word;
        assert!(!is_close(lsp));
    }
}

#[test]
fn the_threshold_of_two_lower_gaps_depends_on_the_second_word() {
    for (second, threshold) in [
        (i16::MIN + 10000, 1100),
        (30500, 1100),
        (30501, 800),
        (32000, 800),
        (32001, 600),
        (i16::MAX, 600),
    ] {
        let of_gaps = |first: i16, other: i16| {
            let mut lsp = [second; 10];
            lsp[2] -= first;
            lsp[3] = lsp[2] - other;
            for i in 4..9 {
                lsp[i] = lsp[i - 1] - 1500;
            }
            is_close(lsp)
        };
        assert!(!of_gaps(threshold, threshold));
        assert!(of_gaps(threshold - 1, threshold));
        assert!(of_gaps(threshold, threshold - 1));
    }
}

#[test]
fn gaps_are_clipped() {
    // 31567 less -1201 is one more than a word holds: the others are wide, and so is this one.
    let mut lsp = [0, 32767, 32167, 31567, -1201, -2701, -4201, -5701, -7201, 0];
    assert!(!is_close(lsp));
    lsp[4] -= 1;
    assert!(is_close(lsp));
    // -20000 less 30000 is below what a word holds, of an upper gap and of a lower one.
    let upper = [
        0, 0, -10000, -20000, 30000, 28500, 27000, 25500, 24000, 22500,
    ];
    let lower = [
        0, -20000, 30000, 28900, 27400, 25900, 24400, 22900, 21400, 0,
    ];
    assert!(is_close(upper));
    assert!(is_close(lower));
}

/// The limit of a resonant watch.
fn limit(pitch_gain_q14: i16, gains_q11: [i16; 7]) -> GainLimit {
    let before = watch(12, gains_q11);
    let watched = before.clone();
    let limit = watched.limit(pitch_gain_q14);
    assert_eq!(watched, before);
    limit
}

#[test]
fn resonance_needs_the_count_the_gain_and_the_sum() {
    use GainLimit::{Resonance, Unrestricted};
    // 15567 shifted right by 3 is 1945, and with these the sum is 15565, or one more.
    let [low, high] = [13620, 13621].map(|sum| [sum - 6000, 1000, 1000, 1000, 1000, 1000, 1000]);
    assert_eq!(limit(15567, low), Unrestricted);
    assert_eq!(limit(15567, high), Resonance);
    // The gain is the other condition: 15565 and 15566 have the same eighth.
    assert_eq!(limit(15566, high), Resonance);
    assert_eq!(limit(15565, high), Unrestricted);
    assert_eq!(limit(15565, [i16::MAX; 7]), Unrestricted);
    assert_eq!(limit(-1, [i16::MAX; 7]), Unrestricted);
    assert_eq!(limit(i16::MAX, [0; 7]), Unrestricted);
    // The eighth is a floor: 1945 up to 15567, 1946 from 15568 on.
    assert_eq!(limit(15568, low), Resonance);
    // The count is the third.
    for (count, limit) in [(0, Unrestricted), (11, Unrestricted), (12, Resonance)] {
        assert_eq!(watch(count, high).limit(15566), limit);
    }
    assert_eq!(watch(255, high).limit(15566), Resonance);
}

#[test]
fn the_sum_is_clipped_after_each_addition_from_the_oldest_on() {
    use GainLimit::{Resonance, Unrestricted};
    // The eighth is 4095. 32767 and then -17202 leaves 15565, and one more 15566.
    assert_eq!(
        limit(i16::MAX, [i16::MAX, -17202, 0, 0, 0, 0, 0]),
        Unrestricted
    );
    assert_eq!(
        limit(i16::MAX, [i16::MAX, -17201, 0, 0, 0, 0, 0]),
        Resonance
    );
    // In this order nothing is clipped, and the sum is 19660.
    assert_eq!(
        limit(i16::MAX, [-17202, i16::MAX, 0, 0, 0, 0, 0]),
        Resonance
    );
    // Held at the lower end, the sum comes back to 32766; exactly it would be 4093.
    let falling = [i16::MIN, i16::MIN, i16::MAX, i16::MAX, 0, 0, 0];
    assert_eq!(limit(i16::MAX, falling), Resonance);
    // The newest counts too.
    assert_eq!(limit(i16::MAX, [0, 0, 0, 0, 0, 0, 11470]), Unrestricted);
    assert_eq!(limit(i16::MAX, [0, 0, 0, 0, 0, 0, 11471]), Resonance);
}

/// Silence under a watch that is resonant for a pitch gain above 15565.
fn silent(watched: &mut Stability, pitch_gain_q14: i16) -> Result<WatchedRow, Refusal> {
    watched.quantize(&SILENCE, &SILENCE, &SILENCE, LEVEL, pitch_gain_q14)
}

#[test]
fn a_row_above_95_becomes_one_within_95() -> Result<(), Refusal> {
    let gains = [3000, 3001, 3002, 3003, 3004, 3005, 3006];
    let mut watched = watch(12, gains);
    let WatchedRow { row, limit } = silent(&mut watched, 15565)?;
    assert_eq!(limit, GainLimit::Unrestricted);
    assert_eq!((row.index, row.pitch_q14), (103, 16222));
    assert_eq!((row.correction_q12, row.energy_q10), (5448, 2537));
    // 16222 shifted right by 3, without a rounding, is the newest; the gain given is not stored.
    assert_eq!(
        watched,
        watch(12, [3001, 3002, 3003, 3004, 3005, 3006, 2027])
    );
    let WatchedRow { row, limit } = silent(&mut watched, 15566)?;
    assert_eq!(limit, GainLimit::Resonance);
    assert_eq!((row.index, row.pitch_q14), (93, 15387));
    assert_eq!((row.correction_q12, row.energy_q10), (9741, 7706));
    assert_eq!(
        watched,
        watch(12, [3002, 3003, 3004, 3005, 3006, 2027, 1923])
    );
    Ok(())
}

#[test]
fn the_limit_is_that_of_the_watch_before_the_stage() -> Result<(), Refusal> {
    // After the first stage the oldest has left, and the sum is too low.
    let mut watched = watch(12, [i16::MAX, 0, 0, 0, 0, 0, 0]);
    assert_eq!(silent(&mut watched, 16384)?.limit, GainLimit::Resonance);
    assert_eq!(watched, watch(12, [0, 0, 0, 0, 0, 0, 1923]));
    assert_eq!(silent(&mut watched, 16384)?.limit, GainLimit::Unrestricted);
    assert_eq!(watched, watch(12, [0, 0, 0, 0, 0, 1923, 2027]));
    // Before the stage it is too low, and after it the row's gain would make it high enough.
    let mut watched = watch(12, [0, 13539, 0, 0, 0, 0, 0]);
    assert_eq!(silent(&mut watched, 15566)?.limit, GainLimit::Unrestricted);
    assert_eq!(watched, watch(12, [13539, 0, 0, 0, 0, 0, 2027]));
    assert_eq!(silent(&mut watched, 15566)?.limit, GainLimit::Resonance);
    Ok(())
}

/// A subframe's words, a predicted pair, and the pitch gain of the words or another.
fn drawn_stage(drawn: &mut Drawn) -> ([Words; 3], Prediction, i16) {
    let [adaptive, noise, filtered] = [(); 3].map(|()| drawn.words());
    let eighths = 5 + drawn.below(7) as i16;
    let target = std::array::from_fn(|i| adaptive[i] / 8 * eighths + noise[i] / 4);
    let gain = match drawn.below(4) {
        0 => 15500 + drawn.below(200) as i16,
        _ => pitch_gain(&target, &adaptive).gain_q14,
    };
    let prediction = Prediction {
        exponent: drawn.below(8) as i16,
        fraction: drawn.below(32768) as u16,
    };
    ([target, adaptive, filtered], prediction, gain)
}

#[test]
fn the_row_is_that_of_the_stage_within_the_limit() -> Result<(), Refusal> {
    const STAGES: usize = 4000;
    let mut drawn = Drawn(1);
    let mut watched = Stability::default();
    let [mut unrestricted, mut resonance, mut changed] = [0; 3];
    for _ in 0..STAGES {
        let lsp = if drawn.below(100) == 0 { OPEN } else { CLOSE };
        watched.observe_spectrum(&lsp);
        let ([target, adaptive, filtered], prediction, gain) = drawn_stage(&mut drawn);
        let before = watched.clone();
        let limit = before.limit(gain);
        let by_hand = |limit| quantize(&target, &adaptive, &filtered, prediction, limit);
        let row = by_hand(limit)?;
        let used = watched.quantize(&target, &adaptive, &filtered, prediction, gain)?;
        assert_eq!(used, WatchedRow { row, limit });
        let [_, a, b, c, d, e, f] = before.gains_q11;
        let newest = row.pitch_q14.div_euclid(8);
        assert_eq!(watched, watch(before.count, [a, b, c, d, e, f, newest]));
        match limit {
            GainLimit::Unrestricted => unrestricted += 1,
            GainLimit::Resonance => {
                resonance += 1;
                assert!(row.index <= 95);
                changed += usize::from(by_hand(GainLimit::Unrestricted)? != row);
            }
        }
    }
    assert!(unrestricted > 2000 && resonance > 800);
    assert!(changed > 700 && changed < resonance);
    Ok(())
}

#[test]
fn a_refused_stage_leaves_the_watch() {
    let before = watch(12, [3000; 7]);
    for (exponent, fraction, number, detail) in [
        (-129, 0, 7, -129),
        (128, 32768, 7, 128),
        (i16::MIN, u16::MAX, 7, -32768),
        (-128, 32768, 14, 32768),
        (127, u16::MAX, 14, 65535),
    ] {
        let mut watched = before.clone();
        let prediction = Prediction { exponent, fraction };
        let refused = watched.quantize(&SILENCE, &SILENCE, &SILENCE, prediction, i16::MAX);
        assert_eq!(refused, Err(Refusal { number, detail }));
        assert_eq!(watched, before);
        // The next stage goes on from there.
        let row = silent(&mut watched, i16::MAX).map(|WatchedRow { row, .. }| row.index);
        assert_eq!(row, Ok(93));
        assert_eq!(
            watched,
            watch(12, [3000, 3000, 3000, 3000, 3000, 3000, 1923])
        );
    }
}

#[test]
fn a_reset_watch_is_a_fresh_one() -> Result<(), Refusal> {
    assert_eq!(Stability::default(), watch(0, [0; 7]));
    let mut watched = watch(12, [3000; 7]);
    assert_eq!(silent(&mut watched, 15566)?.row.index, 93);
    watched.reset();
    assert_eq!(watched, Stability::default());
    assert_eq!(silent(&mut watched, 15566)?.row.index, 103);
    Ok(())
}

#[test]
fn spectra_of_another_length_are_refused_by_1() {
    for count in [0, 11, 12, 255] {
        for length in [0, 1, 9, 11, 20, 256 + 10] {
            let refused = SpectrumAnswer {
                number: 1,
                magnitude: length as u64,
                resonant: false,
                count,
            };
            assert_eq!(entries::observe_spectrum(&vec![0; length], count), refused);
        }
    }
    let accepted = SpectrumAnswer {
        number: 0,
        magnitude: 0,
        resonant: true,
        count: 12,
    };
    assert_eq!(entries::observe_spectrum(&CLOSE, 11), accepted);
}

#[test]
fn stored_gains_of_another_length_are_refused_by_1() {
    let limit = |length| entries::watch_limit(i16::MAX, 12, &vec![i16::MAX; length]);
    for length in [0, 6, 8, 14, 256 + 7] {
        let refused = LimitAnswer {
            number: 1,
            magnitude: length as u64,
            limit: 0,
        };
        assert_eq!(limit(length), refused);
    }
    let accepted = LimitAnswer {
        number: 0,
        magnitude: 0,
        limit: 1,
    };
    assert_eq!(limit(7), accepted);
}

/// A refusal: all values are 0.
fn refused(number: u8, negative: u8, magnitude: u64) -> WatchedGainAnswer {
    WatchedGainAnswer {
        gain: GainAnswer {
            number,
            negative,
            magnitude,
            index: 0,
            pitch_q14: 0,
            correction_q12: 0,
            energy_q10: 0,
            energy_clips: 0,
            target_clips: 0,
            innovation_clips: 0,
            target_innovation_clips: 0,
            adaptive_innovation_clips: 0,
        },
        limit: 0,
    }
}

#[test]
fn a_refused_stage_writes_no_gains() {
    // Each length that is wrong, the last three fields good or not, and what is refused.
    for (lengths, exponent, fraction, expected) in [
        ([39, 0, 0, 0], 128, 32768, refused(1, 0, 39)),
        ([40, 41, 0, 0], 128, 32768, refused(1, 0, 41)),
        ([40, 40, 80, 0], 128, 32768, refused(1, 0, 80)),
        ([40, 40, 40, 6], 128, 32768, refused(1, 0, 6)),
        ([40, 40, 40, 8], 0, 0, refused(1, 0, 8)),
        ([40, 40, 40, 0], 0, 0, refused(1, 0, 0)),
        ([40, 40, 40, 256 + 7], 0, 0, refused(1, 0, 263)),
        ([40, 40, 40, 7], -129, 32768, refused(7, 1, 129)),
        ([40, 40, 40, 7], 128, 0, refused(7, 0, 128)),
        ([40, 40, 40, 7], 0, 32768, refused(14, 0, 32768)),
    ] {
        let [target, adaptive, filtered, mut gains] = lengths.map(|length| vec![3000; length]);
        let answer = entries::watched_gain(
            &target,
            &adaptive,
            &filtered,
            exponent,
            fraction,
            i16::MAX,
            12,
            &mut gains,
        );
        assert_eq!(answer, expected);
        assert_eq!(gains, vec![3000; lengths[3]]);
    }
}

#[test]
fn an_accepted_stage_writes_the_gains_and_tells_the_limit() {
    let stage = |pitch_gain, gains: &mut [i16]| {
        entries::watched_gain(&SILENCE, &SILENCE, &SILENCE, 0, 0, pitch_gain, 255, gains)
    };
    let mut gains = [3000, 3001, 3002, 3003, 3004, 3005, 3006];
    for (pitch_gain, limit) in [(15566, 1), (15565, 0)] {
        let answer = stage(pitch_gain, &mut gains);
        let gain = entries::quantize(&SILENCE, &SILENCE, &SILENCE, 0, 0, limit);
        assert_eq!(answer, WatchedGainAnswer { gain, limit });
    }
    assert_eq!(gains, [3002, 3003, 3004, 3005, 3006, 1923, 2027]);
}
