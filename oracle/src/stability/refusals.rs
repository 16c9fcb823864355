//! Calls that are refused, by the rule of 02, and every count.

use super::{
    GAINS, LPC_ORDER, Watch, limit_answer, limits,
    limits::Watched,
    observed,
    spectra::{Spectrum, spectrum},
    spectrum_answer,
    stages::{self, Refused, checked},
};
use crate::{
    compare::Line,
    gain::{self, LISTS, PAIRS, Pair, choice, tone_call, wrong_exponents},
    inputs::Random,
    lent::Lent,
    project::{WatchedGainAnswer, observe_spectrum, watch_limit, watched_gain},
    refusals::{Lengths, Refusals, refused},
    subframes::check_lengths,
};

/// The lengths of which each list has each but the needed one, and some far above them.
const LENGTHS: usize = 600;
const FAR: [usize; 3] = [1 << 8, 1 << 16, 3 << 16];
/// The draws of any lengths, and those at each count.
const DRAWN: u64 = 40_000;
const AT_COUNT: u64 = 400;
const STAGES_AT_COUNT: u64 = 32;

/// A watch whose gains would give the resonance limit.
const WATCHED: Watched = Watched {
    pitch_gain: 19661,
    count: 12,
    gains: [2457; GAINS],
};

/// Every wrong length up to `LENGTHS`, then some that agree with the right one in their low bytes.
fn wrong_lengths(needed: usize) -> impl Iterator<Item = usize> {
    let lengths = (0..LENGTHS).chain(FAR.map(|far| far + needed));
    lengths.filter(move |&length| length != needed)
}

/// The words of a list of any length.
fn words(length: usize) -> Vec<i16> {
    (0..length).map(|place| 2457 - place as i16).collect()
}

pub fn compare_spectra() -> Vec<Line> {
    let mut line = Line::new("rule of 02 for the length, every count");
    for length in wrong_lengths(LPC_ORDER) {
        let lsp = words(length);
        let refused = check_lengths([length], observed::NEEDED);
        for count in 0..=u8::MAX {
            let ours = observe_spectrum(&lsp, count);
            let refused = refused.map(|()| unreachable!("a call that is refused"));
            let expected = spectrum_answer(refused, count);
            line.compare(length as u64, &(length, count), &ours, &expected);
        }
    }
    let mut counts = Line::new("encoder_stability.rs, every count");
    let mut met = [0; 4];
    for index in 0..AT_COUNT {
        let random = &mut Random::at(index);
        let (_, lsp): (_, Spectrum) = spectrum(random);
        for count in 0..=u8::MAX {
            let ours = observe_spectrum(&lsp, count);
            let mut watch = Watch::of(count, WATCHED.gains);
            let resonant = watch.observe(&lsp);
            assert_eq!(
                watch.gains(),
                WATCHED.gains,
                "a spectrum leaves the gains alone"
            );
            let expected = spectrum_answer(Ok(resonant), watch.count());
            counts.compare(index, &(lsp, count), &ours, &expected);
            met[usize::from(count > 12)] += u64::from(watch.count() == 12);
            met[2 + usize::from(count > 12)] += u64::from(watch.count() == 0);
        }
    }
    let [within, above, fallen, fallen_above] = met;
    let cases = Line::of_cases([
        ("count 12 of a count of 11 or 12", within),
        ("count 12 of a greater count", above),
        ("count 0 of a count of 12 at most", fallen),
        ("count 0 of a greater count", fallen_above),
    ]);
    vec![line, counts, cases]
}

pub fn compare_limits() -> Vec<Line> {
    let mut line = Line::new("rule of 02 for the length, every count");
    for length in wrong_lengths(GAINS) {
        let gains = words(length);
        let refused = check_lengths([length], [GAINS]);
        for count in 0..=u8::MAX {
            let ours = watch_limit(WATCHED.pitch_gain, count, &gains);
            let refused = refused.map(|()| unreachable!("a call that is refused"));
            line.compare(
                length as u64,
                &(length, count),
                &ours,
                &limit_answer(refused),
            );
        }
    }
    let mut counts = Line::new("encoder_stability.rs, every count");
    let mut met = [[0; 2]; 2];
    for index in 0..AT_COUNT {
        let random = &mut Random::at(index);
        let drawn = Watched::drawn(random, index as usize % limits::SOURCES);
        for count in 0..=u8::MAX {
            let watched = Watched { count, ..drawn };
            let ours = watch_limit(watched.pitch_gain, count, &watched.gains);
            let limit = watched.limit();
            met[usize::from(count >= 12)][usize::from(choice(limit))] += 1;
            counts.compare(index, &watched, &ours, &limit_answer(Ok(limit)));
        }
    }
    let [[below, _], [unrestricted, resonance]] = met;
    let cases = Line::of_cases([
        ("unrestricted limit of a count below 12", below),
        ("unrestricted limit of a count of 12 or more", unrestricted),
        ("resonance limit of a count of 12 or more", resonance),
    ]);
    vec![line, counts, cases]
}

const STAGE_TEXTS: [[&str; 2]; LISTS + 1] = refused!(
    "target",
    "adaptive words",
    "filtered innovation",
    "stored gains"
);

pub fn compare_stages() -> Vec<Line> {
    let mut lengths = Line::new("rule of 02 for the lengths, and the gains after");
    let mut refusals = Refusals::new(STAGE_TEXTS);
    let alone = (0..stages::NEEDED.len()).flat_map(|list| {
        wrong_lengths(stages::NEEDED[list]).map(move |length| {
            let mut lengths = stages::NEEDED;
            lengths[list] = length;
            lengths
        })
    });
    let drawn = (0..DRAWN).map(|index| Lengths::at(index, stages::NEEDED).lengths);
    for (index, wrong) in (0..).zip(alone.chain(drawn)) {
        refusals.count(&Lengths {
            needed: stages::NEEDED,
            lengths: wrong,
        });
        compare_refusal(
            &mut lengths,
            index,
            wrong,
            PAIRS[index as usize % PAIRS.len()],
        );
    }

    let mut pairs = Line::new("rule of 02 for exponent and fraction, and the gains after");
    let fractions = (32768..=u16::MAX).flat_map(|fraction| [-128, 0, 127].map(|e| (e, fraction)));
    let mut numbers = [0; 2];
    for (index, pair) in (0..).zip(wrong_exponents().chain(fractions)) {
        let number = compare_refusal(&mut pairs, index, stages::NEEDED, pair);
        numbers[usize::from(number == 14)] += 1;
    }
    let mut cases = refusals.counts();
    cases.extend(refusals.rarest_alone());
    let [sevens, fourteens] = numbers;
    cases.extend([("refusal 7", sevens), ("refusal 14", fourteens)]);

    let (counts, met) = compare_counts();
    cases.extend(met);
    vec![lengths, pairs, counts, Line::of_cases(cases)]
}

/// Compares a refusal, and gives its number. All lists have a value that would matter.
fn compare_refusal(line: &mut Line, index: u64, lengths: [usize; LISTS + 1], pair: Pair) -> u8 {
    let refusal = checked(lengths, pair).expect_err("a call that is refused");
    let [target, adaptive, filtered, gains] = lengths.map(words);
    let refused = Refused {
        lists: [&target, &adaptive, &filtered],
        pair,
        pitch_gain: WATCHED.pitch_gain,
        count: index as u8,
        gains: &gains,
    };
    refused.compare(line, index, refusal);
    refusal.number
}

/// Stages at every count: the answer, then the gains.
fn compare_counts() -> (Line, [(&'static str, u64); 2]) {
    let mut line = Line::new("encoder_stability.rs and gain/quantization.rs, every count");
    let mut met = [0; 2];
    for index in 0..STAGES_AT_COUNT {
        let random = &mut Random::at(index);
        let call = tone_call(random);
        let clips = call.clips();
        let watched = Watched::drawn(random, index as usize % limits::SOURCES);
        for count in 0..=u8::MAX {
            let mut lent = Lent::new(&watched.gains);
            let ours = watched_gain(
                call.lists(),
                call.exponent,
                call.fraction,
                watched.pitch_gain,
                count,
                lent.words(),
            );
            let mut watch = Watched { count, ..watched }.watch();
            let staged = watch.stage(&call, watched.pitch_gain);
            let limit = choice(staged.limit);
            met[usize::from(limit)] += 1;
            let expected = WatchedGainAnswer {
                gain: gain::answer(Ok((staged.nearest.index, clips))),
                limit,
            };
            let input = (index, count);
            line.compare(index, &input, &ours, &expected);
            stages::compare_gains(&mut line, index, &input, &lent, &watch.gains());
        }
    }
    let texts = [
        "unrestricted stage at every count",
        "stage with the resonance limit",
    ];
    (line, [(texts[0], met[0]), (texts[1], met[1])])
}
