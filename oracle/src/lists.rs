//! The functions on lists of words, and what each is compared with.

use crate::{
    codec::mr74::pitch::search::convolve,
    compare::{Function, function},
    inputs::{Inputs, Random},
    project::{
        self, ACCEPTED, EnergyAndSum, LengthAnswer, leaf_dot40, leaf_energy_and_sum40,
        leaf_energy40,
    },
    published,
    speech::Speech,
    subframes::{check_lengths, length_answer},
    words::{ENDS, HISTORY, SUBFRAME, Words, impulse_response, mixed},
};

const SUMS: u64 = 10_000_000;
const CONVOLUTIONS: u64 = 2_000_000;

type Subframe = Words<SUBFRAME>;

pub fn functions() -> [Function; 5] {
    [
        function!("energy40", pairs(SUMS), |(x, _)| leaf_energy40(&x.0), {
            "pitch/search.rs energy" => published::energy40(&x.0),
        }),
        function!("dot40", pairs(SUMS), |(x, y)| leaf_dot40(&x.0, &y.0), {
            "pitch/search.rs target sum" => published::dot40(&x.0, &y.0),
        }),
        function!("energy_and_sum40", pairs(SUMS), |(x, y)| leaf_energy_and_sum40(&x.0, &y.0), {
            "pitch/search.rs energy and target sum" => EnergyAndSum {
                energy: published::energy40(&x.0),
                sum: published::dot40(&x.0, &y.0),
            },
        }),
        function!("convolve", convolve_inputs(), |(input, impulse)| convolved(input, impulse), {
            "pitch/search.rs" => (ACCEPTED, convolve(&input.0, &impulse.0)),
        }),
        function!("convolve", wrong_lengths(), |lengths| refused(lengths), {
            "rule of 01 for the lengths" => (
                length_answer(check_lengths(lengths, [SUBFRAME; 3])),
                true,
            ),
        }),
    ]
}

/// Pairs of constant lists at the ends, then `count` pairs of any kind.
fn pairs(count: u64) -> Inputs<impl Fn(u64) -> Option<(Subframe, Subframe)> + Sync> {
    const EACH: u64 = ENDS.len() as u64;
    let constant = |end: u64| Words([ENDS[end as usize]; SUBFRAME]);
    Inputs {
        count: EACH * EACH + count,
        at: move |index| {
            if index < EACH * EACH {
                return Some((constant(index / EACH), constant(index % EACH)));
            }
            let random = &mut Random::at(index);
            Some((Words(mixed(random)), Words(mixed(random))))
        },
    }
}

/// Pairs of any kind, and of excitations and responses that resemble speech.
fn convolve_inputs() -> Inputs<impl Fn(u64) -> Option<(Subframe, Subframe)> + Sync> {
    let speech = Inputs {
        count: CONVOLUTIONS / 2,
        at: |index| {
            let random = &mut Random::at(index);
            Some(match random.below(4) {
                0 => (Words(mixed(random)), Words(impulse_response(random))),
                _ => speech_pair(random),
            })
        },
    };
    pairs(CONVOLUTIONS / 2).then(speech)
}

fn speech_pair(random: &mut Random) -> (Subframe, Subframe) {
    let bits = 3 + random.below(13) as u32;
    let speech = Speech::new(random, bits);
    let start = random.below(HISTORY as u64 + 1) as usize;
    let input = &speech.excitation[start..start + SUBFRAME];
    (
        Words(input.try_into().expect("a subframe")),
        Words(speech.impulse),
    )
}

fn convolved(input: Subframe, impulse: Subframe) -> (LengthAnswer, [i16; SUBFRAME]) {
    let mut output = [0; SUBFRAME];
    let answer = project::convolve(&input.0, &impulse.0, &mut output);
    (answer, output)
}

/// All combinations of some lengths that have a wrong one.
fn wrong_lengths() -> Inputs<impl Fn(u64) -> Option<[usize; 3]> + Sync> {
    const LENGTHS: [usize; 9] = [0, 1, 20, 39, 40, 41, 80, 194, 1000];
    const EACH: usize = LENGTHS.len();
    let all = Inputs {
        count: EACH.pow(3) as u64,
        at: |index| {
            let index = index as usize;
            let places = [index / EACH / EACH, index / EACH % EACH, index % EACH];
            Some(places.map(|place| LENGTHS[place]))
        },
    };
    all.only(|lengths: [usize; 3]| lengths != [SUBFRAME; 3])
}

/// The answer, and whether nothing was written to the list or beside it.
fn refused([input, impulse, output]: [usize; 3]) -> (LengthAnswer, bool) {
    const BESIDE: usize = 50;
    let before: Vec<i16> = (0..output + 2 * BESIDE)
        .map(|place| 1 + place as i16)
        .collect();
    let mut words = before.clone();
    let answer = project::convolve(
        &vec![i16::MAX; input],
        &vec![i16::MIN; impulse],
        &mut words[BESIDE..BESIDE + output],
    );
    (answer, words == before)
}
