//! The time of a call of the gain stage.

use super::{LISTS, measure};
use crate::{
    codec::mr74::gain::quantization::{PitchGain, dot},
    gain::{Call, loud_call, speech_call},
    inputs::Random,
    project::{self, GainAnswer, PitchGainAnswer},
};

pub fn report() {
    type Draw = fn(&mut Random) -> Call;
    let kinds: [(&str, Draw, bool); 3] = [
        ("speech", |random| speech_call(random, 9), false),
        ("quiet speech", |random| speech_call(random, 5), false),
        ("loud words, both sums repeated", loud_call, true),
    ];
    for (kind, draw, repeats) in kinds {
        let random = &mut Random::at(0);
        let calls: Vec<_> = (0..LISTS).map(|_| draw(random)).collect();
        let right = calls.iter().all(|call| overflows(call) == [repeats; 2]);
        assert!(right, "words of another loudness than {kind}");
        let calls: Vec<_> = calls.iter().collect();
        let name = format!("pitch_gain ({kind})");
        measure(&name, &calls, library_pitch_gain, published_pitch_gain);
        let name = format!("quantize ({kind})");
        measure(&name, &calls, library_quantize, published_quantize);
    }
}

/// Whether each sum of `pitch_gain` overflows.
fn overflows(call: &Call) -> [bool; 2] {
    [&call.adaptive, &call.target].map(|list| dot(list, &call.adaptive).1)
}

#[inline(never)]
fn library_pitch_gain(call: &Call) -> PitchGainAnswer {
    project::pitch_gain(call.pitch_lists())
}

#[inline(never)]
fn published_pitch_gain(call: &Call) -> PitchGain {
    call.pitch_gain()
}

#[inline(never)]
fn library_quantize(call: &Call) -> GainAnswer {
    project::quantize(call.lists(), call.exponent, call.fraction, call.choice())
}

#[inline(never)]
fn published_quantize(call: &Call) -> u16 {
    call.quantize()
}
