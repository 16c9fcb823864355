//! For the examples: a frame of a sound, with 154 words of its past.

use mr74::{
    SUBFRAME_SAMPLES,
    pitch::{
        frame::{FRAME_SAMPLES, SubframeInputs},
        search::{EXCITATION_SAMPLES, Subframe},
    },
};

pub const PAST: usize = EXCITATION_SAMPLES - SUBFRAME_SAMPLES;
const SOUND: usize = PAST + FRAME_SAMPLES;

pub struct Sound {
    pulses: [i16; SOUND],
    /// The pulses behind a filter with one pole ..
    pub samples: [i16; SOUND],
    /// .. and its impulse response.
    impulse: [i16; SUBFRAME_SAMPLES],
}

impl Sound {
    /// With a pulse every so many samples.
    pub fn of(period: usize) -> Self {
        let pulses = std::array::from_fn(|i| {
            let at_pulse = i.abs_diff(PAST).is_multiple_of(period);
            if at_pulse { 8000 } else { 0 }
        });
        let mut sample = 0;
        let mut response = 4096;
        Self {
            pulses,
            samples: pulses.map(|pulse| {
                sample = sample * 3 / 4 + pulse;
                sample
            }),
            impulse: std::array::from_fn(|_| {
                let word = response;
                response = response * 3 / 4;
                word
            }),
        }
    }

    /// What is searched on in a subframe.
    pub fn inputs(&self, subframe: Subframe) -> SubframeInputs<'_> {
        let from = SUBFRAME_SAMPLES * usize::from(subframe.number() - 1);
        SubframeInputs {
            excitation: words_from(&self.pulses, from),
            target: words_from(&self.samples, PAST + from),
            impulse_q12: &self.impulse,
        }
    }
}

/// So many words of a longer list, from a place on.
pub fn words_from<const N: usize>(words: &[i16], place: usize) -> &[i16; N] {
    words[place..].first_chunk().expect("as many words")
}
