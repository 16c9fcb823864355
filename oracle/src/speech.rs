//! Inputs that resemble voiced speech: pulses at a slowly changing distance, a little noise, and
//! the decaying response of a filter.

use crate::{
    codec::mr74::pitch::search::convolve,
    inputs::Random,
    words::{EXCITATION, HISTORY, SUBFRAME, impulse_response},
};

pub struct Speech {
    pub excitation: [i16; EXCITATION],
    pub impulse: [i16; SUBFRAME],
    /// The distance of the pulses and the places up to the next.
    period: u64,
    until_pulse: u64,
    height: i64,
}

impl Speech {
    /// The highest pulses are of `bits` bits, at most 15.
    pub fn new(random: &mut Random, bits: u32) -> Self {
        let mut speech = Self {
            excitation: [0; EXCITATION],
            impulse: impulse_response(random),
            period: 20 + random.below(124),
            until_pulse: 0,
            height: (1 << bits) - 1 - random.below(1 << (bits - 1)) as i64,
        };
        for _ in 0..EXCITATION.div_ceil(SUBFRAME) {
            speech.advance(random);
        }
        speech
    }

    /// Goes on by a subframe.
    pub fn advance(&mut self, random: &mut Random) {
        self.excitation.copy_within(SUBFRAME.., 0);
        for place in HISTORY..EXCITATION {
            self.excitation[place] = self.next_word(random);
        }
        if random.below(4) == 0 {
            self.impulse = impulse_response(random);
        }
    }

    fn next_word(&mut self, random: &mut Random) -> i16 {
        let noise = random.below(self.height as u64 / 4 + 2) as i64 - self.height / 8;
        if self.until_pulse > 0 {
            self.until_pulse -= 1;
            return noise as i16;
        }
        self.period = (self.period + random.below(5)).clamp(22, 145) - 2;
        self.until_pulse = self.period - 1;
        (self.height - noise.abs()) as i16
    }

    /// The current subframe, filtered.
    pub fn target(&self) -> [i16; SUBFRAME] {
        let (_, current) = self.excitation.split_at(HISTORY);
        convolve(current.try_into().expect("a subframe"), &self.impulse)
    }

    /// The next two subframes, filtered.
    pub fn half_frame(&mut self, random: &mut Random) -> [i16; 2 * SUBFRAME] {
        let mut words = [0; 2 * SUBFRAME];
        for subframe in words.chunks_mut(SUBFRAME) {
            self.advance(random);
            subframe.copy_from_slice(&self.target());
        }
        words
    }

    /// A lag about the pulses' distance, at times about its half or its double.
    pub fn open_loop(&self, random: &mut Random) -> u16 {
        let lag = match random.below(16) {
            0 => self.period / 2,
            1 => self.period * 2,
            _ => (self.period + random.below(5)).saturating_sub(2),
        };
        lag.clamp(20, 143) as u16
    }
}
