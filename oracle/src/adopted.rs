//! The published files, changed to call the Rust bindings (../adopted.rs), and the whole encoder
//! before and after that.

// Declares `codec`.
include!(concat!(env!("OUT_DIR"), "/adopted.rs"));

use crate::{
    bindings::{Told, compare_chains, told},
    compare::{Function, Line},
    inputs::Random,
    speech::Speech,
    words::mixed,
};
use std::sync::atomic::{AtomicU64, Ordering};

const FRAMES: usize = 64;
const HALF_FRAME: usize = 80;

pub fn functions() -> [Function; 1] {
    [Function {
        name: "Encoder",
        compare: || {
            let mut lines = compare_chains("encoder.rs, frames", chain);
            lines.push(resonance_cases());
            lines
        },
    }]
}

/// Of the published encoder, the subframes with a resonant spectrum, those of them that are limited
/// by resonance, and of these the ones whose row is another one without the limit.
static RESONANT: AtomicU64 = AtomicU64::new(0);
static LIMITED: AtomicU64 = AtomicU64::new(0);
static CHANGED: AtomicU64 = AtomicU64::new(0);

/// The published encoder calls this in each subframe with a resonant spectrum: see `RESONANT` in
/// oracle/build.rs.
pub fn count_resonant(limited: bool, changed: bool) {
    RESONANT.fetch_add(1, Ordering::Relaxed);
    LIMITED.fetch_add(limited.into(), Ordering::Relaxed);
    CHANGED.fetch_add(changed.into(), Ordering::Relaxed);
}

fn resonance_cases() -> Line {
    let [resonant, limited, changed] =
        [&RESONANT, &LIMITED, &CHANGED].map(|count| count.load(Ordering::Relaxed));
    Line::of_cases([
        ("subframe limited by resonance", limited),
        ("row that this limit changed", changed),
        ("row that this limit left as it was", limited - changed),
        ("resonant subframe that is not limited", resonant - limited),
    ])
}

/// Frames of speech of any loudness, of a test tone, or of any words.
fn chain(index: u64) -> Vec<Told> {
    let random = &mut Random::at(index);
    let bits = 3 + random.below(13) as u32;
    let mut speech = Speech::new(random, bits);
    let mut tone = Tone::new(random, bits);
    let mut ours = codec::mr74::encoder::Encoder::default();
    let mut other = crate::codec::mr74::encoder::Encoder::default();
    let frame = |_| {
        let mut samples = [0; 2 * HALF_FRAME];
        for half in samples.chunks_mut(HALF_FRAME) {
            half.copy_from_slice(&match index % 4 {
                0 => mixed::<HALF_FRAME>(random),
                1 => tone.half_frame(),
                _ => speech.half_frame(random),
            });
        }
        const ENCODED: &str = "a frame whose spectrum is in order";
        [
            told(ours.encode(&samples).expect(ENCODED)),
            told(other.encode(&samples).expect(ENCODED)),
        ]
    };
    (0..FRAMES).map(frame).collect()
}

/// A triangular wave that grows louder over four frames, again and again.
struct Tone {
    period: i32,
    height: i32,
    place: i32,
}

impl Tone {
    /// Its words are of at most `bits` bits.
    fn new(random: &mut Random, bits: u32) -> Self {
        Self {
            period: 4 + random.below(100) as i32,
            height: (1 << bits) - 1,
            place: 0,
        }
    }

    fn half_frame(&mut self) -> [i16; HALF_FRAME] {
        const GROWTH: i32 = 8 * HALF_FRAME as i32;
        std::array::from_fn(|_| {
            self.place += 1;
            let height = self.height * (self.place % GROWTH + GROWTH / 8) / (2 * GROWTH);
            let turn = self.place % self.period;
            let wave = (4 * turn - 2 * self.period).abs() - self.period;
            (height * wave / self.period) as i16
        })
    }
}
