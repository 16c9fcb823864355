//! Records as an encoder hands them on: two half frames, then for each of the four subframes
//! filtering, pitch, the reading of the sent index, pulses and gain, each made of the answers before
//! it.

use super::{
    answers::{Answer, Answered},
    bodies::{self, places},
    drawn::byte,
    stages::Stages,
};
use crate::{
    calls,
    codec::mr74::{gain::quantization::pitch_gain, pitch::search::convolve},
    feed::{Record, bytes, words},
    filtering, gain,
    inputs::Random,
    pulses,
    speech::Speech,
    words::{EXCITATION, HISTORY, SUBFRAME},
};

/// The frames after which another piece of speech begins.
const FRAMES: usize = 12;
const HALVES: usize = 2;
/// The kinds of a subframe's records in order.
const SUBFRAME_KINDS: [u8; 5] = [5, 2, 6, 3, 4];
const FRAME_RECORDS: usize = HALVES + 4 * SUBFRAME_KINDS.len();

/// Of so many records one is left out, one is a reset, and of so many readings one is damaged.
const LEFT_OUT_OF: u64 = 500;
const RESET_OF: u64 = 500;
const DAMAGED_OF: u64 = 16;

type Words = [i16; SUBFRAME];

pub struct Encoder<'a> {
    /// The frames of a sample, where there is one.
    sample: &'a [Record],
    piece: Piece,
    /// The records of this piece that are done.
    done: usize,
    /// What the answers before gave.
    open_loop: [u16; HALVES],
    index: u8,
    excitation: [i16; EXCITATION],
    target: Words,
    impulse: Words,
    adaptive: Words,
    filtered: Words,
}

/// Where the words of a piece come from.
enum Piece {
    Speech {
        speech: Box<Speech>,
        bits: u32,
    },
    /// The sample's records from a place on, by so much louder and shifted right by so many places.
    Changed {
        place: usize,
        loudness: i16,
        places: u32,
    },
}

impl<'a> Encoder<'a> {
    /// The sample is left aside unless it is a reset and then frames.
    pub fn new(random: &mut Random, sample: &'a [Record]) -> Self {
        match sample {
            [_, frames @ ..] if frames.chunks(FRAME_RECORDS).all(is_frame) => {
                Self::of_frames(random, frames)
            }
            _ => Self::of_frames(random, &[]),
        }
    }

    fn of_frames(random: &mut Random, sample: &'a [Record]) -> Self {
        Self {
            sample,
            piece: Piece::new(random, sample),
            done: 0,
            open_loop: [40; HALVES],
            index: 0,
            excitation: [0; EXCITATION],
            target: [0; SUBFRAME],
            impulse: [0; SUBFRAME],
            adaptive: [0; SUBFRAME],
            filtered: [0; SUBFRAME],
        }
    }

    /// The next record; the first of a piece is a reset.
    pub fn next(
        &mut self,
        random: &mut Random,
        stages: &Stages,
        last: Option<&Answered>,
    ) -> Record {
        if let Some(Ok(answer)) = last {
            self.take_in(stages, answer);
        }
        if self.done == FRAMES * FRAME_RECORDS {
            *self = Self::of_frames(random, self.sample);
            return reset();
        }
        if random.below(RESET_OF) == 0 {
            return reset();
        }
        if random.below(LEFT_OUT_OF) == 0 {
            self.pass_over();
        }
        let place = self.done % FRAME_RECORDS;
        self.done += 1;
        let Some(place) = place.checked_sub(HALVES) else {
            return self.half_frame(random);
        };
        let subframe = 1 + (place / SUBFRAME_KINDS.len()) as u8;
        let kind = SUBFRAME_KINDS[place % SUBFRAME_KINDS.len()];
        let mut record = match self.changed() {
            Some(record) => record,
            None => self.made(random, kind, stages),
        };
        match kind {
            2 => record.body[places::PITCH_SUBFRAME] = subframe,
            6 => {
                let damaged = random.below(DAMAGED_OF) == 0;
                let index = if damaged { byte(random) } else { self.index };
                record.body = vec![subframe, index];
            }
            _ => {}
        }
        record
    }

    /// Keeps what a later record is made of. The lags are at most the searcher's upper one.
    fn take_in(&mut self, stages: &Stages, answer: &Answer) {
        match answer {
            Answer::Open(lag) => {
                let upper = stages.searcher.upper.samples();
                self.open_loop = [self.open_loop[1], (*lag).min(upper)];
            }
            Answer::Filter(prepared) => {
                self.excitation.copy_within(SUBFRAME.., 0);
                self.excitation[HISTORY..].copy_from_slice(&prepared.residual_q0);
                self.target = prepared.target_q0;
                self.impulse = prepared.impulse_q12;
            }
            Answer::Pitch(pitch) => {
                self.index = pitch.index;
                let lag = usize::from(stages.searcher.search.previous.samples());
                let past = self.excitation[HISTORY - lag..][..SUBFRAME].try_into();
                self.adaptive = convolve(past.expect("a subframe"), &self.impulse);
            }
            Answer::Pulses(pulses) => self.filtered = pulses.filtered_q12,
            _ => {}
        }
    }

    /// Leaves the next record out.
    fn pass_over(&mut self) {
        self.done += 1;
        if let Piece::Changed { place, .. } = &mut self.piece {
            *place += 1;
        }
    }

    fn half_frame(&mut self, random: &mut Random) -> Record {
        if let Some(record) = self.changed() {
            return record;
        }
        let Piece::Speech { speech, .. } = &mut self.piece else {
            unreachable!("a piece of either kind");
        };
        let body = bytes(&speech.half_frame(random));
        Record { kind: 1, body }
    }

    /// The sample's next record, louder or quieter, where the piece is of the sample.
    fn changed(&mut self) -> Option<Record> {
        let Piece::Changed {
            place,
            loudness,
            places,
        } = &mut self.piece
        else {
            return None;
        };
        let record = &self.sample[*place % self.sample.len()];
        let mut record = changed(record, *loudness, *places);
        *place += 1;
        if record.kind == 2 {
            for (place, lag) in places::PITCH_LAGS.into_iter().zip(self.open_loop) {
                record.body[place] = lag as u8;
            }
        }
        Some(record)
    }

    /// A record of a subframe, made of what was answered.
    fn made(&mut self, random: &mut Random, kind: u8, stages: &Stages) -> Record {
        let Piece::Speech { speech, bits } = &mut self.piece else {
            unreachable!("a piece of either kind");
        };
        let body = match kind {
            5 => {
                let mut call = filtering::speech_call(random);
                speech.advance(random);
                let (_, current) = speech.excitation.split_at(EXCITATION - call.speech.len());
                call.speech.copy_from_slice(current);
                bodies::filtering(&call)
            }
            2 => bodies::pitch(&calls::Call {
                excitation: self.excitation.to_vec(),
                target: self.target.to_vec(),
                impulse: self.impulse.to_vec(),
                open_loop: self.open_loop,
                subframe: 0,
            }),
            3 => bodies::pulses(&pulses::Call {
                target: self.pulse_target(),
                impulse: self.impulse,
                lag: stages.searcher.search.previous.samples(),
                gain: random.below(13018) as i16,
            }),
            4 => {
                let call = gain::speech_call(random, *bits);
                bodies::gain(&gain::Call {
                    target: self.target,
                    adaptive: self.adaptive,
                    filtered: self.filtered,
                    ..call
                })
            }
            _ => Vec::new(),
        };
        Record { kind, body }
    }

    /// The target without the part that the past excitation gives.
    fn pulse_target(&self) -> Words {
        let gain = i64::from(pitch_gain(&self.target, &self.adaptive).gain_q14);
        std::array::from_fn(|place| {
            let part = (gain * i64::from(self.adaptive[place])) >> 14;
            let part = part.clamp(i16::MIN.into(), i16::MAX.into()) as i16;
            self.target[place].saturating_sub(part)
        })
    }
}

impl Piece {
    /// Every other one is of the sample, where there is one, from one of its frames on.
    fn new(random: &mut Random, sample: &[Record]) -> Self {
        if !sample.is_empty() && random.below(2) == 0 {
            let frames = sample.len() / FRAME_RECORDS;
            let frame = random.below(frames as u64) as usize;
            return Self::Changed {
                place: FRAME_RECORDS * frame,
                loudness: [1, 1, 2, 8, 32, 256][random.below(6) as usize],
                places: random.below(8) as u32,
            };
        }
        let bits = 3 + random.below(13) as u32;
        Self::Speech {
            speech: Box::new(Speech::new(random, bits)),
            bits,
        }
    }
}

/// A record whose signals, not its filters, are by so much louder, clipped, and shifted right by so
/// many places.
pub fn changed(record: &Record, loudness: i16, places: u32) -> Record {
    let mut record = record.clone();
    let lists = match record.kind {
        1 => 0..160,
        2 => 1..1 + 2 * (EXCITATION + SUBFRAME),
        3 => 0..2 * SUBFRAME,
        4 => 0..4 * SUBFRAME,
        5 => 0..100,
        _ => 0..0,
    };
    let list = &mut record.body[lists];
    let words = words(list).into_iter();
    let words: Vec<i16> = words
        .map(|word| word.saturating_mul(loudness) >> places)
        .collect();
    list.copy_from_slice(&bytes(&words));
    record
}

/// Whether these are the records of a frame.
fn is_frame(records: &[Record]) -> bool {
    let kinds = [1; HALVES].into_iter().chain(SUBFRAME_KINDS.repeat(4));
    records.iter().map(|record| record.kind).eq(kinds)
}

fn reset() -> Record {
    Record {
        kind: 0,
        body: Vec::new(),
    }
}
