//! The programs that `select` is timed against, as one would write them in Rust: 64 KB of buffer on
//! each side.

use crate::{
    codec::mr74::{gain::TABLE, pitch::PitchLag},
    feed::{BODIES, words},
    selection::{Answer, Answered, Stages, TITLE, filter_words, hertz},
};
use std::{
    fs::File,
    hint::black_box,
    io::{self, BufRead, BufReader, BufWriter, Read, Write},
    os::fd::AsFd,
};

const BLOCK: usize = 1 << 16;

/// The subframe of a pitch record that is refused at once.
pub const NO_SUBFRAME: u8 = 9;

type Output = BufWriter<File>;

/// Reads a feed of whole records, and prints the number of each and what `line` makes of it.
fn answer(mut line: impl FnMut(&mut Output, u8, &[u8]) -> io::Result<()>) -> io::Result<()> {
    // As files, without the buffers of their own that standard input and output have.
    let input = File::from(io::stdin().as_fd().try_clone_to_owned()?);
    let output = File::from(io::stdout().as_fd().try_clone_to_owned()?);
    let mut input = BufReader::with_capacity(BLOCK, input);
    let mut output = BufWriter::with_capacity(BLOCK, output);
    let mut body = [0; 551];
    output.write_all(TITLE.as_bytes())?;
    for number in 1u64.. {
        let Some(&kind) = input.fill_buf()?.first() else {
            break;
        };
        input.consume(1);
        let body = &mut body[..BODIES[usize::from(kind)]];
        input.read_exact(body)?;
        write!(output, "{number} ")?;
        line(&mut output, kind, body)?;
        output.write_all(b"\n")?;
    }
    output.flush()
}

/// Does what `select` does, with the stages of the published Rust. The lists that it allocates for
/// a call cost less than a hundredth of its time.
pub fn select() -> io::Result<()> {
    let mut stages = Stages::default();
    answer(|output, kind, body| print(output, &stages.step(kind, body)))
}

/// Computes nothing, and prints what `select` prints for the feeds of `programs`.
pub fn lines() -> io::Result<()> {
    const LAG: [i16; 3] = [82, 1, 97];
    const IMPULSE: i16 = 4096;
    answer(|output, kind, body| match kind {
        0 => output.write_all(b"reset"),
        2 => write!(output, "refused 2 {}", body[0]),
        5 => {
            // The filters let all through, so three of the lists are the speech.
            let speech = words(&body[20..100]);
            let mut impulse = [0; 40];
            impulse[0] = IMPULSE;
            output.write_all(b"filter")?;
            for list in [&speech, &impulse[..], &speech, &speech] {
                print_words(output, list)?;
            }
            Ok(())
        }
        _ => {
            let [samples, thirds, hertz] = black_box(LAG);
            write!(output, "lag {samples} {thirds} {hertz}")
        }
    })
}

fn print(output: &mut Output, answered: &Answered) -> io::Result<()> {
    match answered {
        Ok(Answer::Reset) => output.write_all(b"reset"),
        Ok(Answer::Open(lag)) => write!(output, "open {lag}"),
        Ok(Answer::Pitch(pitch)) => {
            write!(output, "pitch {} ", pitch.index)?;
            print_lag(output, pitch.lag)
        }
        Ok(Answer::Pulses(pulses)) => {
            let (positions, signs) = (pulses.pulse_positions, pulses.pulse_signs);
            write!(output, "pulses {positions} {signs}")
        }
        Ok(Answer::Gain(index)) => {
            let [pitch, correction, _] = TABLE[usize::from(*index)];
            write!(output, "gain {index} {pitch} {correction}")
        }
        Ok(Answer::Filter(prepared)) => {
            output.write_all(b"filter")?;
            print_words(output, &filter_words(prepared))
        }
        Ok(Answer::Lag(lag)) => {
            output.write_all(b"lag ")?;
            print_lag(output, *lag)
        }
        Err(refusal) => write!(output, "refused {} {}", refusal.number, refusal.detail),
    }
}

fn print_lag(output: &mut Output, lag: PitchLag) -> io::Result<()> {
    let (samples, thirds) = (lag.samples(), lag.fraction().thirds());
    write!(output, "{samples} {thirds} {}", hertz(lag))
}

fn print_words(output: &mut Output, words: &[i16]) -> io::Result<()> {
    for word in words {
        write!(output, " {word}")?;
    }
    Ok(())
}
