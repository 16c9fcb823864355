//! The recorded sample: inputs of the operators, of the pulses and of the gain row with the answers of
//! the published Rust, for the replay program. The library's answers are not asked for. Half frames
//! and filtered subframes are records of a feed (`selection::record`).
//!
//! A record of `stdin` is a byte for its kind, and what the operator or the stage needs,
//! high bytes first. `stdout` has a title and a line or two for each record.
//!
//! An operator's record is its number, three arguments of 4 bytes, 0 where the operator has no such
//! argument, the length of its name and the name. Its line is the name, the arguments and the answer.

use crate::{
    codec::mr74::{
        codebook, energy,
        gain::{self, quantization},
        logarithm, pitch,
    },
    inputs::{Argument, Random},
    published, pulses,
    subframes::Refusal,
};
use std::{
    fmt::{Display, Write},
    fs, io,
    path::Path,
};

const TITLE: &str = "mr74 replay\n";
const ARGUMENTS: usize = 3;

/// Records of an operator, besides the points that are given for it: of these so many ends of the
/// argument types at most, the others random.
const RECORDS: usize = 100;
const CORNERS: usize = 25;
const ENDS: usize = 35;

/// Random points that are given for an operator whose answers are otherwise mostly alike.
const POINTS: usize = 30;

/// What a record is of: the byte that it starts with.
#[derive(Clone, Copy)]
pub enum Kind {
    Operator = 0,
    Pulses = 1,
    GainRow = 2,
}

/// Records and what is printed for them.
#[derive(Default)]
pub struct Recorded {
    pub stdin: Vec<u8>,
    pub stdout: String,
    pub records: usize,
}

impl Recorded {
    pub fn begin(&mut self, kind: Kind) {
        self.records += 1;
        self.stdin.push(kind as u8);
    }

    /// Adds a line with a name and numbers.
    pub fn line(&mut self, name: &str, numbers: impl IntoIterator<Item: Display>) {
        push_line(&mut self.stdout, name, numbers);
    }

    pub fn add(&mut self, part: Self) {
        self.stdin.extend(part.stdin);
        self.stdout.push_str(&part.stdout);
        self.records += part.records;
    }
}

/// Writes the sample and gives its number of records.
pub fn write(folder: &Path) -> io::Result<usize> {
    let mut all = Recorded {
        stdout: TITLE.to_string(),
        ..Recorded::default()
    };
    all.add(sample());
    all.add(pulses::record::sample());
    all.add(crate::gain::record::sample());
    write_files(folder, &all.stdin, &all.stdout)?;
    Ok(all.records)
}

/// Writes what a program reads and prints.
pub fn write_files(folder: &Path, stdin: &[u8], stdout: &str) -> io::Result<()> {
    fs::create_dir_all(folder)?;
    fs::write(folder.join("stdin"), stdin)?;
    fs::write(folder.join("stdout"), stdout)
}

/// Adds a line with a name and numbers.
pub fn push_line(lines: &mut String, name: &str, numbers: impl IntoIterator<Item: Display>) {
    lines.push_str(name);
    for number in numbers {
        write!(lines, " {number}").expect("a string takes any text");
    }
    lines.push('\n');
}

struct Sample {
    recorded: Recorded,
    random: Random,
}

impl Sample {
    /// Records the points, then some of the ends of the argument types and random inputs.
    fn operator<I: Argument, A: Answer>(
        &mut self,
        number: u8,
        name: &str,
        points: &[I],
        answer: impl Fn(I) -> A,
    ) {
        let mut inputs = points.to_vec();
        inputs.extend(self.some(I::corners(), CORNERS));
        inputs.extend(self.some(I::ends(), ENDS));
        while inputs.len() < points.len() + RECORDS {
            inputs.push(I::random(&mut self.random));
        }
        for input in inputs {
            self.record(number, name, &input.words(), &answer(input).text());
        }
    }

    fn record(&mut self, number: u8, name: &str, arguments: &[i64], answer: &str) {
        let recorded = &mut self.recorded;
        recorded.begin(Kind::Operator);
        recorded.stdin.push(number);
        for place in 0..ARGUMENTS {
            let argument = arguments.get(place).copied().unwrap_or(0);
            let argument = i32::try_from(argument).expect("an argument of at most 32 bits");
            recorded.stdin.extend(argument.to_be_bytes());
        }
        recorded.stdin.push(name.len() as u8);
        recorded.stdin.extend(name.bytes());
        recorded.stdout.push_str(name);
        for argument in arguments {
            recorded.stdout.push_str(&format!(" {argument}"));
        }
        recorded.stdout.push_str(&format!(" {answer}\n"));
    }

    /// At most `count` of the inputs, chosen at random.
    fn some<I>(&mut self, mut inputs: Vec<I>, count: usize) -> Vec<I> {
        if inputs.len() <= count {
            return inputs;
        }
        for place in 0..count {
            let remaining = (inputs.len() - place) as u64;
            inputs.swap(place, place + self.random.below(remaining) as usize);
        }
        inputs.truncate(count);
        inputs
    }

    /// Random values, each with a count of at most `most` places either way.
    fn counts<I: Argument>(&mut self, most: i16) -> Vec<(I, i16)> {
        let counts = 2 * u64::from(most.unsigned_abs()) + 1;
        self.points(|random| (I::random(random), random.below(counts) as i16 - most))
    }

    fn points<I>(&mut self, mut point: impl FnMut(&mut Random) -> I) -> Vec<I> {
        (0..POINTS).map(|_| point(&mut self.random)).collect()
    }
}

/// What an operator answers, as its line tells it.
trait Answer {
    fn text(&self) -> String;
}

macro_rules! number {
    ($($type:ty)+) => {$(
        impl Answer for $type {
            fn text(&self) -> String {
                self.to_string()
            }
        }
    )+};
}

number!(i16 i32 u8 u16 u32);

impl<A: Answer, B: Answer> Answer for (A, B) {
    fn text(&self) -> String {
        format!("{} {}", self.0.text(), self.1.text())
    }
}

impl Answer for Result<i32, Refusal> {
    fn text(&self) -> String {
        match self {
            Ok(value) => value.text(),
            Err(Refusal { number, detail }) => format!("refused {number} {detail}"),
        }
    }
}

fn sample() -> Recorded {
    const LEAST: i16 = i16::MIN;
    const MOST: i16 = i16::MAX;
    let mut sample = Sample {
        recorded: Recorded::default(),
        random: Random::at(0),
    };
    let s = &mut sample;

    s.operator(1, "clip16", &[], |a: i32| {
        a.clamp(LEAST.into(), MOST.into()) as i16
    });
    s.operator(2, "clip32", &[], |(a, b): (i32, i32)| {
        published::saturated(i64::from(a) * i64::from(b))
    });
    s.operator(3, "add16", &[], |(a, b): (i16, i16)| a.saturating_add(b));
    s.operator(4, "sub16", &[], |(a, b): (i16, i16)| a.saturating_sub(b));
    s.operator(5, "negate16", &[], |a: i16| a.saturating_neg());
    s.operator(6, "absolute16", &[], |a: i16| a.saturating_abs());
    s.operator(7, "add32", &[], |(a, b): (i32, i32)| a.saturating_add(b));
    s.operator(8, "sub32", &[], |(a, b): (i32, i32)| a.saturating_sub(b));
    s.operator(9, "negate32", &[], |a: i32| a.saturating_neg());
    s.operator(10, "absolute32", &[], |a: i32| a.saturating_abs());

    s.operator(11, "product", &[(LEAST, LEAST)], |(a, b)| {
        codebook::search::product(a, b)
    });
    let sums = [i32::MIN, -1, 0, 1, i32::MAX].map(|sum| (sum, LEAST, LEAST));
    s.operator(12, "mac", &sums, |(sum, a, b)| gain::mac(sum, a, b));
    s.operator(13, "msu", &sums, |(sum, a, b)| published::msu(sum, a, b));
    let factors = [(LEAST, LEAST), (MOST, -MOST), (MOST, MOST)];
    s.operator(14, "fractional", &factors, |(a, b)| {
        quantization::fractional(a, b)
    });

    s.operator(15, "rounded", &[], quantization::rounded);
    s.operator(16, "high", &[], |a: i32| (a >> 16) as i16);
    s.operator(17, "deposit_high", &[], |a: i16| i32::from(a) << 16);
    s.operator(18, "low_word", &[], |a: i32| a as i16);
    s.operator(19, "split", &[], pitch::search::split);
    s.operator(20, "multiply", &[], |(a, b)| pitch::search::multiply(a, b));
    s.operator(21, "multiply_word", &[], |(a, b)| {
        quantization::multiply_word(a, b)
    });

    // Most counts of 16 bits shift everything out.
    let counts = s.counts(33);
    s.operator(22, "shift", &counts, |(a, b)| quantization::shift(a, b));
    let counts = s.counts(17);
    s.operator(23, "shift_word", &counts, |(a, b)| {
        quantization::shift_word(a, b)
    });
    s.operator(24, "even", &[], |a: i32| a & !1);
    s.operator(25, "normalize", &[], quantization::normalize);
    s.operator(26, "unsigned_abs", &[], |a: i32| a.unsigned_abs());

    // Most pairs of words are outside the domain.
    let quotients = s.points(|random| {
        let denominator = random.below(MOST as u64) + 1;
        (random.below(denominator) as i16, denominator as i16)
    });
    s.operator(27, "divide", &quotients, |(a, b)| published::divide(a, b));

    // All negative numbers have the same answer.
    let mut positive = vec![0, 1];
    positive.extend(s.points(|random| i32::random(random).saturating_abs()));
    s.operator(28, "inverse_sqrt", &positive, energy::inverse_sqrt);
    s.operator(29, "log2", &positive, |a| {
        let logarithm = logarithm::log2(a);
        (logarithm.exponent, logarithm.fraction_q15)
    });

    // The ends of both domains, then powers within them; most others are refused.
    let mut powers = vec![
        (14, 0),
        (30, 0),
        (30, 32767),
        (31, 0),
        (30, 32768),
        (31, 32768),
    ];
    powers.extend(s.points(|random| (random.below(31) as u8, random.below(1 << 15) as u16)));
    s.operator(30, "pow2", &powers, |(a, b)| published::pow2(a, b));

    sample.recorded
}
