//! The counting comparison over a list of inputs.

use crate::inputs::Inputs;
use std::{
    fmt::{self, Debug},
    ops::Range,
    sync::atomic::{AtomicU64, Ordering},
    thread,
};

const THREADS: usize = 2;
/// The indexes that a thread takes at once, at most and as a part of all.
const CHUNK: u64 = 1 << 20;
const CHUNKS: u64 = 64;
const SHOWN: usize = 5;

/// A function, or a part of its inputs that has a comparison of its own.
pub struct Function {
    pub name: &'static str,
    pub compare: fn() -> Vec<Line>,
}

/// `function!(NAME, INPUTS, |ARGUMENTS| OURS, { WITH => OTHER, .. })`
macro_rules! function {
    (
        $name:literal,
        $inputs:expr,
        |$arguments:pat_param| $ours:expr,
        { $($with:literal => $other:expr),+ $(,)? }
    ) => {
        $crate::compare::Function {
            name: $name,
            compare: || {
                $crate::compare::compare(
                    &$inputs,
                    |$arguments| $ours,
                    [$($with),+],
                    |$arguments| [$($other),+],
                )
            },
        }
    };
}
pub(crate) use function;

/// The outcome of comparing one function with one other answer.
pub struct Line {
    /// What the function was compared with.
    pub with: &'static str,
    pub compared: u64,
    pub differ: u64,
    /// The first inputs that differ, by their place in the list.
    shown: Vec<(u64, String)>,
}

impl Line {
    pub fn new(with: &'static str) -> Self {
        Self {
            with,
            compared: 0,
            differ: 0,
            shown: Vec::new(),
        }
    }

    /// The cases that the inputs must meet, each with how often they did. One that they never met
    /// counts as differing: equal answers would say nothing about it.
    pub fn of_cases(counts: impl IntoIterator<Item = (&'static str, u64)>) -> Self {
        let mut line = Self::new("cases that must occur");
        for (case, count) in counts {
            let never = if count == 0 { ": never met" } else { "" };
            line.show_number(count, &format!("{case}{never}"));
            line.compared += 1;
            line.differ += u64::from(count == 0);
        }
        line
    }

    /// Cases that may never be met, each with how often they were.
    pub fn of_counts(counts: impl IntoIterator<Item = (&'static str, u64)>) -> Self {
        let mut line = Self::new("cases that are only counted");
        for (case, count) in counts {
            line.show_number(count, case);
        }
        line
    }

    /// A number, and what it is of.
    pub fn show_number(&mut self, number: impl fmt::Display, text: &str) {
        let place = self.shown.len() as u64;
        self.shown.push((place, format!("{number:>9} {text}")));
    }

    /// Compares one value with the one that is expected.
    pub fn compare<T: Debug + PartialEq>(
        &mut self,
        index: u64,
        input: &dyn Debug,
        ours: &T,
        other: &T,
    ) {
        self.compared += 1;
        if ours != other {
            self.difference(index, input, ours, other);
        }
    }

    #[cold]
    pub fn difference(
        &mut self,
        index: u64,
        input: &dyn Debug,
        ours: &dyn Debug,
        other: &dyn Debug,
    ) {
        self.tell_difference(index, || {
            format!("{input:?}: library {ours:?}, expected {other:?}")
        });
    }

    /// A difference that is told in these words.
    #[cold]
    pub fn tell_difference(&mut self, index: u64, text: impl FnOnce() -> String) {
        self.differ += 1;
        if self.shown.len() < SHOWN {
            self.shown.push((index, text()));
        }
    }

    /// Adds the part that another thread compared.
    pub fn add(&mut self, part: Line) {
        self.compared += part.compared;
        self.differ += part.differ;
        self.shown.extend(part.shown);
        self.shown.sort();
        self.shown.truncate(SHOWN);
    }
}

impl fmt::Display for Line {
    fn fmt(&self, f: &mut fmt::Formatter<'_>) -> fmt::Result {
        write!(f, "({}) {} compared", self.with, self.compared)?;
        if self.differ != 0 {
            write!(f, ", {} differ", self.differ)?;
        }
        for (_, text) in &self.shown {
            write!(f, "\n    {text}")?;
        }
        Ok(())
    }
}

/// Does the work for all the indexes below `count`, and gives what each thread made of the empty
/// thing that it started with.
pub fn in_threads<T: Send>(
    count: u64,
    empty: impl Fn() -> T + Sync,
    work: impl Fn(&mut T, Range<u64>) + Sync,
) -> [T; THREADS] {
    // The threads take the next chunk in turn, so each sees its indexes in order.
    let chunk = (count / CHUNKS).clamp(1, CHUNK);
    let next = AtomicU64::new(0);
    let thread = || {
        let mut made = empty();
        loop {
            let start = next.fetch_add(chunk, Ordering::Relaxed);
            if start >= count {
                return made;
            }
            work(&mut made, start..count.min(start + chunk));
        }
    };
    thread::scope(|scope| {
        [(); THREADS]
            .map(|()| scope.spawn(thread))
            .map(|thread| thread.join().expect("a comparing thread panicked"))
    })
}

/// Compares `ours` with each of the answers of `others` on all the inputs, one line an answer.
///
/// The answers of `others` are taken in one pass, so that `ours` is called once an input.
pub fn compare<I, A, F, const N: usize>(
    inputs: &Inputs<F>,
    ours: impl Fn(I) -> A + Sync,
    with: [&'static str; N],
    others: impl Fn(I) -> [A; N] + Sync,
) -> Vec<Line>
where
    I: Copy + Debug,
    A: PartialEq + Debug,
    F: Fn(u64) -> Option<I> + Sync,
{
    let work = |lines: &mut [Line; N], indexes: Range<u64>| {
        let mut compared = 0;
        for index in indexes {
            let Some(input) = (inputs.at)(index) else {
                continue;
            };
            compared += 1;
            let answer = ours(input);
            for (line, other) in lines.iter_mut().zip(others(input)) {
                if answer != other {
                    line.difference(index, &input, &answer, &other);
                }
            }
        }
        for line in lines {
            line.compared += compared;
        }
    };
    let empty = || with.map(Line::new);
    let mut lines = empty();
    for parts in in_threads(inputs.count, empty, work) {
        for (line, part) in lines.iter_mut().zip(parts) {
            line.add(part);
        }
    }
    lines.into()
}
