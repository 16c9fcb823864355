//! Runs of calls on a list of channels. The inputs of a step are drawn for the channel that the
//! model serves next, as those of a chain of searches: each channel has a chain of its own.

use super::{
    cases::Served,
    model::{Dispatcher, Record, mark},
};
use crate::{
    calls::{self, Call},
    chains::Chain,
    inputs::Random,
    project::NO_CHANNEL,
    search::Searcher,
    subframes::{Refusal, number},
    upper::Upper,
};

/// The longest list that is lent, and the records beside it, before and behind, which no call sees.
pub const LIST: usize = 26;
const BESIDE: usize = 2;

/// The most channels of a list that is not refused.
pub const CHANNELS: usize = 24;

const CALLS: usize = 400;

/// Of so many steps one has inputs that were changed, and one has those of another channel.
const CHANGED_OF: u64 = 8;
const ANOTHERS_OF: u64 = 16;

/// The model's side.
#[derive(Clone)]
pub struct Model {
    /// Those of the list, between those beside it.
    pub records: Vec<Record<Searcher>>,
    pub count: usize,
    pub dispatcher: Dispatcher,
}

impl Model {
    fn drawn(random: &mut Random, count: usize) -> Self {
        let record = |_| Record {
            searcher: Searcher::fresh(match random.below(3) {
                0 => Upper::Player,
                _ => Upper::Handset,
            }),
            waiting: [0, 0, 0, 1, 1, 2, 128, 255][random.below(8) as usize],
        };
        Self {
            records: (0..BESIDE + LIST + BESIDE).map(record).collect(),
            count,
            dispatcher: Dispatcher::default(),
        }
    }

    pub fn list(&self) -> &[Record<Searcher>] {
        lent(&self.records, self.count)
    }

    pub fn next(&self) -> Result<usize, Refusal> {
        self.dispatcher.next(self.list())
    }

    pub fn serve(&mut self, call: &Call) -> Served {
        let list = lent_mut(&mut self.records, self.count);
        let search = |searcher: &mut Searcher| searcher.searched(call);
        self.dispatcher.serve(list, search)
    }

    pub fn mark(&mut self, number: usize) -> Result<usize, Refusal> {
        mark(lent_mut(&mut self.records, self.count), number)
    }

    /// The last served number as it crosses.
    pub fn last(&self) -> usize {
        self.dispatcher.last.unwrap_or(NO_CHANNEL)
    }

    /// Whether there is a channel of this number, and it waits.
    pub fn waits(&self, number: usize) -> bool {
        let channel = self.list().get(number);
        channel.is_some_and(|channel| channel.waiting != 0)
    }
}

/// Of all records those of the list.
pub fn lent<T>(records: &[T], count: usize) -> &[T] {
    &records[BESIDE..][..count]
}

pub fn lent_mut<T>(records: &mut [T], count: usize) -> &mut [T] {
    &mut records[BESIDE..][..count]
}

/// What one place in a run does.
pub enum Action {
    Serve(Call),
    Tell,
    Mark(usize),
    /// The list has this length from here on.
    Resize(usize),
    /// This is given as the last served number.
    Last(usize),
}

/// How the calls of a run are drawn. All runs but those that are changed keep the length of their
/// list, and hand on the last served number.
enum Kind {
    /// Marks for any channels, so many of sixteen calls.
    Drawn(u64),
    /// All channels are marked without end, but for one, which is marked at times.
    Endless(usize),
    /// One channel alone is marked.
    Alone(usize),
    /// All channels are marked, then all are served; now they are marked, or not.
    Rounds(bool),
    /// As drawn, the list being of any length, and the last served number any.
    Changed(u64),
}

pub struct Run<'a> {
    random: Random,
    kind: Kind,
    /// A chain for each channel.
    chains: Vec<Chain<'a>>,
    left: usize,
}

impl<'a> Run<'a> {
    /// The run of this index, and the records that it starts with.
    pub fn at(index: u64, feed: &'a [calls::Step]) -> (Self, Model) {
        const KINDS: u64 = 5;
        const SOURCES: u64 = 8;
        let mut random = Random::at(!index);
        let count = 1 + (index / KINDS) as usize % CHANNELS;
        let model = Model::drawn(&mut random, count);
        let one = random.below(count as u64) as usize;
        let marks = 4 + random.below(9);
        let kind = match index % KINDS {
            0 => Kind::Drawn(marks),
            1 => Kind::Endless(one),
            2 => Kind::Alone(one),
            3 => Kind::Rounds(true),
            _ => Kind::Changed(marks),
        };
        // Each source is met by each channel.
        let chain = |channel| {
            let place = index * LIST as u64 + channel;
            Chain::at(SOURCES * (1 + place) + (index + channel) % SOURCES, feed)
        };
        let run = Self {
            random,
            kind,
            chains: (0..LIST as u64).map(chain).collect(),
            left: CALLS,
        };
        (run, model)
    }

    /// Whether only steps and marks touch the list, which keeps its length, and the last number.
    pub fn is_kept(&self) -> bool {
        !matches!(self.kind, Kind::Changed(_))
    }

    /// The channel that is marked at times, beside others that are marked without end.
    pub fn one_beside_endless(&self) -> Option<usize> {
        match self.kind {
            Kind::Endless(one) => Some(one),
            _ => None,
        }
    }

    /// The next action, which leans on the model.
    pub fn next(&mut self, model: &Model) -> Option<Action> {
        self.left = self.left.checked_sub(1)?;
        let idle = (0..model.count).find(|&channel| !model.waits(channel));
        Some(match self.kind {
            Kind::Drawn(marks) => self.drawn(marks, model),
            Kind::Endless(one) => {
                let others = (0..model.count).find(|&other| other != one && !model.waits(other));
                match (others, self.random.below(8)) {
                    (Some(other), _) => Action::Mark(other),
                    (_, 0) => Action::Tell,
                    (_, 1) => Action::Mark(one),
                    _ => self.step(model),
                }
            }
            Kind::Alone(one) => match self.random.below(8) {
                0 => Action::Tell,
                1..=5 if !model.waits(one) => Action::Mark(one),
                1 => Action::Mark(one),
                _ => self.step(model),
            },
            Kind::Rounds(true) => match idle {
                Some(idle) => Action::Mark(idle),
                None => {
                    self.kind = Kind::Rounds(false);
                    self.step(model)
                }
            },
            Kind::Rounds(false) => {
                let any = (0..model.count).any(|channel| model.waits(channel));
                self.kind = Kind::Rounds(!any && self.random.below(2) == 0);
                self.step(model)
            }
            Kind::Changed(marks) => match self.random.below(8) {
                0 => Action::Resize(self.length()),
                1 => Action::Last(self.last(model.count)),
                _ => self.drawn(marks, model),
            },
        })
    }

    /// Of sixteen calls so many are marks.
    fn drawn(&mut self, marks: u64, model: &Model) -> Action {
        match self.random.below(16) {
            0 => Action::Tell,
            choice if choice <= marks => Action::Mark(self.number(model.count)),
            _ => self.step(model),
        }
    }

    /// A number to mark, mostly one of the list.
    fn number(&mut self, count: usize) -> usize {
        let random = &mut self.random;
        match random.below(32) {
            0 => count,
            1 => count + 1 + random.below(4) as usize,
            2 => usize::MAX,
            3 => random.word() as usize,
            _ => random.below(count.max(1) as u64) as usize,
        }
    }

    fn length(&mut self) -> usize {
        let length = match self.random.below(8) {
            0 => return [0, 25, 26][self.random.below(3) as usize],
            1 => return [1, 24][self.random.below(2) as usize],
            _ => 1 + self.random.below(CHANNELS as u64),
        };
        length as usize
    }

    fn last(&mut self, count: usize) -> usize {
        let random = &mut self.random;
        match random.below(8) {
            0 => NO_CHANNEL,
            1 => count.saturating_sub(1),
            2 => count,
            3 => count + 1 + random.below(4) as usize,
            4 => NO_CHANNEL - 1,
            5 => random.word() as usize,
            _ => random.below(count.max(1) as u64) as usize,
        }
    }

    /// A step with the inputs of the next channel, mostly, and mostly as they were drawn. Where
    /// none is served the inputs are often wrong too.
    fn step(&mut self, model: &Model) -> Action {
        let next = model.next();
        let random = &mut self.random;
        let other = random.below(LIST as u64) as usize;
        let channel = match next {
            Ok(next) if random.below(ANOTHERS_OF) != 0 => next,
            _ => other,
        };
        let searcher = &lent(&model.records, LIST)[channel].searcher;
        let mut call = self.chains[channel].call(searcher);
        let changed_of = if next.is_ok() { CHANGED_OF } else { 2 };
        if random.below(changed_of) == 0 {
            call.add_faults(random, number(searcher.search.next), searcher.upper);
        }
        Action::Serve(call)
    }
}
