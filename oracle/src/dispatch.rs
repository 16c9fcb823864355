//! The dispatcher: runs of steps, marks and tellings on a list of channels, handsets' and players'.
//! What is expected is a model's answer, whose records hold published searches.

mod cases;
pub mod model;
mod numbers;
mod runs;

use crate::{
    calls::{self, Call},
    compare::{Function, Line, in_threads},
    counts::Cases,
    feed, frames,
    project::{self, ChannelAnswer, ChannelState, NO_CHANNEL, ServiceAnswer},
    search::Searcher,
    subframes::Refusal,
};
use cases::{Before, Case, Past, Served};
use model::Record;
use runs::{Action, CHANNELS, Model, Run, lent, lent_mut};
use std::{cmp::Ordering, fmt, hint::black_box};

const RUNS: u64 = 6_000;

pub fn functions() -> [Function; 2] {
    [
        Function {
            name: "dispatch",
            compare: compare_runs,
        },
        Function {
            name: "dispatch_state",
            compare: numbers::compare_numbers,
        },
    ]
}

/// What was compared, and what runs met.
struct Tally {
    steps: Line,
    lasts: Line,
    marks: Line,
    tellings: Line,
    records: Line,
    own: Line,
    waits: Line,
    cases: Cases<Case>,
    /// How many channels were served at the last step that 02 allows, by the length of their list,
    /// of all, and of those that are marked at times beside others that are marked without end.
    longest: [[u64; CHANNELS]; 2],
    /// The most steps that a channel waited.
    most: usize,
}

impl Tally {
    fn new() -> Self {
        Self {
            steps: Line::new("model over pitch/search.rs, answers of steps"),
            lasts: Line::new("model, last served numbers after steps"),
            marks: Line::new("model, answers of marks"),
            tellings: Line::new("model, answers of tellings"),
            records: Line::new("model over pitch/search.rs, every record after each call"),
            own: Line::new("pitch/search.rs, a channel's answers to its own inputs"),
            waits: Line::new("rule of 02, steps while channels wait"),
            cases: Cases::new(),
            longest: [[0; CHANNELS]; 2],
            most: 0,
        }
    }

    fn add(&mut self, part: Self) {
        self.steps.add(part.steps);
        self.lasts.add(part.lasts);
        self.marks.add(part.marks);
        self.tellings.add(part.tellings);
        self.records.add(part.records);
        self.own.add(part.own);
        self.waits.add(part.waits);
        self.cases.add(part.cases);
        self.most = self.most.max(part.most);
        let parts = part.longest.as_flattened();
        for (count, part) in self.longest.as_flattened_mut().iter_mut().zip(parts) {
            *count += part;
        }
    }

    fn lines(mut self) -> Vec<Line> {
        const LONGEST: [&str; 2] = [
            "channel served by as many steps as its list has channels, of the length for which that \
             is rarest",
            "the same of a channel beside others that are marked without end",
        ];
        self.waits.show_number(self.most, "steps, the longest wait");
        let mut cases = self.cases.counts(|_| true);
        for (text, counts) in LONGEST.into_iter().zip(self.longest) {
            cases.push((text, counts.into_iter().min().expect("a length")));
        }
        vec![
            self.steps,
            self.lasts,
            self.marks,
            self.tellings,
            self.records,
            self.own,
            self.waits,
            Line::of_cases(cases),
        ]
    }
}

fn compare_runs() -> Vec<Line> {
    let feed = feed::steps("searches", calls::step, |step| {
        matches!(step, calls::Step::Search(_))
    });
    let parts = in_threads(RUNS, Tally::new, |tally, runs| {
        runs.for_each(|index| compare_run(tally, index, &feed));
    });
    let mut tally = Tally::new();
    parts.into_iter().for_each(|part| tally.add(part));
    tally.lines()
}

fn compare_run(tally: &mut Tally, index: u64, feed: &[calls::Step]) {
    let (mut run, mut model) = Run::at(index, feed);
    let mut past = Past::default();
    let mut library = Library::of(&model);
    let mut channels = Channels::of(&model);
    let mut number = 0;
    while let Some(action) = run.next(&model) {
        number += 1;
        let place = Place {
            run: index,
            number,
            count: model.count,
            last: model.last(),
            action: &action,
        };
        match &action {
            Action::Serve(call) => {
                let waiting = library.waiting();
                let answer = tally.compare_step(&place, &mut library, &mut model, call, &mut past);
                if run.is_kept() {
                    channels.add(answer, call);
                    let one = run.one_beside_endless();
                    channels.compare_waits(tally, &place, &waiting, (answer.channel, one));
                }
            }
            Action::Tell => tally.compare_telling(&place, &mut library, &model, &mut past),
            Action::Mark(channel) => {
                tally.compare_mark(&place, &mut library, &mut model, *channel, &mut past);
            }
            Action::Resize(count) => {
                past.before = match count.cmp(&model.count) {
                    Ordering::Less => Before::Shortened,
                    Ordering::Equal => Before::Other,
                    Ordering::Greater => Before::Lengthened,
                };
                (model.count, library.count) = (*count, *count);
                continue;
            }
            Action::Last(last) => {
                past.before = Before::Other;
                model.dispatcher.last = Some(*last).filter(|&last| last != NO_CHANNEL);
                library.last = *last;
                continue;
            }
        }
        tally.compare_records(&place, &mut library, &model);
    }
    channels.compare_own(tally, index);
}

impl Tally {
    fn compare_step(
        &mut self,
        place: &Place<'_>,
        library: &mut Library,
        model: &mut Model,
        call: &Call,
        past: &mut Past,
    ) -> ServiceAnswer {
        let answer = library.serve(call);
        let before = model.clone();
        let served = model.serve(call);
        self.cases
            .count_found(&past.of_step(&before, call, &served));
        let expected = service_answer(&served, model.last());
        self.lasts
            .compare(place.run, place, &answer.last, &expected.last);
        let [ours, other] = [answer, expected].map(|answer| ServiceAnswer { last: 0, ..answer });
        self.steps.compare(place.run, place, &ours, &other);
        library.last = expected.last;
        answer
    }

    fn compare_telling(
        &mut self,
        place: &Place<'_>,
        library: &mut Library,
        model: &Model,
        past: &mut Past,
    ) {
        let told = model.next();
        self.cases.count_found(&past.of_telling(&told));
        let ours = project::next(library.list(), library.last);
        // The compiler may take a list that is lent for reading as unchanged.
        black_box(&mut library.records);
        self.tellings
            .compare(place.run, place, &ours, &channel_answer(told));
    }

    fn compare_mark(
        &mut self,
        place: &Place<'_>,
        library: &mut Library,
        model: &mut Model,
        number: usize,
        past: &mut Past,
    ) {
        let ours = project::mark(library.list_mut(), number);
        let waited = model.waits(number);
        let marked = model.mark(number);
        let met = past.of_mark(model.count, (number, waited), &marked);
        self.cases.count_found(&met);
        self.marks
            .compare(place.run, place, &ours, &channel_answer(marked));
    }

    /// Compares all records, those beside the list too. The library goes on from the model's, so
    /// that one difference brings no others.
    fn compare_records(&mut self, place: &Place<'_>, library: &mut Library, model: &Model) {
        let expected: Vec<_> = model.records.iter().map(channel_state).collect();
        let mut pairs = library.records.iter().zip(&expected);
        let different = pairs.position(|(ours, other)| ours != other);
        self.records.compared += 1;
        if let Some(record) = different {
            let [ours, other] = [&library.records, &expected].map(|records| records[record]);
            self.records
                .difference(place.run, place, &(record, ours), &other);
            library.records = expected;
        }
    }
}

/// The library's side.
struct Library {
    records: Vec<ChannelState>,
    count: usize,
    last: usize,
}

impl Library {
    fn of(model: &Model) -> Self {
        Self {
            records: model.records.iter().map(channel_state).collect(),
            count: model.count,
            last: model.last(),
        }
    }

    fn list(&self) -> &[ChannelState] {
        lent(&self.records, self.count)
    }

    fn list_mut(&mut self) -> &mut [ChannelState] {
        lent_mut(&mut self.records, self.count)
    }

    fn waiting(&self) -> Vec<bool> {
        let list = self.list().iter();
        list.map(|channel| channel.waiting != 0).collect()
    }

    fn serve(&mut self, call: &Call) -> ServiceAnswer {
        let last = self.last;
        serve(self.list_mut(), last, call)
    }
}

/// What the library answers to a step with these inputs.
pub fn serve(channels: &mut [ChannelState], last: usize, call: &Call) -> ServiceAnswer {
    let lists = [&call.excitation, &call.target, &call.impulse].map(Vec::as_slice);
    project::serve(channels, last, lists, call.open_loop, call.subframe)
}

fn channel_state(record: &Record<Searcher>) -> ChannelState {
    ChannelState {
        searcher: record.searcher.state(),
        waiting: record.waiting,
    }
}

/// The model's answer in the form of the library's.
fn service_answer(served: &Served, last: usize) -> ServiceAnswer {
    let (channel, found) = match *served {
        Ok((channel, found)) => (channel, found),
        Err(refusal) => (NO_CHANNEL, Err(refusal)),
    };
    let refusal = found.err().unwrap_or(ACCEPTED);
    ServiceAnswer {
        number: refusal.number,
        magnitude: refusal.detail,
        channel,
        last,
        pitch: found.map_or(frames::REFUSED, frames::pitch),
    }
}

const ACCEPTED: Refusal = Refusal {
    number: 0,
    detail: 0,
};

/// The model's answer to a telling or a mark in the form of the library's.
fn channel_answer(found: Result<usize, Refusal>) -> ChannelAnswer {
    let refusal = found.err().unwrap_or(ACCEPTED);
    ChannelAnswer {
        number: refusal.number,
        magnitude: refusal.detail,
        channel: found.unwrap_or(NO_CHANNEL),
    }
}

/// The channels of a run that keeps its list: what 02 says of each by itself.
struct Channels {
    /// Each channel's own searches, by the library's answers: its inputs and what was answered.
    own: Vec<(Searcher, Vec<(Call, ServiceAnswer)>)>,
    /// The steps since each channel waits.
    steps: Vec<usize>,
}

impl Channels {
    fn of(model: &Model) -> Self {
        let list = model.list().iter();
        Self {
            own: list
                .map(|channel| (channel.searcher.clone(), Vec::new()))
                .collect(),
            steps: vec![0; model.count],
        }
    }

    fn add(&mut self, answer: ServiceAnswer, call: &Call) {
        if let Some((_, own)) = self.own.get_mut(answer.channel) {
            own.push((call.clone(), answer));
        }
    }

    /// Compares the steps since each channel waits with the length of the list.
    fn compare_waits(
        &mut self,
        tally: &mut Tally,
        place: &Place<'_>,
        waiting: &[bool],
        (served, one): (usize, Option<usize>),
    ) {
        let count = self.steps.len();
        for (channel, waits) in waiting.iter().enumerate() {
            if !waits {
                continue;
            }
            self.steps[channel] += 1;
            let steps = self.steps[channel];
            tally.waits.compared += 1;
            tally.most = tally.most.max(steps);
            // One that still waits needs another step.
            let allowed = count - usize::from(channel != served);
            if steps > allowed {
                tally
                    .waits
                    .difference(place.run, place, &(channel, steps), &allowed);
            }
            if channel == served {
                let [all, beside] = &mut tally.longest;
                all[count - 1] += u64::from(steps == count);
                beside[count - 1] += u64::from(steps == count && one == Some(served));
                self.steps[channel] = 0;
            }
        }
    }

    /// Compares each channel's answers with those of a published search that is given the channel's
    /// own inputs and no others.
    fn compare_own(self, tally: &mut Tally, run: u64) {
        for (channel, (mut searcher, own)) in self.own.into_iter().enumerate() {
            for (call, answer) in own {
                let found = searcher.searched(&call);
                let expected = service_answer(&Ok((channel, found)), answer.last);
                tally.own.compared += 1;
                if answer != expected {
                    tally
                        .own
                        .difference(run, &(run, channel, call), &answer, &expected);
                }
            }
        }
    }
}

/// A call of a run, as a report shows it.
struct Place<'a> {
    run: u64,
    number: usize,
    count: usize,
    last: usize,
    action: &'a Action,
}

impl fmt::Debug for Place<'_> {
    fn fmt(&self, f: &mut fmt::Formatter<'_>) -> fmt::Result {
        let Self {
            run,
            number,
            count,
            last,
            ..
        } = self;
        write!(f, "run {run} call {number} of {count} channels last {last}")?;
        match self.action {
            Action::Serve(call) => write!(f, " step {call:?}"),
            Action::Tell => write!(f, " telling"),
            Action::Mark(number) => write!(f, " mark {number}"),
            Action::Resize(_) | Action::Last(_) => Ok(()),
        }
    }
}
