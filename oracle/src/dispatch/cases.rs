//! The cases that the comparison of dispatchers must meet.

use super::runs::{LIST, Model};
use crate::{
    calls::Call,
    codec::mr74::pitch::search::SearchedPitch,
    counts::{Found, cases},
    subframes::Refusal,
    upper::Upper,
};

/// What the model answers to a step: the served channel and its search's answer.
pub type Served = Result<(usize, Result<SearchedPitch, Refusal>), Refusal>;

cases! {
    Fresh => "step serves, none was served before",
    Further => "step serves a higher number than the last one",
    Round => "step serves a lower number, gone round",
    Itself => "step serves the last served channel again, others do not wait",
    Alone => "step serves the last served channel again, alone in its list",
    LastInList => "step serves, last served number the list's last",
    LastAtLength => "step serves, last served number equal to the length",
    LastBeyond => "step serves, last served number above the length",
    LastHighest => "step serves, last served number the highest but that of fresh",
    Shortened => "step serves directly after the list was shortened",
    ShortenedBelow => "step serves, the list shortened to below the last served channel",
    Lengthened => "step serves directly after the list was lengthened",
    AfterIdle => "step serves, the step before it refused by 17",
    AfterTold => "step serves directly after a telling",
    InOrder => "24 channels that all waited and were not marked again, served in order",
    Mixed => "step serves in a list of handsets and players",
    Handset => "search of a handset accepted",
    Player => "search of a player accepted",
    Subframe1 => "search accepted in subframe 1",
    Subframe2 => "search accepted in subframe 2",
    Subframe3 => "search accepted in subframe 3",
    Subframe4 => "search accepted in subframe 4",
    Length => "search of the served channel refused by 1",
    Subframe => "search of the served channel refused by 2",
    Lag => "search of the served channel refused by 3",
    PlayerLag => "search of the served channel refused by 3 of a lag of 121 to 143",
    Order => "search of the served channel refused by 4",
    Again => "search accepted of a channel whose search before was refused, marked again",
    Step0 => "step refused by 15, no channel",
    Step25 => "step refused by 15, 25 channels",
    Step26 => "step refused by 15, 26 channels",
    StepManyIdle => "step refused by 15, 25 or 26 channels of which none waits",
    StepManyWrong => "step refused by 15, inputs of wrong lengths too",
    StepIdle => "step refused by 17",
    StepIdleAgain => "step refused by 17, the step before it too",
    StepIdleWrong => "step refused by 17, inputs of wrong lengths too",
    Told => "channel told",
    Told0 => "telling refused by 15, no channel",
    Told25 => "telling refused by 15, 25 channels",
    Told26 => "telling refused by 15, 26 channels",
    ToldIdle => "telling refused by 17",
    Marked => "channel marked",
    MarkedAgain => "channel marked that waits already",
    MarkedHighest => "channel marked of the highest number in its list",
    Mark0 => "mark refused by 15, no channel",
    Mark25 => "mark refused by 15, 25 channels",
    Mark26 => "mark refused by 15, 26 channels",
    MarkManyBeyond => "mark refused by 15, its number beyond the list too",
    MarkAtLength => "mark refused by 16, its number equal to the length",
    MarkBeyond => "mark refused by 16, its number above the length",
    MarkGreatest => "mark refused by 16, its number the greatest there is",
}

/// What a run did directly before a call.
#[derive(Clone, Copy, Default, PartialEq, Eq)]
pub enum Before {
    #[default]
    Other,
    Told,
    Shortened,
    Lengthened,
}

/// What a run did before a call.
#[derive(Default)]
pub struct Past {
    pub before: Before,
    /// Whether the step before was refused by 17.
    idle: bool,
    /// Whether a channel's search before was refused.
    refused: [bool; LIST],
    /// How many channels were served in order since all of 24 waited.
    in_order: usize,
}

impl Past {
    /// The cases of a step, of which the model's records before it are given.
    pub fn of_step(&mut self, model: &Model, call: &Call, served: &Served) -> Found<Case> {
        let mut met = Found::new();
        match served {
            Ok((channel, found)) => {
                find_served(&mut met, model, *channel);
                self.find_before(&mut met, model);
                self.find_in_order(&mut met, model, *channel);
                let searcher = &model.list()[*channel].searcher;
                let refused = std::mem::replace(&mut self.refused[*channel], found.is_err());
                met.case(Case::Again, refused && found.is_ok());
                find_searched(&mut met, searcher.upper, call.subframe, found);
            }
            Err(refusal) => {
                let wrong = call.lists().is_err();
                let [none, one, two] = many(refusal);
                let any = model.list().iter().any(|channel| channel.waiting != 0);
                met.case(Case::Step0, none);
                met.case(Case::Step25, one);
                met.case(Case::Step26, two);
                met.case(Case::StepManyIdle, (one || two) && !any);
                met.case(Case::StepManyWrong, refusal.number == 15 && wrong);
                met.case(Case::StepIdle, refusal.number == 17);
                met.case(Case::StepIdleAgain, refusal.number == 17 && self.idle);
                met.case(Case::StepIdleWrong, refusal.number == 17 && wrong);
            }
        }
        self.before = Before::Other;
        self.idle = matches!(served, Err(Refusal { number: 17, .. }));
        met
    }

    fn find_before(&self, met: &mut Found<Case>, model: &Model) {
        let last = model.dispatcher.last;
        let below = last.is_some_and(|last| (model.count..LIST).contains(&last));
        let shortened = self.before == Before::Shortened;
        met.case(Case::Shortened, shortened);
        met.case(Case::ShortenedBelow, shortened && below);
        met.case(Case::Lengthened, self.before == Before::Lengthened);
        met.case(Case::AfterIdle, self.idle);
        met.case(Case::AfterTold, self.before == Before::Told);
    }

    fn find_in_order(&mut self, met: &mut Found<Case>, model: &Model, channel: usize) {
        let list = model.list();
        let last = model.dispatcher.last.unwrap_or(list.len() - 1);
        let in_order = list.len() == 24 && channel == (last + 1) % 24;
        self.in_order = match self.in_order {
            0 if in_order => list.iter().all(|channel| channel.waiting != 0).into(),
            count if in_order => count + 1,
            _ => 0,
        };
        if self.in_order == 24 {
            met.case(Case::InOrder, true);
            self.in_order = 0;
        }
    }

    /// The cases of a telling.
    pub fn of_telling(&mut self, told: &Result<usize, Refusal>) -> Found<Case> {
        let mut met = Found::new();
        met.case(Case::Told, told.is_ok());
        if let Err(refusal) = told {
            let [none, one, two] = many(refusal);
            met.case(Case::Told0, none);
            met.case(Case::Told25, one);
            met.case(Case::Told26, two);
            met.case(Case::ToldIdle, refusal.number == 17);
        }
        self.before = Before::Told;
        met
    }

    /// The cases of a mark for a number, which waited before it or not.
    pub fn of_mark(
        &mut self,
        count: usize,
        (number, waited): (usize, bool),
        marked: &Result<usize, Refusal>,
    ) -> Found<Case> {
        let mut met = Found::new();
        match marked {
            Ok(channel) => {
                self.in_order = 0;
                met.case(Case::Marked, !waited);
                met.case(Case::MarkedAgain, waited);
                met.case(Case::MarkedHighest, channel + 1 == count);
            }
            Err(refusal) => {
                let [none, one, two] = many(refusal);
                let [many, beyond] = [15, 16].map(|number| refusal.number == number);
                met.case(Case::Mark0, none);
                met.case(Case::Mark25, one);
                met.case(Case::Mark26, two);
                met.case(Case::MarkManyBeyond, many && number >= count);
                met.case(Case::MarkAtLength, beyond && number == count);
                met.case(Case::MarkBeyond, beyond && number > count);
                met.case(Case::MarkGreatest, beyond && number == usize::MAX);
            }
        }
        self.before = Before::Other;
        met
    }
}

/// Whether a list has no channel, 25 or 26.
fn many(refusal: &Refusal) -> [bool; 3] {
    [0, 25, 26].map(|detail| *refusal == Refusal { number: 15, detail })
}

fn find_served(met: &mut Found<Case>, model: &Model, channel: usize) {
    let list = model.list();
    let count = list.len();
    let uppers = |upper| list.iter().any(|channel| channel.searcher.upper == upper);
    met.case(Case::Mixed, uppers(Upper::Handset) && uppers(Upper::Player));
    let Some(last) = model.dispatcher.last else {
        met.case(Case::Fresh, true);
        return;
    };
    met.case(Case::Further, last < channel);
    met.case(Case::Round, channel < last && last < count);
    met.case(Case::Itself, channel == last && count > 1);
    met.case(Case::Alone, channel == last && count == 1);
    met.case(Case::LastInList, last + 1 == count);
    met.case(Case::LastAtLength, last == count);
    met.case(Case::LastBeyond, last > count);
    met.case(Case::LastHighest, last == usize::MAX - 1);
}

fn find_searched(
    met: &mut Found<Case>,
    upper: Upper,
    subframe: u8,
    found: &Result<SearchedPitch, Refusal>,
) {
    match found {
        Ok(_) => {
            met.case(Case::Handset, upper == Upper::Handset);
            met.case(Case::Player, upper == Upper::Player);
            met.case(Case::Subframe1, subframe == 1);
            met.case(Case::Subframe2, subframe == 2);
            met.case(Case::Subframe3, subframe == 3);
            met.case(Case::Subframe4, subframe == 4);
        }
        Err(refusal) => {
            let of_handset = (121..=143).contains(&refusal.detail);
            met.case(Case::Length, refusal.number == 1);
            met.case(Case::Subframe, refusal.number == 2);
            met.case(Case::Lag, refusal.number == 3);
            met.case(Case::PlayerLag, refusal.number == 3 && of_handset);
            met.case(Case::Order, refusal.number == 4);
        }
    }
}
