//! 24 channels, of which each is marked and served, and the same searches by themselves. Each
//! channel has a frame of its own, and all channels have a subframe before one has the next.

use crate::{
    calls::Call,
    codec::mr74::pitch::search::{OpenLoopLag, Search, SearchError, SearchedPitch},
    dispatch::{
        model::{self, Dispatcher, Record},
        serve,
    },
    frames::Frame,
    project::{
        ChannelState, NO_CHANNEL, PitchAnswer, PitchState, ServiceAnswer, fresh_pitch, mark,
        pitch_search,
    },
    search::called,
    subframes::subframe,
};
use std::{hint::black_box, ops::Range};

pub const CHANNELS: usize = 24;

/// The channels in the order in which they are served. After the one before it each is the first
/// that a step looks at.
const UPWARD: Range<usize> = 0..CHANNELS;

/// A frame for each channel.
pub type Frames<'a> = [&'a Frame; CHANNELS];

/// Does the work of each channel's subframe 1, then of each channel's subframe 2, and so on.
fn each<A>(
    frames: &Frames<'_>,
    order: impl Iterator<Item = usize> + Clone,
    mut work: impl FnMut(usize, &Call) -> A,
) {
    for subframe in 0..4 {
        for channel in order.clone() {
            black_box(work(channel, &frames[channel].searches[subframe]));
        }
    }
}

/// The library's dispatcher.
pub struct Library {
    channels: [ChannelState; CHANNELS],
    last: usize,
}

impl Library {
    pub fn fresh() -> Self {
        let channel = ChannelState {
            searcher: fresh_pitch(),
            waiting: 0,
        };
        Self {
            channels: [channel; CHANNELS],
            last: NO_CHANNEL,
        }
    }

    pub fn upward(&mut self, frames: &Frames<'_>) {
        each(frames, UPWARD, |channel, call| self.serve(channel, call));
    }

    /// In the order in which a step looks at all channels, the one that it serves being the last.
    pub fn downward(&mut self, frames: &Frames<'_>) {
        each(frames, UPWARD.rev(), |channel, call| {
            self.serve(channel, call)
        });
    }

    fn serve(&mut self, channel: usize, call: &Call) -> ServiceAnswer {
        mark(&mut self.channels, channel);
        let answer = serve(&mut self.channels, self.last, call);
        assert_eq!((answer.number, answer.channel), (0, channel));
        self.last = answer.last;
        answer
    }
}

/// The library's searches by themselves.
pub struct Searches([PitchState; CHANNELS]);

impl Searches {
    pub fn fresh() -> Self {
        Self([fresh_pitch(); CHANNELS])
    }

    pub fn upward(&mut self, frames: &Frames<'_>) {
        each(frames, UPWARD, |channel, call| self.search(channel, call));
    }

    pub fn downward(&mut self, frames: &Frames<'_>) {
        each(frames, UPWARD.rev(), |channel, call| {
            self.search(channel, call)
        });
    }

    fn search(&mut self, channel: usize, call: &Call) -> PitchAnswer {
        let answer = called(pitch_search, self.0[channel], call);
        assert_eq!(answer.number, 0);
        self.0[channel] = answer.state();
        answer
    }
}

/// The model of a dispatcher over published searches.
pub struct Published {
    channels: [Record<Search>; CHANNELS],
    dispatcher: Dispatcher,
}

type Searched = Result<SearchedPitch, SearchError>;

impl Published {
    pub fn fresh() -> Self {
        let channel = || Record {
            searcher: Search::default(),
            waiting: 0,
        };
        Self {
            channels: [(); CHANNELS].map(|()| channel()),
            dispatcher: Dispatcher::default(),
        }
    }

    pub fn upward(&mut self, frames: &Frames<'_>) {
        each(frames, UPWARD, |channel, call| self.serve(channel, call));
    }

    fn serve(&mut self, channel: usize, call: &Call) -> Searched {
        const TAKEN: &str = "a search that is accepted";
        let lists = call.lists().expect(TAKEN);
        let open_loop = call.open_loop;
        let lags = open_loop.map(|lag| OpenLoopLag::try_new(lag).expect(TAKEN));
        let subframe = subframe(call.subframe).expect(TAKEN);
        model::mark(&mut self.channels, channel).expect(TAKEN);
        let served = self.dispatcher.serve(&mut self.channels, |search| {
            search.search(
                lists.excitation,
                lists.target,
                lists.impulse,
                lags,
                subframe,
            )
        });
        let (served, found) = served.expect(TAKEN);
        assert_eq!((served, found.is_ok()), (channel, true));
        found
    }
}
