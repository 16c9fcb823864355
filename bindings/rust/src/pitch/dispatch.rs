//! Up to 24 channels that take turns at the searches. The caller keeps the list of the channels, and
//! lends it; the dispatcher keeps the last served number.

use super::search::{EXCITATION_SAMPLES, OpenLoopLag, Search, SearchedPitch, Subframe};
pub use crate::entries::Channel;
use crate::{
    Refusal, SUBFRAME_SAMPLES,
    entries::{self, ChannelState, NO_CHANNEL},
};

/// The most channels of a list.
pub const CHANNELS: usize = 24;

impl Channel {
    /// It does not wait.
    pub fn new(searcher: Search) -> Self {
        Self(ChannelState {
            searcher: searcher.state(),
            waiting: 0,
        })
    }

    pub fn searcher(&self) -> Search {
        Search::of(self.0.searcher)
    }

    pub fn is_waiting(&self) -> bool {
        self.0.waiting != 0
    }

    /// Makes the searcher fresh, and keeps its upper lag and the mark.
    pub fn reset(&mut self) {
        let mut searcher = self.searcher();
        searcher.reset();
        self.0.searcher = searcher.state();
    }
}

/// Marks a channel, which then waits. Refuses by 15 a list of no or more than 24 channels, then by
/// 16 a number that is not below its length.
pub fn mark(channels: &mut [Channel], channel: usize) -> Result<(), Refusal> {
    let answer = entries::mark(Channel::numbers_mut(channels), channel);
    Refusal::check(answer.number, answer.magnitude)
}

/// The channel that was served, and what its search answered.
#[derive(Debug, Clone, Copy, PartialEq, Eq)]
pub struct Served {
    pub channel: usize,
    pub found: Result<SearchedPitch, Refusal>,
}

/// Serves the channels of one list in turn.
#[derive(Debug, Clone, Default, PartialEq, Eq)]
pub struct Dispatcher {
    /// The last served number; none where fresh. One beyond the list is taken as none.
    pub last: Option<usize>,
}

impl Dispatcher {
    /// A fresh one, which looks from the first channel.
    pub fn new() -> Self {
        Self::default()
    }

    /// The channel that `serve` would take: the first that waits after the last one served, going
    /// round. Refuses by 15 a list of no or more than 24 channels, then by 17 where none waits.
    pub fn next(&self, channels: &[Channel]) -> Result<usize, Refusal> {
        let answer = entries::next(Channel::numbers(channels), self.number());
        Refusal::check(answer.number, answer.magnitude)?;
        Ok(answer.channel)
    }

    /// One search, `Search::search` with these arguments, by the channel that `next` tells. Its
    /// mark is cleared, and it counts as served, even where the search is refused, which leaves its
    /// searcher as it was. Refuses by 15 and 17 as `next` does, and then nothing has changed. While
    /// only services and marks touch the list and the last served number, a waiting channel is
    /// served within as many services as there are channels.
    pub fn serve(
        &mut self,
        channels: &mut [Channel],
        excitation: &[i16; EXCITATION_SAMPLES],
        target: &[i16; SUBFRAME_SAMPLES],
        impulse_q12: &[i16; SUBFRAME_SAMPLES],
        open_loop: [OpenLoopLag; 2],
        subframe: Subframe,
    ) -> Result<Served, Refusal> {
        let [first, second] = open_loop.map(OpenLoopLag::samples);
        let answer = entries::serve(
            Channel::numbers_mut(channels),
            self.number(),
            excitation,
            target,
            impulse_q12,
            first,
            second,
            subframe.number(),
        );
        let searched = Refusal::check(answer.number, answer.magnitude);
        if answer.channel == NO_CHANNEL {
            searched?;
        }
        self.last = Some(answer.last);
        Ok(Served {
            channel: answer.channel,
            found: searched.map(|()| SearchedPitch::of(answer.pitch)),
        })
    }

    fn number(&self) -> usize {
        self.last.unwrap_or(NO_CHANNEL)
    }
}
