//! A dispatcher by the words of 02. It knows nothing of the library's. What a searcher is and what
//! a search does is its caller's.

use crate::subframes::Refusal;

/// A channel's searcher, and its mark, 0 where the channel does not wait.
#[derive(Debug, Clone, Copy, PartialEq, Eq)]
pub struct Record<S> {
    pub searcher: S,
    pub waiting: u8,
}

/// The last served number; none when fresh.
#[derive(Debug, Clone, Copy, Default, PartialEq, Eq)]
pub struct Dispatcher {
    pub last: Option<usize>,
}

impl Dispatcher {
    pub fn next<S>(&self, channels: &[Record<S>]) -> Result<usize, Refusal> {
        let count = count(channels)?;
        let last = self.last.filter(|&last| last < count);
        let first = last.map_or(0, |last| last + 1);
        let mut round = (first..first + count).map(|number| number % count);
        let next = round.find(|&number| channels[number].waiting != 0);
        next.ok_or(refusal(17, 0))
    }

    /// The served channel and what its search answers, even if that is a refusal.
    pub fn serve<S, T>(
        &mut self,
        channels: &mut [Record<S>],
        search: impl FnOnce(&mut S) -> T,
    ) -> Result<(usize, T), Refusal> {
        let number = self.next(channels)?;
        let channel = &mut channels[number];
        channel.waiting = 0;
        self.last = Some(number);
        Ok((number, search(&mut channel.searcher)))
    }
}

pub fn mark<S>(channels: &mut [Record<S>], number: usize) -> Result<usize, Refusal> {
    count(channels)?;
    let channel = channels.get_mut(number).ok_or(refusal(16, number))?;
    channel.waiting = 1;
    Ok(number)
}

fn count<S>(channels: &[Record<S>]) -> Result<usize, Refusal> {
    match channels.len() {
        count @ 1..=24 => Ok(count),
        count => Err(refusal(15, count)),
    }
}

fn refusal(number: u8, detail: usize) -> Refusal {
    let detail = detail as u64;
    Refusal { number, detail }
}
