//! The selection feed: a byte of kind and a body, record after record.

use crate::{
    Refusal,
    entries::{self, END},
};

/// A record, its body being that part of the feed.
#[derive(Debug, Clone, Copy, PartialEq, Eq)]
pub struct Record<'a> {
    pub kind: u8,
    pub body: &'a [u8],
    /// The place behind the body.
    pub next: usize,
}

/// The record at a place; none at the feed's end. Refuses by 9 a kind above 6, by 10 a body that is
/// not all there.
pub fn record(feed: &[u8], at: usize) -> Result<Option<Record<'_>>, Refusal> {
    let answer = entries::record(feed, at);
    Refusal::check(answer.number, answer.magnitude)?;
    let next = answer.from + answer.length;
    Ok((answer.kind != END).then(|| Record {
        kind: answer.kind,
        body: &feed[answer.from..next],
        next,
    }))
}
