//! The places where a trial may start, by the published rule and by others.

use super::{TRACKS, calls::places};
use crate::words::SUBFRAME;

/// The places of a track that lose the right to start.
const DROPS: usize = 4;

#[derive(Clone, Copy, PartialEq, Eq)]
pub enum Rule {
    Published,
    /// On a tie the higher place is dropped.
    HigherOnTie,
    /// 32767 can be found smallest too.
    AnyWord,
    /// Where none is found, none is dropped.
    NoneMarked,
    /// Where none is found before any other of its track, the track's first place is dropped.
    OwnTrack,
}

/// Where no place was found smallest.
#[derive(Default)]
pub struct NoneFound {
    pub first: bool,
    /// After another place of the track.
    pub later: bool,
    /// In a whole track but the first.
    pub of_track: bool,
}

pub fn starts(magnitudes: &[i16; SUBFRAME], rule: Rule) -> ([bool; SUBFRAME], NoneFound) {
    let mut eligible = [true; SUBFRAME];
    let mut none = NoneFound::default();
    let mut dropped = 0;
    for track in 0..TRACKS {
        if rule == Rule::OwnTrack {
            dropped = track;
        }
        for drop in 0..DROPS {
            let admitted = places(track)
                .filter(|&place| eligible[place])
                .filter(|&place| rule == Rule::AnyWord || magnitudes[place] < i16::MAX);
            let smallest = match rule {
                Rule::HigherOnTie => admitted.rev().min_by_key(|&place| magnitudes[place]),
                _ => admitted.min_by_key(|&place| magnitudes[place]),
            };
            match smallest {
                Some(place) => dropped = place,
                None => {
                    none.first |= track == 0 && drop == 0;
                    none.of_track |= track > 0 && drop == 0;
                    none.later |= drop > 0 && dropped % TRACKS == track && dropped > 0;
                }
            }
            if smallest.is_some() || rule != Rule::NoneMarked {
                eligible[dropped] = false;
            }
        }
    }
    (eligible, none)
}
