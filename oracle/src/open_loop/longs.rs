//! The check of the sections' longs, which the published push cuts to 16 bits. By 02, request 14,
//! the cut changes none of them.

use super::Place;
use crate::compare::Line;
use std::ops::RangeInclusive;

/// Where every long is proved to lie: crates/open_loop_sections/proofs/Cuts.antt.
const PROVED: RangeInclusive<i32> = -27655..=27655;

/// There must be longs above this, and below its negative.
const NEAR: i32 = 25900;

/// The longs of all pushes that were accepted.
pub struct Longs {
    within: Line,
    least: i32,
    greatest: i32,
    /// The pushes with a long above 25900, and with one below -25900.
    above: u64,
    below: u64,
}

impl Longs {
    pub fn new() -> Self {
        Self {
            within: Line::new("sections' longs, proved to be within -27655 to 27655"),
            least: i32::MAX,
            greatest: i32::MIN,
            above: 0,
            below: 0,
        }
    }

    pub fn add(&mut self, part: Self) {
        self.within.add(part.within);
        self.least = self.least.min(part.least);
        self.greatest = self.greatest.max(part.greatest);
        self.above += part.above;
        self.below += part.below;
    }

    /// Checks the longs of one push.
    pub fn check(&mut self, place: &Place<'_>, mut longs: [i32; 3]) {
        longs.sort();
        let [least, _, greatest] = longs;
        self.least = self.least.min(least);
        self.greatest = self.greatest.max(greatest);
        self.above += u64::from(greatest > NEAR);
        self.below += u64::from(least < -NEAR);
        self.within.compared += 1;
        if ![least, greatest].iter().all(|long| PROVED.contains(long)) {
            self.within
                .tell_difference(place.chain, || format!("{place:?}: longs {longs:?}"));
        }
    }

    /// The longs that must occur.
    pub fn cases(&self) -> [(&'static str, u64); 2] {
        [
            ("long above 25900", self.above),
            ("long below -25900", self.below),
        ]
    }

    pub fn line(mut self) -> Line {
        self.within.show_number(self.least, "least long");
        self.within.show_number(self.greatest, "greatest long");
        self.within
    }
}
