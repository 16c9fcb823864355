//! Sums of 32 bits that are clipped after each addition. The published functions do not tell where
//! they clip, so their sums are done once more, in 64 bits.

/// A sum that is clipped after each addition, beside the sum that is not.
#[derive(Default)]
pub struct Sum {
    pub clipped: i32,
    pub exact: i64,
    /// Whether an addition was clipped at the upper end, and at the lower.
    pub clips_above: bool,
    pub clips_below: bool,
}

impl Sum {
    pub fn of(terms: impl IntoIterator<Item = i32>) -> Self {
        let mut sum = Self::default();
        for term in terms {
            sum.add(term);
        }
        sum
    }

    pub fn add(&mut self, term: i32) {
        let next = i64::from(self.clipped) + i64::from(term);
        self.clipped = clip32(next);
        self.clips_above |= next > i64::from(self.clipped);
        self.clips_below |= next < i64::from(self.clipped);
        self.exact += i64::from(term);
    }

    pub fn clips(&self) -> bool {
        self.clips_above || self.clips_below
    }

    /// The sum that is clipped only at its end.
    pub fn clipped_late(&self) -> i32 {
        clip32(self.exact)
    }

    /// Whether clipping only at the end would give another sum.
    pub fn clips_early(&self) -> bool {
        self.clipped != self.clipped_late()
    }
}

pub fn clip16(value: i32) -> i16 {
    value.clamp(i16::MIN.into(), i16::MAX.into()) as i16
}

pub fn clip32(value: i64) -> i32 {
    value.clamp(i32::MIN.into(), i32::MAX.into()) as i32
}
