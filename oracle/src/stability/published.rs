//! The published watch, its file as it stands. Here alone its fields can be made and read.

include!(concat!(env!("OUT_DIR"), "/codec/mr74/encoder_stability.rs"));

impl Stability {
    pub(super) fn of(count: u8, gains_q11: [i16; HISTORY_GAINS]) -> Self {
        Self { count, gains_q11 }
    }

    /// The count and the gains.
    pub(super) fn parts(&self) -> (u8, [i16; HISTORY_GAINS]) {
        (self.count, self.gains_q11)
    }
}
