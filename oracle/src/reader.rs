//! The lag reader, a handset's and a player's, on all inputs: every lag and expected subframe that
//! calls can reach, with a start that a reader may have there, every subframe and index.

use crate::{
    codec::mr74::pitch::{PitchLag, search::Subframe},
    compare::{Function, Line, compare},
    inputs::Inputs,
    project::{PitchAnswer, PitchState, read_lag},
    states::numbers_met,
    subframes::{Refusal, answer, pitch_state, read_start, relative_start, subframe},
    upper::Upper,
};

/// A call of the reader, and the state that it is in.
#[derive(Debug, Clone, Copy)]
pub struct Reading {
    pub upper: Upper,
    pub previous: PitchLag,
    pub expected: u8,
    pub start: u16,
    pub subframe: u8,
    pub index: u8,
}

impl Reading {
    fn state(self) -> PitchState {
        pitch_state(self.upper, self.previous, self.expected, self.start)
    }

    /// The subframe, where it is the one expected.
    fn in_turn(self) -> Option<Subframe> {
        let received = subframe(self.subframe).ok()?;
        (self.subframe == self.expected).then_some(received)
    }

    fn is_absolute(self) -> bool {
        self.in_turn().is_some_and(Subframe::absolute)
    }

    fn is_relative(self) -> bool {
        self.in_turn().is_some_and(|subframe| !subframe.absolute())
    }

    /// The state after this published lag was read. 01's window rule must give the same start.
    pub fn state_after(self, lag: PitchLag) -> PitchState {
        let start = read_start(self.subframe, lag, self.index);
        if self.is_relative() {
            let ruled = relative_start(self.upper, self.previous);
            assert_eq!(start, ruled, "the start that is found here");
        }
        pitch_state(self.upper, lag, self.subframe % 4 + 1, start)
    }
}

pub fn functions() -> [Function; 1] {
    [Function {
        name: "read_lag",
        compare: || compare_readings(Upper::Handset),
    }]
}

/// Compares the reader of this upper lag.
pub fn compare_readings(upper: Upper) -> Vec<Line> {
    type Admits = fn(Reading) -> bool;
    const PARTS: [(&str, Admits); 3] = [
        ("pitch.rs from_absolute", Reading::is_absolute),
        ("pitch.rs from_relative", Reading::is_relative),
        ("rule of 01 for the subframe", |reading| {
            reading.in_turn().is_none()
        }),
    ];
    let part = |(with, admits): (&'static str, Admits)| {
        let readings = readings(upper).only(admits);
        compare(&readings, ours, [with], |reading| [expected(reading)])
    };
    let mut lines: Vec<Line> = PARTS.into_iter().flat_map(part).collect();
    if upper == Upper::Player {
        lines.push(player_cases());
    }
    lines
}

/// What a player's readings must meet.
fn player_cases() -> Line {
    const MET: [(u8, &str); 6] = [
        (1, "absolute index 233, lag 121"),
        (2, "absolute index of 234 to 254, lag of 122 to 142"),
        (3, "absolute index 255, lag 143"),
        (4, "start lowered to 111 after a lag of 117 to 120"),
        (5, "start lowered to 111 after a lag of 121 to 143"),
        (6, "relative index 31, lag 121 less a third"),
    ];
    let case = |reading: Reading| {
        let Ok(lag) = read(reading) else {
            return 0;
        };
        let after = reading.state_after(lag);
        let previous = reading.previous.samples();
        match (reading.is_absolute(), reading.index, lag.samples()) {
            (true, 233, 121) => 1,
            (true, 234..=254, 122..=142) => 2,
            (true, 255, 143) => 3,
            (false, 31, 121) if after.fraction == -1 => 6,
            (false, ..) if after.start == 111 && previous > 120 => 5,
            (false, ..) if after.start == 111 && previous > 116 => 4,
            _ => 0,
        }
    };
    numbers_met(&readings(Upper::Player), case, &MET)
}

fn readings(upper: Upper) -> Inputs<impl Fn(u64) -> Option<Reading> + Sync> {
    let previous = reachable_lags(upper);
    Inputs {
        count: (previous.len() as u64 * 4) << 16,
        at: move |index| {
            let state = (index >> 16) as usize;
            let (previous, expected) = (previous[state / 4], 1 + (state % 4) as u8);
            Some(Reading {
                upper,
                previous,
                expected,
                start: start_before(upper, previous, expected),
                subframe: (index >> 8) as u8,
                index: index as u8,
            })
        },
    }
}

/// A start that a reader may have: 0 after subframes 1 and 3, else that of a window about the lag.
fn start_before(upper: Upper, previous: PitchLag, expected: u8) -> u16 {
    match expected {
        2 | 4 => 0,
        _ => relative_start(upper, previous),
    }
}

/// The lags that a search or a reading can answer: 19 with a third more up to the one above the upper
/// lag with a third less, each made by relative index from a lag five above the start of a window
/// that holds it, and the lags above those, up to 143, by absolute index.
fn reachable_lags(upper: Upper) -> Vec<PitchLag> {
    let last = upper.number() - 9;
    let made = |start, index| made(upper, start, index);
    let mut lags = vec![made(20, 0)];
    for start in 20..=last {
        lags.extend([1, 2, 3].map(|index| made(start, index)));
    }
    lags.extend((4..=31).map(|index| made(last, index)));
    let whole = u16::from(last) + 10..=143;
    lags.extend(whole.map(|lag| upper.absolute((lag + 112) as u8)));
    lags
}

/// The lag of a relative index in the window with this start.
fn made(upper: Upper, start: u8, index: u8) -> PitchLag {
    let centre = start + 5;
    let centre_index = if centre <= 85 {
        3 * i16::from(centre) - 58
    } else {
        i16::from(centre) + 112
    };
    let previous = upper.absolute(centre_index as u8);
    upper.relative(index, previous).expect("an index up to 31")
}

fn ours(reading: Reading) -> PitchAnswer {
    read_lag(reading.state(), reading.subframe, reading.index)
}

/// The published lag or the refusal, in the form of the library's answer.
fn expected(reading: Reading) -> PitchAnswer {
    let lag = read(reading);
    let after = match lag {
        Ok(lag) => reading.state_after(lag),
        Err(_) => reading.state(),
    };
    answer(lag.map(|lag| (0, lag)), after)
}

/// The published lag, by the rule of 01 for the subframe.
pub fn read(reading: Reading) -> Result<PitchLag, Refusal> {
    let received = subframe(reading.subframe)?;
    if reading.subframe != reading.expected {
        return Err(Refusal {
            number: 4,
            detail: reading.expected.into(),
        });
    }
    if received.absolute() {
        Ok(reading.upper.absolute(reading.index))
    } else {
        Ok(reading.upper.relative(reading.index, reading.previous)?)
    }
}
