//! The bodies of records, made of calls.

use crate::{calls, feed::bytes, filtering, gain, pulses};

/// The places of single numbers in a body.
pub mod places {
    pub const PITCH_SUBFRAME: usize = 0;
    pub const PITCH_LAGS: [usize; 2] = [549, 550];
    pub const PULSE_LAG: usize = 160;
    pub const PULSE_GAIN: usize = 161;
    pub const EXPONENT: usize = 240;
    pub const FRACTION: usize = 242;
    pub const LIMIT: usize = 244;
}

pub fn pitch(call: &calls::Call) -> Vec<u8> {
    let lists = [&call.excitation, &call.target, &call.impulse];
    let mut body = vec![call.subframe];
    for list in lists {
        body.extend(bytes(list));
    }
    body.extend(call.open_loop.map(|lag| lag as u8));
    body
}

pub fn pulses(call: &pulses::Call) -> Vec<u8> {
    let mut body = bytes(&call.read().concat());
    body.push(call.lag as u8);
    body.extend(call.gain.to_be_bytes());
    body
}

pub fn gain(call: &gain::Call) -> Vec<u8> {
    let mut body = bytes(&call.lists().concat());
    body.extend(call.exponent.to_be_bytes());
    body.extend(call.fraction.to_be_bytes());
    body.push(call.choice());
    body
}

pub fn filtering(call: &filtering::Call) -> Vec<u8> {
    bytes(&call.lists().concat())
}

/// Puts a word at a place.
pub fn put(body: &mut [u8], place: usize, word: u16) {
    body[place..place + 2].copy_from_slice(&word.to_be_bytes());
}
