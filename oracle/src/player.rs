//! The player's searcher and lag reader: the published Rust with the upper lag 120, as the build
//! script compiles it, and the comparisons with it.

// Declares `codec`.
include!(concat!(env!("OUT_DIR"), "/player.rs"));

use crate::{compare::Function, frames, reader, recovery, search, selection, upper::Upper};

pub fn functions() -> [Function; 5] {
    [
        Function {
            name: "player",
            compare: || search::compare_chains(Upper::Player),
        },
        Function {
            name: "player",
            compare: || frames::compare_chains(Upper::Player),
        },
        Function {
            name: "player",
            compare: || reader::compare_readings(Upper::Player),
        },
        Function {
            name: "player",
            compare: || recovery::compare_chains(Upper::Player),
        },
        Function {
            name: "player",
            compare: selection::compare_players,
        },
    ]
}
