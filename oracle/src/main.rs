//! Compares the library with the published Rust and reports where their answers differ.
//!
//! Every input is compared where a function has at most 2^32 of them; of the others the
//! combinations of the ends of the argument types and a fixed pseudo-random sample. The pitch search
//! and the detector have a state, so they are compared in chains of calls, and the dispatcher's list
//! of channels in runs of calls. Where a comparison is made of words that were drawn, the cases that
//! it must meet are counted.

mod adopted;
mod bench;
mod bindings;
mod calls;
mod cases;
mod chains;
mod compare;
mod counts;
mod dispatch;
mod feed;
mod filtering;
mod frames;
mod gain;
mod inputs;
mod lent;
mod lists;
mod open_loop;
mod operators;
mod player;
mod previews;
mod project;
mod published;
mod pulses;
mod reader;
mod record;
mod recovery;
mod refusals;
mod search;
mod selection;
mod speech;
mod speed;
mod stability;
mod states;
mod subframes;
mod sums;
mod turns;
mod upper;
mod words;

// The published files name each other by `crate::codec`.
use published::codec;

use compare::Function;
use std::{
    env, fs,
    io::{self, Read, Write},
    path::Path,
    process::ExitCode,
};

const USAGE: &str = "usage: oracle [compare NAME.. | bindings | select [RECORDS] | answers [FEED] | \
                     watched [FEED] | feed NAME RECORDS [SEED] | record [FOLDER] | speed | bench]";
const RECORD_FOLDER: &str = concat!(env!("CARGO_MANIFEST_DIR"), "/../crates");
const SAMPLE_FOLDER: &str = concat!(env!("CARGO_MANIFEST_DIR"), "/../samples");

const DIFFERENT: u8 = 1;
const UNUSABLE: u8 = 2;

fn main() -> ExitCode {
    let arguments: Vec<String> = env::args().skip(1).collect();
    let words: Vec<&str> = arguments.iter().map(String::as_str).collect();
    let done = match words.as_slice() {
        [] => compare_functions(&[]),
        ["compare", names @ ..] => compare_functions(names),
        ["bindings"] => compare_all(&bindings::functions(), &[]),
        ["select"] => compare_select(SELECT_RECORDS),
        ["select", records] => number(records).and_then(compare_select),
        ["answers"] => print_answers(None, selection::printed),
        ["answers", feed] => print_answers(Some(feed), selection::printed),
        ["watched"] => print_answers(None, selection::printed_watched),
        ["watched", feed] => print_answers(Some(feed), selection::printed_watched),
        ["feed", name, records] => write_feed(name, records, "0"),
        ["feed", name, records, seed] => write_feed(name, records, seed),
        ["record"] => record_samples(Path::new(RECORD_FOLDER), Path::new(SAMPLE_FOLDER)),
        ["record", folder] => {
            let folder = Path::new(folder);
            record_samples(folder, &folder.join("samples"))
        }
        ["speed"] => {
            speed::report();
            Ok(ExitCode::SUCCESS)
        }
        ["bench"] => report_bench(),
        // What the bench starts beside `select`.
        ["rival-select"] => rival(bench::rival::select),
        ["rival-lines"] => rival(bench::rival::lines),
        _ => Err(USAGE.to_string()),
    };
    done.unwrap_or_else(|message| {
        eprintln!("{message}");
        ExitCode::from(UNUSABLE)
    })
}

fn report_bench() -> Result<ExitCode, String> {
    let slow = bench::report().map_err(|error| error.to_string())?;
    println!("{slow} above what is allowed");
    Ok(match slow {
        0 => ExitCode::SUCCESS,
        _ => ExitCode::from(DIFFERENT),
    })
}

fn rival(program: fn() -> io::Result<()>) -> Result<ExitCode, String> {
    program().map_err(|error| error.to_string())?;
    Ok(ExitCode::SUCCESS)
}

/// The records that `select` is compared on.
const SELECT_RECORDS: u64 = 10_000_000;

/// Compares the named functions, or all where none is named.
fn compare_functions(names: &[&str]) -> Result<ExitCode, String> {
    let mut functions = operators::functions();
    functions.extend(lists::functions());
    functions.extend(reader::functions());
    functions.extend(search::functions());
    functions.extend(frames::functions());
    functions.extend(dispatch::functions());
    functions.extend(recovery::functions());
    functions.extend(player::functions());
    functions.extend(open_loop::functions());
    functions.extend(filtering::functions());
    functions.extend(pulses::functions());
    functions.extend(gain::functions());
    functions.extend(stability::functions());
    functions.extend(states::functions());
    functions.extend(selection::functions());
    for name in names {
        if !functions.iter().any(|function| function.name == *name) {
            let mut known: Vec<_> = functions.iter().map(|function| function.name).collect();
            known.dedup();
            return Err(format!("no function {name}; known: {}", known.join(" ")));
        }
    }
    compare_all(&functions, names)
}

fn compare_all(functions: &[Function], names: &[&str]) -> Result<ExitCode, String> {
    let mut compared = 0;
    let mut differ = 0;
    for function in functions {
        if !names.is_empty() && !names.contains(&function.name) {
            continue;
        }
        for line in (function.compare)() {
            compared += line.compared;
            differ += line.differ;
            println!("{} {line}", function.name);
        }
        io::stdout().flush().map_err(|error| error.to_string())?;
    }
    Ok(told(compared, differ))
}

/// Tells what all comparisons came to.
fn told(compared: u64, differ: u64) -> ExitCode {
    println!("{compared} compared, {differ} differ");
    if differ == 0 {
        ExitCode::SUCCESS
    } else {
        ExitCode::from(DIFFERENT)
    }
}

fn number(text: &str) -> Result<u64, String> {
    text.parse().map_err(|error| format!("{text}: {error}"))
}

/// Compares the program `select` on so many records.
fn compare_select(records: u64) -> Result<ExitCode, String> {
    let mut compared = 0;
    let mut differ = 0;
    for line in selection::compare(records, &selection::sample())? {
        compared += line.compared;
        differ += line.differ;
        println!("select {line}");
    }
    Ok(told(compared, differ))
}

/// Prints the lines of a feed: that of the file, else that of standard input.
fn print_answers(file: Option<&str>, printed: fn(&[u8]) -> String) -> Result<ExitCode, String> {
    let mut feed = Vec::new();
    let read = match file {
        Some(file) => fs::read(file).map(|bytes| feed = bytes),
        None => io::stdin().read_to_end(&mut feed).map(|_| ()),
    };
    read.map_err(|error| format!("{}: {error}", file.unwrap_or("standard input")))?;
    print!("{}", printed(&feed));
    Ok(ExitCode::SUCCESS)
}

fn write_feed(name: &str, records: &str, seed: &str) -> Result<ExitCode, String> {
    let (records, seed) = (number(records)?, number(seed)?);
    selection::write_feed(&mut io::stdout(), name, records, seed)?;
    Ok(ExitCode::SUCCESS)
}

/// Writes what each program reads and prints to the program's folder below this one, and the sample
/// feeds to theirs.
fn record_samples(folder: &Path, feeds: &Path) -> Result<ExitCode, String> {
    type Write = fn(&Path) -> io::Result<usize>;
    let samples: [(&str, Write); 3] = [
        ("replay", record::write),
        ("select", selection::record::write),
        ("select_unknown_kind", selection::record::write_unknown_kind),
    ];
    let samples = samples.map(|(program, write)| (program, folder.join(program), write));
    let feeds: (&str, _, Write) = (
        "samples",
        feeds.to_path_buf(),
        selection::record::write_samples,
    );
    for (name, folder, write) in samples.into_iter().chain([feeds]) {
        let records = write(&folder).map_err(|error| format!("{}: {error}", folder.display()))?;
        println!("{name} {records} recorded");
    }
    Ok(ExitCode::SUCCESS)
}
