//! The program `select`, run on a feed while its lines are compared with the expected ones.

use super::feeds::Part;
use std::{
    io::{self, BufRead, BufReader, Write},
    path::Path,
    process::{Command, Stdio},
    sync::mpsc::{Receiver, channel},
    thread,
};

/// The first line that is not the expected one, empty where there is none.
pub struct Difference {
    /// The record, 0 for the header.
    pub record: u64,
    pub ours: String,
    pub expected: String,
}

/// Runs the program on a feed. Each part whose lines all came is handed to `compared`. Neither side
/// is held in memory: the pipes make the maker of the parts wait for the program, and the program
/// for the comparison.
pub fn run(
    program: &Path,
    parts: impl Iterator<Item = Part> + Send,
    compared: impl FnMut(&Part),
) -> io::Result<Option<Difference>> {
    let mut child = Command::new(program)
        .stdin(Stdio::piped())
        .stdout(Stdio::piped())
        .spawn()?;
    let mut stdin = child.stdin.take().expect("a pipe to the program");
    let stdout = child.stdout.take().expect("a pipe from the program");
    let (sender, receiver) = channel();
    let difference = thread::scope(|scope| {
        scope.spawn(move || {
            for mut part in parts {
                // The lines go first, so that whatever the program writes can be compared.
                let bytes = std::mem::take(&mut part.bytes);
                if sender.send(part).is_err() {
                    return;
                }
                // A program that has stopped is told by its lines.
                if stdin.write_all(&bytes).is_err() {
                    return;
                }
            }
        });
        let difference = compare_lines(BufReader::new(stdout), &receiver, compared);
        if !matches!(difference, Ok(None)) {
            // Else the maker of the parts would wait for it.
            drop(receiver);
            child.kill()?;
        }
        difference
    })?;
    let status = child.wait()?;
    if difference.is_none() && !status.success() {
        return Err(io::Error::other(status.to_string()));
    }
    Ok(difference)
}

fn compare_lines(
    mut output: impl BufRead,
    parts: &Receiver<Part>,
    mut compared: impl FnMut(&Part),
) -> io::Result<Option<Difference>> {
    let mut line = Vec::new();
    let mut next = || -> io::Result<Vec<u8>> {
        line.clear();
        output.read_until(b'\n', &mut line)?;
        Ok(std::mem::take(&mut line))
    };
    let mut record = 0;
    for part in parts {
        for expected in part.lines.split_inclusive('\n') {
            let ours = next()?;
            if ours != expected.as_bytes() {
                return Ok(Some(difference(record, &ours, expected)));
            }
            record += 1;
        }
        compared(&part);
    }
    let more = next()?;
    Ok((!more.is_empty()).then(|| difference(record, &more, "")))
}

fn difference(record: u64, ours: &[u8], expected: &str) -> Difference {
    Difference {
        record,
        ours: String::from_utf8_lossy(ours).to_string(),
        expected: expected.to_string(),
    }
}
