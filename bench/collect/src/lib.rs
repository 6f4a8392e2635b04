//! `collect` (document 01, "Cases"), written by hand: it reads and writes in large pieces, and
//! changes its state in place.

pub mod collector;
pub mod hash;
pub mod text;

use collector::{repeat, Answer, Collector};
use std::io::{self, ErrorKind, Read, Write};
use text::{MAX_BYTES, MAX_LINE};

/// How much is read at once.
const CHUNK: usize = 1 << 16;

pub enum Failure {
    Input(io::Error),
    Output(io::Error),
}

/// A collector, and the setting of the first line.
struct Run {
    setting: u8,
    collector: Collector,
}

/// The stage of the run.
enum Stage {
    /// Before the first line.
    Start,
    Lines(Box<Run>),
    /// After a bad first line.
    Ended,
}

pub fn run(mut input: impl Read, mut output: impl Write) -> Result<(), Failure> {
    let mut buffer = vec![0; MAX_LINE + 2 + CHUNK];
    // The part of a line that has not ended is at the front.
    let mut carried = 0;
    let mut rows = Vec::with_capacity(2 * CHUNK);
    let mut stage = Stage::Start;
    while !matches!(stage, Stage::Ended) {
        let n = match input.read(&mut buffer[carried..carried + CHUNK]) {
            Ok(0) => break,
            Ok(n) => n,
            Err(error) if error.kind() == ErrorKind::Interrupted => continue,
            Err(error) => return Err(Failure::Input(error)),
        };
        let filled = carried + n;
        let fresh = &buffer[carried..filled];
        let end = match fresh.iter().rposition(|&c| c == b'\n') {
            Some(at) => carried + at + 1,
            None => 0,
        };
        stage = lines(stage, &buffer[..end], &mut rows);
        // A line longer than the longest right one is always BAD.
        let kept = (filled - end).min(MAX_LINE + 1);
        buffer.copy_within(end..end + kept, 0);
        carried = kept;
        output.write_all(&rows).map_err(Failure::Output)?;
        rows.clear();
    }
    if carried > 0 {
        buffer[carried] = b'\n';
        stage = lines(stage, &buffer[..carried + 1], &mut rows);
    }
    match stage {
        Stage::Start => text::bad(&mut rows),
        Stage::Lines(run) => text::totals(&mut rows, &run.collector.totals),
        Stage::Ended => {}
    }
    output.write_all(&rows).map_err(Failure::Output)?;
    output.flush().map_err(Failure::Output)
}

/// Takes whole lines.
fn lines(stage: Stage, mut text: &[u8], rows: &mut Vec<u8>) -> Stage {
    let mut run = match stage {
        Stage::Lines(run) => run,
        Stage::Start if !text.is_empty() => {
            let (line, rest) = split_line(text);
            text = rest;
            match text::setting(line) {
                Some(setting) => Box::new(Run {
                    setting,
                    collector: Collector::new(),
                }),
                None => {
                    text::bad(rows);
                    return Stage::Ended;
                }
            }
        }
        other => return other,
    };
    let mut bytes = [0; MAX_BYTES];
    while !text.is_empty() {
        match text::reception(text, &mut bytes) {
            Some(line) => {
                let bytes = &mut bytes[..line.count];
                let answer = run.collector.take(line.time, bytes);
                let sent = matches!(answer, Answer::Kept) && repeat(run.setting, bytes);
                text::row(rows, line.time, answer, sent.then_some(bytes));
                text = &text[line.used..];
            }
            None => {
                text::bad(rows);
                text = split_line(text).1;
            }
        }
    }
    Stage::Lines(run)
}

/// The first line without its newline, and what follows it.
fn split_line(text: &[u8]) -> (&[u8], &[u8]) {
    match text.iter().position(|&c| c == b'\n') {
        Some(at) => (&text[..at], &text[at + 1..]),
        None => (text, &[]),
    }
}
