//! The file of `--heard`: a line for each telegram when it closes. Each line is in it once.
//!
//! A line counts if the state's collector has closed its telegram; the time in the line shows that. So the state does not need a position in the
//! file. At a start, lines of telegrams that are still open, or not opened yet, are cut off. They belong to a batch that did not end, which comes
//! again.
use crate::disk::Shared;
use crate::failure::Failure;
use crate::files;
use crate::keeper::MAX_BATCH;
use crate::out::{Named, Out};
use crate::text::{self, put_hex, put_number};
use mooringeye::{Closing, Collector};
use std::path::Path;

pub const HEADING: &str = "opened,txid,level,copies,interrupted\n";

/// The length of the longest line; and how much a batch that did not end can leave, with the line before it.
const LONGEST: u64 = 42;
const LONGEST_BATCH: u64 = LONGEST * (MAX_BATCH + Collector::CAPACITY + 2) as u64;

pub struct Closings {
    disk: Shared,
    out: Out,
    /// Whether the content of the file is not of this collector: the collector is new, or the file is too short for a line.
    goes_aside: bool,
    /// Telegrams that were opened up to this time may have been received more often: nobody listened while they were open.
    interrupted: Option<u64>,
    lines: Vec<u8>,
}

impl Closings {
    /// Opens the file, creates it if it is missing, and finds how much of it counts. Nothing in it is changed yet.
    pub fn open(disk: &Shared, path: &Path, collector: &Collector, is_new: bool) -> Result<Closings, Failure> {
        let mut out = Out::open(disk, Named::Heard, path, None)?;
        let goes_aside = is_new || out.length() <= HEADING.len() as u64;
        if !goes_aside {
            let counted = counted(&out, collector.latest())?;
            out.count(counted);
        }
        Ok(Closings { disk: disk.clone(), out, goes_aside, interrupted: None, lines: Vec::new() })
    }

    /// Cuts off what does not count, and writes the heading if it is missing. What another collector left, or a heading that was not written
    /// completely, is put aside.
    pub fn settle(&mut self) -> Result<(), Failure> {
        let is_begun = self.out.length() == HEADING.len() as u64 && self.out.starts_with(HEADING.as_bytes())?;
        if self.goes_aside && !self.out.is_empty() && !is_begun {
            let path = self.out.path().to_path_buf();
            let aside = files::put_aside(&self.disk, &path)?;
            self.disk.tell(&format!("{}: not written by this collector. It is kept as {}", path.display(), aside.display()));
            self.out = Out::open(&self.disk, Named::Heard, &path, None)?;
        }
        self.out.settle()?;
        self.begin()
    }

    /// The heading is on disk before the first line is written.
    fn begin(&mut self) -> Result<(), Failure> {
        if self.out.is_empty() {
            self.out.write(HEADING.as_bytes())?;
            self.out.sync()?;
        }
        Ok(())
    }

    /// The collector did not listen until now: telegrams that were opened up to this time may lack copies; none if no telegram was open.
    pub fn interrupt(&mut self, opened: Option<u64>) {
        self.interrupted = opened;
    }

    /// Writes what closed to disk.
    pub fn write(&mut self, closings: impl Iterator<Item = Closing>) -> Result<(), Failure> {
        self.lines.clear();
        closings.for_each(|closing| put_line(&mut self.lines, &closing, self.interrupted));
        if self.lines.is_empty() {
            return Ok(());
        }
        if !self.out.is_named()? {
            self.out = self.out.again()?;
            self.begin()?;
        }
        self.out.write(&self.lines)?;
        self.out.sync()
    }
}

fn put_line(out: &mut Vec<u8>, closing: &Closing, interrupted: Option<u64>) {
    let fields = closing.telegram.fields();
    put_number(out, closing.opened);
    out.push(b',');
    put_hex(out, &fields.txid);
    for number in [u64::from(fields.level()), u64::from(closing.copies), u64::from(interrupted.is_some_and(|t| closing.opened <= t))] {
        out.push(b',');
        put_number(out, number);
    }
    out.push(b'\n');
}

/// How much of a file counts for a collector whose latest reception has this time: up to the last line whose telegram is no longer open then, or up
/// to the heading.
fn counted(out: &Out, latest: u64) -> Result<u64, Failure> {
    let from = out.length().saturating_sub(LONGEST_BATCH).max(HEADING.len() as u64 - 1);
    let end = out.read_from(from)?;
    let is_closed = |line: &[u8]| opened(line).is_some_and(|opened| latest.saturating_sub(opened) > Collector::OPEN_FOR);
    let mut ends = (0..end.len()).rev().filter(|at| end[*at] == b'\n');
    let mut last = ends.next();
    while let (Some(at), Some(before)) = (last, ends.next()) {
        if is_closed(&end[before + 1..at]) {
            return Ok(from + at as u64 + 1);
        }
        last = Some(before);
    }
    match from < HEADING.len() as u64 && out.starts_with(HEADING.as_bytes())? {
        true => Ok(HEADING.len() as u64),
        false => {
            let text = "Nothing was changed. Move it away to begin a new one.";
            Err(Failure::Damaged(format!("{}: not the file that this state has written. {text}", out.path().display())))
        }
    }
}

/// The time at which the telegram of a line was opened; none if it is not a whole line of such a file.
fn opened(line: &[u8]) -> Option<u64> {
    let columns: Vec<&str> = std::str::from_utf8(line).ok()?.split(',').collect();
    let [opened, txid, numbers @ ..] = &columns[..] else { return None };
    let are_right = numbers.len() == 3 && numbers.iter().all(|n| text::number(n).is_some()) && text::identity(txid).is_some();
    are_right.then(|| text::number(opened)).flatten()
}
