//! What a collector keeps on disk: its state, its archive and the files of `--out` and `--heard`; and the order in which they are written
//! (docs/CRASH.md).
//!
//! A batch is what one read brought, up to a number of lines. Its rows go to the archive first, then to the file of `--out`. What it closes goes to
//! the file of `--heard`. Then the state is replaced, and then the rows are printed. So a row that was printed is counted, and at most one batch is
//! on disk that the state does not count.
use crate::batch::Batch;
use crate::closings::Closings;
use crate::disk::Shared;
use crate::failure::Failure;
use crate::journal::{LogPlace, State, Stored, RECORD};
use crate::out::{Named, Out};
use crate::rows::{self, Format};
use crate::state::StateFile;
use crate::store::{Place, Store};
use crate::text;
use mooringeye::Lines;
use std::path::PathBuf;

/// The largest number of lines in a batch.
pub const MAX_BATCH: usize = 16_384;
/// A time that is this far ahead of the one before it is reported: if a clock is wrong, all later lines are LATE.
const DAY: u64 = 24 * 60 * 60 * 1000;

/// The steps of a commit.
#[derive(Clone, Copy, Debug, PartialEq, Eq)]
pub enum Step {
    Archive,
    Out,
    State,
    Print,
}

/// The order of the steps, which is the model's.
pub const ORDER: [Step; 4] = [Step::Archive, Step::Out, Step::State, Step::Print];

/// Which files are kept.
#[derive(Clone)]
pub struct Files {
    pub state: Option<PathBuf>,
    pub archive: Option<Place>,
    pub out: Option<PathBuf>,
    pub heard: Option<PathBuf>,
    /// Begins with a fresh collector, and puts the old state aside.
    pub new_state: bool,
    /// Continues with the archive as it is.
    pub adopt: bool,
    pub format: Format,
    pub order: [Step; 4],
}

pub struct Keeper {
    disk: Shared,
    pub state: State,
    /// The state as it is on disk.
    saved: State,
    file: Option<StateFile>,
    /// Whether there was no state before.
    pub is_new: bool,
    /// Whether the lines come from a feed, while the state has a position in a log: that position is kept.
    pub is_beside_log: bool,
    store: Option<Store>,
    out: Option<Out>,
    closings: Option<Closings>,
    new_state: bool,
    format: Format,
    order: [Step; 4],
    batch: Batch,
}

/// Prints rows on standard output.
pub type Print<'a> = &'a mut dyn FnMut(&[u8]) -> Result<(), Failure>;

impl Keeper {
    /// Locks and reads the files, and finds what a stop may have left. Nothing is changed yet.
    pub fn open(disk: &Shared, files: &Files) -> Result<Keeper, Failure> {
        let file = files.state.as_deref().map(|path| StateFile::lock(disk, path)).transpose()?;
        let read = match &file {
            Some(file) if !files.new_state => file.read()?,
            _ => None,
        };
        let is_new = read.is_none();
        let mut state = read.unwrap_or_else(State::fresh);
        let saved = state.clone();
        let store = open_archive(disk, files, &mut state)?;
        let out = files.out.as_deref().map(|path| Out::open(disk, Named::Out, path, state.out)).transpose()?;
        out.as_ref().map_or(Ok(()), |out| check_format(out, files.format))?;
        let closings = files.heard.as_deref().map(|path| Closings::open(disk, path, &state.collector, is_new)).transpose()?;
        let (new_state, format, order) = (files.new_state, files.format, files.order);
        let (disk, batch) = (disk.clone(), Batch::new(closings.is_some()));
        Ok(Keeper { disk, state, saved, file, is_new, is_beside_log: false, store, out, closings, new_state, format, order, batch })
    }

    /// Repairs what a stop left, and writes the state: from now on lines can be taken.
    pub fn settle(&mut self) -> Result<(), Failure> {
        if let (true, Some(file)) = (self.new_state, &self.file) {
            if let Some(aside) = file.put_aside()? {
                self.disk.tell(&format!("the old state is kept as {}", aside.display()));
            }
        }
        if let Some(store) = &mut self.store {
            store.settle()?;
        }
        if let Some(out) = &mut self.out {
            out.settle()?;
        }
        if let Some(closings) = &mut self.closings {
            closings.settle()?;
        }
        self.save()?;
        if let Some(store) = &self.store {
            self.disk.tell(&format!("{} has {} rows", store.path().display(), store.rows()));
        }
        Ok(())
    }

    pub fn totals(&self) -> String {
        rows::totals(&self.state.collector.totals())
    }

    /// Receptions that were taken.
    pub fn received(&self) -> u64 {
        self.state.collector.totals().received
    }

    /// The rows of the batch.
    pub fn printed(&self) -> &[u8] {
        self.batch.printed()
    }

    /// Whether rows go to a file, and not to standard output.
    pub fn has_out(&self) -> bool {
        self.out.is_some()
    }

    pub fn leftovers(&self) -> u64 {
        self.store.as_ref().map_or(0, Store::left)
    }

    /// Replaces the state.
    fn save(&mut self) -> Result<(), Failure> {
        self.state.archive = self.store.as_ref().map(Store::attached);
        self.state.out = self.out.as_ref().map(Out::place);
        if let Some(file) = &self.file {
            file.write(&self.state)?;
            self.saved = self.state.clone();
        }
        Ok(())
    }

    /// Takes whole lines from the start of a text, at most `most`, as the next batch. They are the next lines of the log.
    pub fn take(&mut self, level: u8, text: &[u8], most: usize) -> Result<Lines, Failure> {
        let before = self.state.collector.latest();
        let took = self.batch.take(&mut self.state.collector, level, self.format, text, most)?;
        self.pass(&text[..took.used], took.lines as u64);
        self.warn_of_leaps(before);
        Ok(took)
    }

    /// Counts lines of the log that give no row.
    pub fn pass(&mut self, text: &[u8], lines: u64) {
        self.state.lines += lines;
        if let (Some(log), false) = (&mut self.state.log, self.is_beside_log) {
            log.pass(text);
        }
    }

    /// Continues the log at another position.
    pub fn stand_at(&mut self, place: LogPlace) {
        self.state.log = Some(place);
    }

    fn warn_of_leaps(&self, mut before: u64) {
        for time in self.batch.times() {
            if before > 0 && *time > before.saturating_add(DAY) {
                let text = "If its clock is wrong, all later lines will be LATE.";
                self.disk.tell(&format!("a line has the time {time}, more than a day after the one before it, {before}. {text}"));
                return;
            }
            before = before.max(*time);
        }
    }

    /// Writes the batch to disk, and prints its rows.
    pub fn commit(&mut self, print: Print) -> Result<(), Failure> {
        if let Some(out) = &self.out {
            if !out.is_named()? {
                self.renew_out()?;
            }
        }
        for step in self.order {
            match (step, &mut self.store, &mut self.out) {
                (Step::Archive, Some(store), _) => store.put(self.batch.times(), self.batch.records())?,
                (Step::Out, ..) => self.put_out()?,
                (Step::State, ..) => self.save()?,
                (Step::Print, _, None) => print(self.batch.printed())?,
                _ => {}
            }
        }
        self.batch.clear();
        Ok(())
    }

    /// Writes rows to the file of `--out`, and what closed to the file of `--heard`.
    fn put_out(&mut self) -> Result<(), Failure> {
        if let Some(out) = &mut self.out {
            if out.is_empty() {
                out.write(self.format.heading().as_bytes())?;
            }
            out.write(self.batch.printed())?;
            out.sync()?;
        }
        match &mut self.closings {
            Some(closings) => closings.write(self.batch.closings()),
            None => Ok(()),
        }
    }

    /// The lines come from a feed, and nobody listened to it until now: open telegrams may have been received more often.
    pub fn interrupt(&mut self) {
        if let Some(closings) = &mut self.closings {
            let collector = &self.state.collector;
            closings.interrupt((collector.open() > 0).then(|| collector.latest()));
        }
    }

    /// Continues with the file that the path of `--out` names now: the state says so before the first row is in it.
    fn renew_out(&mut self) -> Result<(), Failure> {
        let Some(out) = &self.out else { return Ok(()) };
        let new = out.again()?;
        check_format(&new, self.format)?;
        if let Some(file) = &self.file {
            file.write(&State { out: Some(new.place()), ..self.saved.clone() })?;
        }
        self.out = Some(new);
        Ok(())
    }

    /// The log has ended: leftovers that it did not give again are put aside.
    pub fn log_ended(&mut self) -> Result<(), Failure> {
        self.store.as_mut().map_or(Ok(()), Store::end)
    }

    /// Hands leftovers to the collector, if there is no log that gives them again. Each is counted if it gets the answer that the archive has.
    pub fn take_in(&mut self, level: u8, print: Print) -> Result<(), Failure> {
        let counted = self.state.counted();
        if let Some(closings) = &mut self.closings {
            closings.interrupt(Some(u64::MAX)); // copies of these rows are lost
        }
        while self.leftovers() > 0 {
            let rows = self.store.as_ref().expect("it has leftovers").leftovers(MAX_BATCH)?;
            let lines: Vec<u8> = rows.iter().flat_map(line_of).collect();
            let before = self.leftovers();
            self.take(level, &lines, MAX_BATCH)?;
            self.commit(print)?;
            if before - self.leftovers() < rows.len() as u64 {
                break;
            }
        }
        self.disk.tell(&format!("{} rows that the state did not count are counted now", self.state.counted() - counted));
        self.interrupt();
        self.log_ended()
    }

    /// Writes the state at the end.
    pub fn end(&mut self) -> Result<(), Failure> {
        self.save()
    }
}

/// Refuses to write rows after those of another format.
fn check_format(out: &Out, format: Format) -> Result<(), Failure> {
    let (is_json, is_csv) = (out.starts_with(b"{")?, out.starts_with(Format::Csv.heading().as_bytes())?);
    let fits = match format {
        Format::Json => is_json,
        Format::Csv => is_csv,
        Format::Text => !is_json && !is_csv,
    };
    if out.is_empty() || fits {
        return Ok(());
    }
    let (path, asked) = (out.path().display(), format!("{format:?}").to_lowercase());
    Err(Failure::Usage(format!("{path} does not start as a file of `--rows {asked}` does. Name another file.")))
}

/// A row as a line of a log.
fn line_of(row: &Stored) -> Vec<u8> {
    let mut line = Vec::with_capacity(64);
    text::put_number(&mut line, row.time);
    line.push(b' ');
    let length = usize::from(row.record[1]).min(RECORD - 2);
    text::put_hex(&mut line, &row.record[2..2 + length]);
    line.push(b'\n');
    line
}

/// The archive, with what the state knows of it.
fn open_archive(disk: &Shared, files: &Files, state: &mut State) -> Result<Option<Store>, Failure> {
    let kept = state.archive.take().filter(|_| !files.adopt);
    let other = |name: &[u8]| {
        let text = format!("the state belongs to the archive {}: name it by --archive, or use --adopt-archive", String::from_utf8_lossy(name));
        Err(Failure::Usage(text))
    };
    match (&files.archive, kept) {
        (None, None) => Ok(None),
        (None, Some(kept)) => other(&kept.name),
        (Some(place), Some(kept)) if place.name() != kept.name => other(&kept.name),
        (Some(place), Some(kept)) => Store::resume(disk, place.clone(), &kept, state.counted()).map(Some),
        (Some(place), None) => Store::begin(disk, place.clone(), state.counted()).map(Some),
    }
}
