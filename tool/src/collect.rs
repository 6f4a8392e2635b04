//! `mooringeye collect`: hands lines to the proved collector; its state and rows survive whatever happens to the process.
//!
//! This module reads the lines, from standard input or from a log, and cuts them into batches; `keeper` writes each to disk.
use crate::appender::MAX_BLOCKS;
use crate::args::Args;
use crate::bad::{shown, BadLines};
use crate::disk::{Real, Shared};
use crate::failure::{complain, tell, Failure};
use crate::journal::{keep_last, LogPlace};
use crate::keeper::{Files, Keeper, MAX_BATCH, ORDER};
use crate::logs::{differ, Log};
use crate::metrics::Metrics;
use crate::progress::Progress;
use crate::rows::{self, Format};
use crate::signals::{self, Signals};
use crate::store::Place;
use crate::streams::{Got, Input, Output};
use crate::{sys, text};
use mooringeye::raw::LINE_LIMIT;
use mooringeye::{skip_lines, FirstLine};
use std::io::{self, IsTerminal};
use std::path::{Path, PathBuf};
use std::rc::Rc;

/// How much is read at once; and how much if each row is synced, because a signal waits until all of it is taken.
const CHUNK: usize = 1 << 20;
const SYNCED_CHUNK: usize = 1 << 12;
const NO_LEVEL: &str = "without --level the first line must be `level 0`, `level 1` or `level 2`";

pub fn run(args: &Args) -> Result<(), Failure> {
    let options = Options::of(args)?;
    let signals = Signals::catch().map_err(|e| Failure::of("catch signals", &e))?;
    let mut run = Run::start(&options)?;
    run.take_all(&signals)?;
    run.end(&signals)
}

struct Options {
    level: Option<u8>,
    files: Files,
    /// How many lines a batch has.
    batch: usize,
    replay: bool,
    log: Option<PathBuf>,
    follow: bool,
    adopt_log: bool,
    metrics: Option<PathBuf>,
}

impl Options {
    fn of(args: &Args) -> Result<Options, Failure> {
        args.no_rest()?;
        let blocks = args.value("blocks", "a number of blocks, 1 to 2^32", |t| text::number(t).filter(|n| (1..=MAX_BLOCKS).contains(n)))?;
        let [archive, state, log] = [args.path("archive")?, args.path("state")?, args.path("log")?];
        let [out, heard] = [args.path("out")?, args.path("heard")?];
        check_together(args, [&archive, &state, &log, &out, &heard])?;
        let batch = args.value("sync", "row or batch", |t| match t {
            "row" => Some(1),
            "batch" => Some(MAX_BATCH),
            _ => None,
        })?;
        let files = Files {
            state,
            archive: archive.map(|path| Place::of(&path, blocks)).transpose()?,
            out,
            heard,
            new_state: args.has("new-state") || args.has("fresh"),
            adopt: args.has("adopt-archive") || args.has("begin"),
            format: rows::format(args)?,
            order: ORDER,
        };
        Ok(Options {
            level: args.value("level", "0, 1 or 2", |t| text::number(t).filter(|n| *n <= 2))?.map(|n| n as u8),
            files,
            batch: batch.unwrap_or(MAX_BATCH),
            replay: args.has("replay"),
            log,
            follow: args.has("follow"),
            adopt_log: args.has("adopt-log"),
            metrics: args.path("metrics")?,
        })
    }
}

/// Which options go together.
fn check_together(args: &Args, paths: [&Option<PathBuf>; 5]) -> Result<(), Failure> {
    let [archive, state, log, ..] = paths;
    for (at, path) in paths.iter().enumerate() {
        if path.is_some() && paths[..at].contains(path) {
            return Err(Failure::Usage("state, archive, log, --out and --heard must be different files".into()));
        }
    }
    let needs = [
        ("blocks", archive, "--archive"),
        ("replay", state, "--state"),
        ("new-state", state, "--state"),
        ("fresh", state, "--state"),
        ("adopt-archive", state, "--state"),
        ("begin", state, "--state"),
        ("out", state, "--state"),
        ("heard", state, "--state"),
        ("follow", log, "--log"),
        ("adopt-log", log, "--log"),
    ];
    if let Some((name, _, other)) = needs.iter().find(|(name, path, _)| args.has(name) && path.is_none()) {
        return Err(Failure::Usage(format!("--{name} needs {other}")));
    }
    match args.has("replay") && log.is_some() {
        true => Err(Failure::Usage("--replay is for standard input; --log knows which lines were taken".into())),
        false => Ok(()),
    }
}

/// How a run ended.
#[derive(PartialEq, Eq)]
enum Ended {
    Input,
    Signal,
}

/// Where the lines come from.
enum Source {
    Standard(Input),
    Log(Log),
}

impl Source {
    fn read(&mut self, buffer: &mut [u8], signals: &Signals) -> Result<Got, Failure> {
        match self {
            Source::Standard(input) => input.read(buffer, signals),
            Source::Log(log) => log.read(buffer, signals),
        }
    }

    /// The progress in a log that is read again, for a terminal on which no rows are printed; none for lines that are still to come.
    fn progress(&self, is_replayed: bool, has_out: bool) -> Option<Progress> {
        let total = match self {
            Source::Standard(input) => input.length(),
            Source::Log(log) => log.left(),
        };
        let has_end = total.is_some() || is_replayed;
        (has_end && (has_out || !io::stdout().is_terminal())).then(|| Progress::of(self.name(), total))
    }

    fn name(&self) -> String {
        match self {
            Source::Standard(_) => "the input".into(),
            Source::Log(log) => log.path().display().to_string(),
        }
    }
}

/// A running collector.
struct Run {
    keeper: Keeper,
    source: Source,
    output: Output,
    format: Format,
    batch: usize,
    level: Option<u8>,
    /// Whether the input is a feed that cannot be read again.
    is_live: bool,
    /// Whether the next line is the first one of the input, or of a log.
    is_first: bool,
    /// How many lines were read.
    read: u64,
    skipping: Skipping,
    is_settled: bool,
    metrics: Metrics,
    progress: Option<Progress>,
    bad: BadLines,
    ended: Ended,
}

/// The lines that the state has taken, while they are skipped.
#[derive(Default)]
struct Skipping {
    left: u64,
    is_on: bool,
    bytes: u64,
    tail: Vec<u8>,
}

impl Skipping {
    /// Skips lines of a text: how long they are, and how many.
    fn skip(&mut self, text: &[u8]) -> (usize, u64) {
        let (used, lines) = skip_lines(text, self.left.min(usize::MAX as u64) as usize);
        self.left -= lines as u64;
        self.bytes += used as u64;
        keep_last(&mut self.tail, &text[..used]);
        (used, lines as u64)
    }
}

impl Run {
    /// Locks and reads the files. If lines must be skipped, nothing is changed before they are compared.
    fn start(options: &Options) -> Result<Run, Failure> {
        let disk: Shared = Rc::new(Real);
        let input = if options.log.is_none() { Some(Input::standard()?) } else { None };
        let output = Output::standard()?;
        let mut keeper = Keeper::open(&disk, &options.files)?;
        let (source, skip, level) = match (input, &options.log) {
            (Some(input), _) => (Source::Standard(input), if options.replay { keeper.state.lines } else { 0 }, options.level),
            (None, log) => open_log(log.as_deref().expect("one of both"), options, &mut keeper)?,
        };
        let is_first = keeper.state.log.as_ref().is_none_or(|log| log.offset == 0) || matches!(source, Source::Standard(_));
        let is_live = matches!(source, Source::Standard(_)) && !options.replay;
        keeper.is_beside_log = is_live && keeper.state.log.as_ref().is_some_and(|log| log.inode != 0);
        let progress = source.progress(options.replay, keeper.has_out());
        let mut run = Run {
            keeper,
            source,
            output,
            format: options.files.format,
            batch: options.batch,
            level,
            is_live,
            is_first,
            read: 0,
            skipping: Skipping { left: skip, is_on: skip > 0, ..Skipping::default() },
            is_settled: false,
            metrics: Metrics::of(options.metrics.clone()),
            progress,
            bad: BadLines::default(),
            ended: Ended::Input,
        };
        run.say_where_it_stands(options.files.state.as_deref());
        if skip == 0 {
            run.settle()?;
        }
        Ok(run)
    }

    fn say_where_it_stands(&self, state: Option<&Path>) {
        if let Some(path) = state {
            let what = if self.keeper.is_new { "new collector" } else { "continuing" };
            let skipped = if self.skipping.left > 0 { ", which are skipped" } else { "" };
            tell(format!("{}: {what}. {} lines taken{skipped}.", path.display(), self.keeper.state.lines));
        }
    }

    /// Compares what was skipped with what was taken, and repairs the files: from now on lines can be taken.
    fn settle(&mut self) -> Result<(), Failure> {
        if self.skipping.is_on {
            self.compare_skipped()?;
        }
        self.keeper.settle()?;
        if self.is_live {
            self.keeper.interrupt();
        }
        self.is_settled = true;
        if !self.keeper.has_out() {
            self.output.write(self.format.heading().as_bytes())?;
        }
        Ok(())
    }

    fn compare_skipped(&mut self) -> Result<(), Failure> {
        let Skipping { bytes, tail, .. } = &self.skipping;
        match &self.keeper.state.log {
            None => tell("the skipped lines were not compared: the state does not have the log's last bytes"),
            Some(log) => {
                let kept = log.tail.len().min(tail.len());
                let (read, taken) = (&tail[tail.len() - kept..], &log.tail[log.tail.len() - kept..]);
                let first = bytes - kept as u64;
                if let Some(at) = differ(read, taken).or((kept < log.tail.len()).then_some(0)) {
                    let text = format!("{} is not the log that was read before: it differs at byte {}", self.source.name(), first + at);
                    return Err(Failure::Damaged(format!("{text}. Nothing was changed.")));
                }
            }
        }
        let (device, inode) = match &self.source {
            Source::Log(log) => log.identity(),
            Source::Standard(_) => (0, 0),
        };
        let place = LogPlace { offset: *bytes, device, inode, tail: tail.clone() };
        self.keeper.stand_at(place);
        Ok(())
    }

    /// Takes the lines of the input until it ends or a signal asks to stop.
    fn take_all(&mut self, signals: &Signals) -> Result<(), Failure> {
        let chunk = if self.batch == 1 { SYNCED_CHUNK } else { CHUNK };
        let mut buffer = vec![0; LINE_LIMIT + chunk];
        if self.is_settled {
            self.take_in(signals)?;
        }
        // The part of a line that has not ended is at the front.
        let mut carried = 0;
        loop {
            let filled = match self.source.read(&mut buffer[carried..carried + chunk], signals)? {
                Got::Bytes(n) => carried + n,
                Got::End => break,
                Got::Next => {
                    self.tell_unfinished(&buffer[..carried], "ended");
                    carried = 0;
                    self.begin_log();
                    continue;
                }
                Got::Signal => {
                    if self.sees_to_signal() {
                        break;
                    }
                    continue;
                }
            };
            let used = self.take_lines(&buffer[..filled], signals)?;
            if let Some(progress) = &mut self.progress {
                progress.show((filled - carried) as u64, |_| format!("{} rows", self.read));
            }
            // A line that is longer than the longest is always BAD.
            carried = (filled - used).min(LINE_LIMIT);
            buffer.copy_within(used..used + carried, 0);
        }
        self.progress = None;
        self.tell_unfinished(&buffer[..carried], if self.ended == Ended::Input { "ended" } else { "was left" });
        match self.ended {
            Ended::Input => self.input_ended(),
            Ended::Signal => Ok(()),
        }
    }

    fn tell_unfinished(&self, rest: &[u8], how: &str) {
        if !rest.is_empty() {
            let text = format!("{} {how} in the middle of line {}, which is not counted", self.source.name(), self.read + 1);
            tell(format!("{text}: {}", shown(rest)));
        }
    }

    fn input_ended(&mut self) -> Result<(), Failure> {
        if self.skipping.left > 0 {
            let text = format!("{} ended {} lines before the {} that were taken", self.source.name(), self.skipping.left, self.keeper.state.lines);
            return Err(Failure::Failed(text));
        }
        if self.level.is_none() {
            return Err(Failure::Usage(NO_LEVEL.into()));
        }
        if self.is_settled && !self.is_live {
            self.keeper.log_ended()?;
        }
        Ok(())
    }

    /// The next log was opened.
    fn begin_log(&mut self) {
        if let Source::Log(log) = &self.source {
            tell(format!("continuing with {}", log.path().display()));
            self.keeper.stand_at(log.place());
        }
        self.is_first = true;
    }

    /// Prints the totals if they were requested, and returns whether to stop.
    fn sees_to_signal(&mut self) -> bool {
        if sys::take_totals_request() {
            complain(self.keeper.totals());
        }
        let Some(name) = signals::stop() else { return false };
        tell(format!("{name}: stopped normally"));
        self.ended = Ended::Signal;
        true
    }

    /// Takes the whole lines of a text in batches; returns how long they are. A signal that comes meanwhile waits: what was read is taken first,
    /// because it could not be read again.
    fn take_lines(&mut self, text: &[u8], signals: &Signals) -> Result<usize, Failure> {
        let mut used = 0;
        if self.is_first {
            used = self.take_first(text)?;
            if self.is_first {
                return Ok(0);
            }
            self.take_in(signals)?;
        }
        if self.skipping.left > 0 {
            let (skipped, lines) = self.skipping.skip(&text[used..]);
            (used, self.read) = (used + skipped, self.read + lines);
        }
        if self.skipping.left > 0 {
            return Ok(used);
        }
        if !self.is_settled {
            self.settle()?;
        }
        let level = self.level.expect("known since the first line");
        loop {
            let received = self.keeper.received();
            let took = self.keeper.take(level, &text[used..], self.batch)?;
            if took.lines == 0 {
                return Ok(used);
            }
            // Lines that are not receptions are BAD.
            let bad = took.lines as u64 - (self.keeper.received() - received);
            if bad > 0 {
                self.bad.take(self.read + 1, (&text[used..used + took.used], self.keeper.printed()), took.lines as u64, bad);
            }
            (used, self.read) = (used + took.used, self.read + took.lines as u64);
            self.commit(signals)?;
        }
    }

    fn commit(&mut self, signals: &Signals) -> Result<(), Failure> {
        let output = &mut self.output;
        self.keeper.commit(&mut |rows| output.write_until_stopped(rows, signals))?;
        self.metrics.write(&self.keeper.state);
        Ok(())
    }

    /// For a feed that cannot be read again: hands the rows that a stop left to the collector, as soon as the level is known. If the state has a
    /// position in a log, they wait for that log.
    fn take_in(&mut self, signals: &Signals) -> Result<(), Failure> {
        match self.level {
            Some(level) if self.is_live && !self.keeper.is_beside_log && self.keeper.leftovers() > 0 => {
                let output = &mut self.output;
                self.keeper.take_in(level, &mut |rows| output.write_until_stopped(rows, signals))
            }
            _ => Ok(()),
        }
    }

    /// Takes the first line, if it has a level and must not be skipped; returns how long it is. It must agree with `--level`, and is required if that
    /// is left out.
    fn take_first(&mut self, text: &[u8]) -> Result<usize, Failure> {
        let first = FirstLine::of(text);
        if self.is_first && text::is_packed(text) {
            tell(format!("{} looks packed. Unpack it first; for gzip, by `zcat FILE | mooringeye collect ..`.", self.source.name()));
        }
        self.is_first = first == FirstLine::Unended && text.len() < LINE_LIMIT;
        match (first, self.level) {
            (FirstLine::Level { setting, .. }, Some(level)) if setting != level => {
                Err(Failure::Usage(format!("the first line says level {setting}, but --level says {level}")))
            }
            (FirstLine::Level { setting, used }, _) => {
                self.level = Some(setting);
                if self.skipping.left > 0 {
                    return Ok(0); // it is skipped with the others
                }
                self.read += 1;
                self.keeper.pass(&text[..used], 1);
                Ok(used)
            }
            (FirstLine::Bad { used }, None) => {
                self.bad.look_for_cr(self.read + 1, &text[..used - 1]);
                Err(Failure::Usage(NO_LEVEL.into()))
            }
            (FirstLine::Unended, None) if !self.is_first => Err(Failure::Usage(NO_LEVEL.into())),
            _ => Ok(0),
        }
    }

    /// Writes the state at the end, and the totals.
    fn end(&mut self, signals: &Signals) -> Result<(), Failure> {
        if self.is_settled {
            self.keeper.end()?;
            self.metrics.write(&self.keeper.state);
        }
        self.bad.end();
        let totals = self.keeper.totals();
        if self.format == Format::Text && self.ended == Ended::Input && !self.keeper.has_out() {
            self.output.write_until_stopped(format!("{totals}\n").as_bytes(), signals)?;
        }
        tell(totals);
        Ok(())
    }
}

/// Opens the log at the position in the state. Returns how many lines must be skipped by their number, and the level in its first line.
fn open_log(path: &Path, options: &Options, keeper: &mut Keeper) -> Result<(Source, u64, Option<u8>), Failure> {
    let stood = keeper.state.log.as_ref().is_some_and(|place| place.inode != 0);
    let begins = options.adopt_log || keeper.state.lines == 0 && !stood;
    let log = Log::open(path, options.follow, keeper.state.log.as_ref().filter(|_| !begins))?;
    // A state of version 1 has no position: its lines are skipped.
    let skip = if begins || keeper.state.log.is_some() { 0 } else { keeper.state.lines };
    let offset = match (&mut keeper.state.log, begins) {
        (Some(place), false) => {
            (place.device, place.inode) = log.identity();
            place.offset
        }
        (None, false) => 0,
        (_, true) => {
            keeper.stand_at(log.place());
            0
        }
    };
    let said = match FirstLine::of(&log.front()?) {
        FirstLine::Level { setting, .. } if offset > 0 => Some(setting),
        _ => None,
    };
    Ok((Source::Log(log), skip, options.level.or(said)))
}
