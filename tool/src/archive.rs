//! `mooringeye archive`: verify, list, append to, salvage, remove from and report on archive files.
//!
//! Files are read in pieces, so any length is handled in the same memory. Nothing is changed in place: the new content is written to a new file in
//! the same folder. It replaces the old file when it is complete and on disk.
use crate::appender::{Appender, FRAME, MAX_BLOCKS};
use crate::args::{parsed, Args};
use crate::failure::{complain, Failure};
use crate::files::{self, Pieces, Replacement, PIECE};
use crate::names::{quoted, Names};
use crate::rows::{self, Format};
use crate::streams::{each_line, quietly, Output};
use crate::text;
use crate::times;
use mooringeye::{Adding, Archive, Packer, Refusal, Report, Row, Scan, Telegram};
use std::ffi::{OsStr, OsString};
use std::fs::{self, File};
use std::path::Path;

/// An archive to be read, and its length in blocks.
pub struct Source<'a> {
    pub file: File,
    pub path: &'a Path,
    pub blocks: u64,
}

impl<'a> Source<'a> {
    pub fn open(path: &'a OsStr) -> Result<Source<'a>, Failure> {
        let path = Path::new(path);
        let file = files::open_archive(path)?;
        let blocks = files::blocks_of(&file, path)?;
        Ok(Source { file, path, blocks })
    }

    /// The same, with a lock against everyone who writes it.
    fn open_locked(path: &'a Path) -> Result<Source<'a>, Failure> {
        let file = files::open_locked(path, false)?;
        let blocks = files::blocks_of(&file, path)?;
        Ok(Source { file, path, blocks })
    }

    fn pieces(&self) -> Pieces<'_> {
        Pieces::of(&self.file, self.path, 0, self.blocks)
    }

    pub fn refused(&self, why: Refusal) -> Failure {
        Failure::refused(self.path.display(), why)
    }

    /// The number of rows at the end of a scan, or the failure.
    pub fn rows(&self, scan: &Scan) -> Result<usize, Failure> {
        let failure = |refused| files::while_written(Failure::refused_at(self.path.display(), refused), &self.file, self.path);
        scan.end().map_err(failure)
    }

    fn verify(&self) -> Result<usize, Failure> {
        self.rows(&files::scan(self.pieces())?)
    }
}

/// Verifies every file, and reports every failure; the most serious one decides the exit status.
pub fn verify(args: &Args) -> Result<(), Failure> {
    let mut output = Output::standard()?;
    let mut worst: Option<Failure> = None;
    for name in args.at_least_one()? {
        let verified = Source::open(name).and_then(|source| Ok((source.verify()?, source.blocks)));
        match (verified, worst.take()) {
            (Ok((rows, blocks)), before) => {
                output.write(format!("{}: {rows} rows, {blocks} blocks\n", name.display()).as_bytes())?;
                worst = before;
            }
            (Err(failure), None) => worst = Some(failure),
            (Err(failure), Some(before)) => {
                let (lesser, greater) = if failure.status() > before.status() { (before, failure) } else { (failure, before) };
                complain(lesser.text());
                worst = Some(greater);
            }
        }
    }
    worst.map_or(Ok(()), Err)
}

pub fn identities<'a>(words: impl Iterator<Item = &'a OsStr>) -> Result<Vec<u32>, Failure> {
    words.map(|word| parsed(word, "the ID of a transmitter", "eight hexadecimal digits", text::identity)).collect()
}

/// Reads a row as `list` prints it as text.
fn row_of(line: &str) -> Result<Row, String> {
    let mut parts = line.splitn(3, ' ');
    let time = parts.next().and_then(text::number);
    let loose = match parts.next() {
        Some("KEPT") => Some(false),
        Some("LOOSE") => Some(true),
        _ => None,
    };
    let bytes = parts.next().and_then(text::bytes_of_hex);
    match (time, loose, bytes) {
        (Some(time), Some(loose), Some(bytes)) => {
            let telegram = Telegram::new(&bytes).map_err(|why| why.to_string())?;
            Ok(Row { telegram, time, loose })
        }
        _ => Err("not a time, KEPT or LOOSE, and a telegram in hexadecimal digits".into()),
    }
}

/// A telegram's length and its bytes.
fn frame(telegram: &Telegram) -> [u8; FRAME] {
    let bytes = telegram.as_bytes();
    let mut frame = [0; FRAME];
    frame[0] = bytes.len() as u8;
    frame[1..1 + bytes.len()].copy_from_slice(bytes);
    frame
}

pub fn append(args: &Args) -> Result<(), Failure> {
    let [name] = args.exactly()?;
    let path = &files::resolved(Path::new(name));
    let is_new = fs::symlink_metadata(path).is_err();
    let appended = append_all(path);
    if is_new && appended.is_err() {
        let _ = fs::remove_file(path); // made to be locked
    }
    let (before, rows) = appended?;
    Output::standard()?.write(format!("{}: {} rows appended, {rows} rows\n", path.display(), rows - before).as_bytes())
}

/// Appends the rows of standard input to a copy, which replaces the file. Returns the number of rows before and after.
fn append_all(path: &Path) -> Result<(u64, u64), Failure> {
    let file = files::open_locked(path, true)?;
    let source = Source { blocks: files::blocks_of(&file, path)?, file, path };
    let mut new = Replacement::of(path)?;
    files::copy(&source.file, path, source.blocks, &mut new)?;
    let copy = new.file.try_clone().map_err(|e| Failure::of(format!("write {}", path.display()), &e))?;
    let mut appender = Appender::behind_all(copy, path, MAX_BLOCKS)?;
    let before = appender.rows();
    each_line(|number, line| {
        let row = row_of(line).map_err(|why| Failure::Failed(format!("line {number} of standard input: {why}; nothing is appended")))?;
        appender.append(&frame(&row.telegram), row.time, row.loose)
    })?;
    appender.write()?;
    new.commit()?;
    Ok((before, appender.rows()))
}

/// Packs the rows of every sound block into a new file as long as the old one; `dropped` gets each dropped position.
fn pack(source: &Source, mut packer: Packer, new: &mut Replacement, mut dropped: impl FnMut(u64) -> Result<(), Failure>) -> Result<u64, Failure> {
    let size = PIECE.min(source.blocks as usize * Archive::BLOCK);
    let (mut out, mut positions) = (vec![0; size], vec![0; size / Archive::BLOCK]);
    let mut pieces = source.pieces();
    let mut before = 0;
    while let Some(piece) = pieces.next()? {
        let packed = packer.feed(piece, &mut out, &mut positions).map_err(|why| source.refused(why))?;
        new.write(&out[..packed.written])?;
        positions[..packed.dropped].iter().try_for_each(|position| dropped(before + position))?;
        before += (piece.len() / Archive::BLOCK) as u64;
    }
    if let Some(last) = packer.end() {
        new.write(last.as_bytes())?;
    }
    let length = source.blocks * Archive::BLOCK as u64;
    new.file.set_len(length).map_err(|e| Failure::of(format!("write the new {}", source.path.display()), &e))?;
    Ok(packer.rows())
}

pub fn salvage(args: &Args) -> Result<(), Failure> {
    let [from, to] = args.exactly()?;
    let source = Source::open(from)?;
    let to = Path::new(to);
    if fs::symlink_metadata(to).is_ok() {
        return Err(Failure::Failed(format!("{} exists already", to.display())));
    }
    let mut output = Output::standard()?;
    let mut new = Replacement::of(to)?;
    let mut count = 0;
    let rows = pack(&source, Packer::new(&[]), &mut new, |position| {
        count += 1;
        output.write(format!("DROPPED {position}\n").as_bytes())
    })?;
    new.commit_new()?;
    output.write(format!("{}: {rows} rows, {count} blocks dropped\n", to.display()).as_bytes())
}

pub fn remove(args: &Args) -> Result<(), Failure> {
    let Some((name, more)) = args.rest().split_first() else {
        return Err(args.wrong());
    };
    let ids = identities(args.all("txid").chain(more.iter().map(OsString::as_os_str)))?;
    if ids.is_empty() || ids.len() > Packer::MAX_IDENTITIES {
        return Err(Failure::refused(format!("{} transmitters are named, but only 1 to 32 can be removed", ids.len()), Refusal::Argument));
    }
    let path = files::resolved(Path::new(name));
    let source = Source::open_locked(&path)?;
    let before = source.verify()? as u64;
    let mut output = Output::standard()?;
    let mut new = Replacement::of(source.path)?;
    let rows = pack(&source, Packer::new(&ids), &mut new, |_| unreachable!("a verified archive has no block to drop"))?;
    let blocks = |rows: u64| rows.div_ceil(Archive::ROWS_PER_BLOCK as u64);
    new.commit()?;
    let text = format!("{}: {} rows removed, {rows} rows, {} blocks freed\n", name.display(), before - rows, blocks(before) - blocks(rows));
    output.write(text.as_bytes())
}

pub fn sheet(args: &Args) -> Result<(), Failure> {
    let format = rows::format(args)?;
    if format == Format::Json {
        return Err(Failure::Usage("a sheet is printed as text or csv".into()));
    }
    let (is_iso, names) = (times::is_iso(args)?, Names::of(args)?);
    let received = args.value("received", "a number of receptions", text::number)?;
    let mut report = Report::new();
    for name in args.at_least_one()? {
        let source = Source::open(name)?;
        let mut adding = Adding::new(&mut report);
        let mut pieces = source.pieces();
        while let Some(piece) = pieces.next()? {
            adding.feed(piece).map_err(|why| source.refused(why))?;
        }
        let failure = |refused| files::while_written(Failure::refused_at(source.path.display(), refused), &source.file, source.path);
        adding.end().map_err(failure)?;
    }
    let share = received.map(|n| report.share(n).map_err(|why| Failure::refused(format!("--received {n}"), why))).transpose()?;
    quietly(Output::standard()?.write(sheet_text(&report, format, share, is_iso, names.as_ref()).as_bytes()))
}

/// The lines of a report, and its totals last.
fn sheet_text(report: &Report, format: Format, share: Option<u64>, is_iso: bool, names: Option<&Names>) -> String {
    let mut out = String::new();
    let mut line = |cells: [String; 6], name: &str| {
        let text = match (format, names) {
            (Format::Csv, Some(_)) => format!("{},{}", cells.join(","), quoted(name)),
            (Format::Csv, None) => cells.join(","),
            _ => {
                let [id, kept, loose, earliest, latest, share] = cells;
                let width = if is_iso { 24 } else { 20 };
                format!("{id:<8} {kept:>13} {loose:>13} {earliest:>width$} {latest:>width$} {share:<5} {name}")
            }
        };
        out += text.trim_end();
        out.push('\n');
    };
    let time = |time: u64| if is_iso { times::iso(time) } else { time.to_string() };
    line(["txid", "kept", "loose", "earliest", "latest", "share"].map(String::from), if names.is_some() { "name" } else { "" });
    let (mut earliest, mut latest) = (u64::MAX, 0);
    for l in report.lines() {
        (earliest, latest) = (earliest.min(l.earliest), latest.max(l.latest));
        let name = names.map_or("", |names| names.name(&l.identity.to_be_bytes()));
        let [kept, loose] = [l.kept, l.loose].map(|n| n.to_string());
        line([format!("{:08X}", l.identity), kept, loose, time(l.earliest), time(l.latest), String::new()], name);
    }
    let is_empty = report.lines().next().is_none();
    let [first, last] = [earliest, latest].map(|n| if is_empty { String::new() } else { time(n) });
    let share = share.map(|t| format!("{}.{:03}", t / 1000, t % 1000)).unwrap_or_default();
    line(["TOTAL".into(), report.kept().to_string(), report.loose().to_string(), first, last, share], "");
    out
}
