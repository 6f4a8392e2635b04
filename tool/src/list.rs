//! `mooringeye archive list`: the rows of archives with their numbers, for people and for a database.
//!
//! Rows are counted over the files, in the order of the files' numbers. If the first rows of a file are not wanted, only the blocks after them are
//! read: the end of the rows is found by binary search, and reading from there to the end of the file must give the same.
use crate::appender::BLOCK;
use crate::archive::{identities, Source};
use crate::args::Args;
use crate::copy;
use crate::failure::Failure;
use crate::files::{Pieces, PIECE};
use crate::journal::ROWS;
use crate::rows::{Format, Style};
use crate::streams::{quietly, Output};
use crate::text::{self, put_hex, put_number};
use crate::times;
use mooringeye::{Archive, Block, Row, Scan};
use std::collections::BTreeMap;
use std::ffi::{OsStr, OsString};
use std::os::unix::ffi::OsStrExt;
use std::os::unix::fs::FileExt;
use std::path::Path;

/// The greatest number of a first row, so that row numbers never exceed 63 bits, as databases have them.
const MAX_FIRST: u64 = 1 << 62;

pub fn run(args: &Args) -> Result<(), Failure> {
    quietly(list(args))
}

fn list(args: &Args) -> Result<(), Failure> {
    let wanted = Wanted::of(args)?;
    let mut printer = Printer::of(args)?;
    let mut left = args.value("count", "a number of rows", text::number)?.unwrap_or(u64::MAX);
    let mut first = args.value("first", "the number of a row, from 1 on", first_row)?.unwrap_or(1);
    let names = in_order(args.at_least_one()?);
    printer.begin()?;
    for name in names {
        first += list_one(&Source::open(name)?, first, &wanted, &mut left, &mut printer)?;
    }
    printer.end()
}

fn first_row(text: &str) -> Option<u64> {
    text::number(text).filter(|n| (1..=MAX_FIRST).contains(n))
}

/// Prints the rows of a file whose first one has this number, and returns how many it has. The rows before the first block that does not match are
/// printed, and then the failure is reported.
pub fn list_one(source: &Source, first: u64, wanted: &Wanted, left: &mut u64, printer: &mut impl Sink) -> Result<u64, Failure> {
    if *left == 0 {
        return Ok(0);
    }
    let unwanted = (wanted.after + 1).saturating_sub(first);
    let from = if unwanted == 0 { 0 } else { (unwanted / ROWS).min(used_blocks(source)?.saturating_sub(1)) };
    let mut scan = Scan::behind(from);
    let mut number = first + ROWS * from;
    let mut pieces = Pieces::of(&source.file, source.path, from, source.blocks);
    while let Some(piece) = pieces.next()? {
        for row in scan.feed_rows(piece).map_err(|why| source.refused(why))? {
            if *left > 0 && wanted.has(number, &row) {
                printer.put(number, &row);
                *left -= 1;
            }
            number += 1;
        }
        printer.write()?;
        source.rows(&scan)?;
        if *left == 0 {
            break;
        }
    }
    Ok(number - first)
}

/// How many blocks of an archive have rows: all before the first that is all zero.
fn used_blocks(source: &Source) -> Result<u64, Failure> {
    let (mut used, mut blank) = (0, source.blocks);
    while used < blank {
        let middle = used + (blank - used) / 2;
        let mut bytes = [0; Archive::BLOCK];
        let place = |e| Failure::of(format!("read {} at block {middle}", source.path.display()), &e);
        source.file.read_exact_at(&mut bytes, middle * BLOCK).map_err(place)?;
        if Block::new(bytes).is_blank() {
            blank = middle;
        } else {
            used = middle + 1;
        }
    }
    Ok(used)
}

/// Files in the order of their numbers, if their names differ only in a number: a shell sorts plant-10 before plant-9. Others keep their order.
pub fn in_order(names: &[OsString]) -> Vec<&OsStr> {
    let mut sorted: Vec<&OsStr> = names.iter().map(OsString::as_os_str).collect();
    let numbered: Option<Vec<Numbered>> = sorted.iter().map(|name| Numbered::of(name)).collect();
    if numbered.is_some_and(|all| all.windows(2).all(|two| two[0].is_beside(&two[1]))) {
        sorted.sort_by_key(|name| Numbered::of(name).map(|n| n.number));
    }
    sorted
}

/// A name with a number: the last digits of its last part.
struct Numbered<'a> {
    before: &'a [u8],
    number: u64,
    behind: &'a [u8],
}

impl Numbered<'_> {
    fn of(name: &OsStr) -> Option<Numbered<'_>> {
        let bytes = name.as_bytes();
        let part = bytes.len() - Path::new(name).file_name()?.len();
        let end = bytes.iter().rposition(u8::is_ascii_digit)? + 1;
        let start = bytes[..end].iter().rposition(|c| !c.is_ascii_digit()).map_or(0, |at| at + 1).max(part);
        let number = std::str::from_utf8(bytes.get(start..end)?).ok()?.parse().ok()?;
        Some(Numbered { before: &bytes[..start], number, behind: &bytes[end..] })
    }

    fn is_beside(&self, other: &Numbered) -> bool {
        (self.before, self.behind) == (other.before, other.behind)
    }
}

/// Takes the wanted rows.
pub trait Sink {
    fn put(&mut self, number: u64, row: &Row);

    /// Hands on what was put.
    fn write(&mut self) -> Result<(), Failure>;
}

/// Which rows are wanted.
pub struct Wanted {
    /// The number of the last row that is not wanted; 0 if the first one is wanted.
    after: u64,
    pub from: u64,
    pub to: u64,
    /// Empty for every transmitter.
    transmitters: Vec<[u8; 4]>,
}

impl Wanted {
    pub fn of(args: &Args) -> Result<Wanted, Failure> {
        let (from, to) = times::span(args)?;
        let after = args.value("after", "the number of a row", |t| text::number(t).filter(|n| *n < u64::MAX))?;
        let transmitters = identities(args.all("txid"))?.into_iter().map(u32::to_be_bytes).collect();
        Ok(Wanted { after: after.unwrap_or(0), from, to, transmitters })
    }

    fn has(&self, number: u64, row: &Row) -> bool {
        number > self.after && (self.from..=self.to).contains(&row.time) && self.has_transmitter(&row.telegram.txid())
    }

    pub fn has_every_transmitter(&self) -> bool {
        self.transmitters.is_empty()
    }

    pub fn has_transmitter(&self, id: &[u8; 4]) -> bool {
        self.has_every_transmitter() || self.transmitters.contains(id)
    }
}

/// How rows are printed.
#[derive(Clone, Copy, PartialEq, Eq)]
enum Form {
    /// As text, CSV or JSON, without their numbers.
    Plain(Format),
    /// Number, time, answer, transmitter and telegram between tabs, without a heading.
    Tsv,
    /// COPY BINARY.
    Binary,
    /// How many rows each month has.
    Months,
}

impl Form {
    fn of(args: &Args) -> Result<Form, Failure> {
        let named = |name: &str| match name {
            "text" => Some(Form::Plain(Format::Text)),
            "csv" => Some(Form::Plain(Format::Csv)),
            "json" => Some(Form::Plain(Format::Json)),
            "tsv" => Some(Form::Tsv),
            "binary" => Some(Form::Binary),
            "months" => Some(Form::Months),
            _ => None,
        };
        Ok(args.value("rows", "text, csv, json, tsv, binary or months", named)?.unwrap_or(Form::Plain(Format::Text)))
    }
}

/// Rows for standard output.
struct Printer {
    form: Form,
    /// How rows as text, CSV and JSON are written.
    style: Style,
    output: Output,
    printed: Vec<u8>,
    months: BTreeMap<copy::Month, u64>,
}

impl Printer {
    fn of(args: &Args) -> Result<Printer, Failure> {
        let (form, style) = (Form::of(args)?, Style::of(args)?);
        if !matches!(form, Form::Plain(_)) && !style.is_plain() {
            return Err(Failure::Usage("--times and --names need --rows text, csv or json".into()));
        }
        Ok(Printer { form, style, output: Output::standard()?, printed: Vec::with_capacity(4 * PIECE), months: BTreeMap::new() })
    }

    /// Prints what comes before the first row.
    fn begin(&mut self) -> Result<(), Failure> {
        match self.form {
            Form::Plain(format) => self.style.put_heading(&mut self.printed, format),
            Form::Binary => self.printed.extend_from_slice(copy::HEADER),
            Form::Tsv | Form::Months => {}
        }
        self.write()
    }

    /// Prints what comes after the last row. It is missing if a file could not be read to its end, so nobody takes a part for the whole.
    fn end(&mut self) -> Result<(), Failure> {
        if self.form == Form::Binary {
            self.printed.extend_from_slice(copy::TRAILER);
        }
        for (month, rows) in &self.months {
            self.printed.extend_from_slice(format!("{month}\t{rows}\n").as_bytes());
        }
        self.write()
    }
}

impl Sink for Printer {
    fn put(&mut self, number: u64, row: &Row) {
        match self.form {
            Form::Plain(format) => self.style.put(&mut self.printed, format, row),
            Form::Tsv => put_tsv(&mut self.printed, number, row),
            Form::Binary => copy::put_row(&mut self.printed, number, row),
            Form::Months => *self.months.entry(copy::Month::of(row.time)).or_default() += 1,
        }
    }

    fn write(&mut self) -> Result<(), Failure> {
        self.output.write(&self.printed)?;
        self.printed.clear();
        Ok(())
    }
}

fn put_tsv(out: &mut Vec<u8>, number: u64, row: &Row) {
    put_number(out, number);
    out.push(b'\t');
    put_number(out, row.time);
    out.extend_from_slice(if row.loose { b"\tLOOSE\t" } else { b"\tKEPT\t" });
    put_hex(out, &row.telegram.txid());
    out.push(b'\t');
    put_hex(out, row.telegram.as_bytes());
    out.push(b'\n');
}

#[cfg(test)]
mod tests {
    use super::*;

    fn sorted(names: &[&str]) -> Vec<String> {
        let names: Vec<OsString> = names.iter().map(OsString::from).collect();
        in_order(&names).iter().map(|n| n.to_str().unwrap().to_string()).collect()
    }

    #[test]
    fn numbered_files_are_in_order() {
        assert_eq!(sorted(&["d2/p-10.arc", "d2/p-9.arc", "d2/p-008.arc"]), ["d2/p-008.arc", "d2/p-9.arc", "d2/p-10.arc"]);
        assert_eq!(sorted(&["7", "11", "9"]), ["7", "9", "11"]);
        // Names that differ otherwise, or have no number in their last part, keep their order.
        for names in [&["p-10.arc", "q-9.arc"][..], &["p-10.arc", "p-9.old"], &["b", "a"], &["d2/b", "d1/b"], &["p-2.arc", "p.arc"]] {
            assert_eq!(sorted(names), names);
        }
        assert_eq!(sorted(&["99999999999999999999", "1"]), ["99999999999999999999", "1"], "more than a number holds");
    }
}
