//! Calls to a sheet, and what is shown of each (document 02, A12). The records and the lines
//! are in README.md.

use crate::archive::{room, Row, BLOCK, ROWS};
use crate::hex::hex;
use crate::random::Random;
use crate::report::{add, line, share, Line, Sheet, LINES};
use crate::subtelegram::{renew_hash, Refusal};
use std::fmt::Write;

#[derive(Debug, Clone, PartialEq)]
pub enum Call {
    /// A room of this many zero bytes.
    New(u32),
    /// Bytes are stored in the room from this position on.
    Put(u32, Vec<u8>),
    /// An empty sheet.
    Report,
    /// The room is added.
    Add,
    Line(u64),
    Share(u64),
    /// A field of the sheet is overwritten: its number, an index, the value.
    Spoil(u8, u16, u64),
}

/// What answers the calls: the rules here, others in the tests.
pub trait Sheets {
    fn add(&self, sheet: &mut Sheet, room: &[u8]) -> Result<(), (Refusal, usize)>;
    fn line(&self, sheet: &Sheet, i: u64) -> Result<Line, Refusal>;
    fn share(&self, sheet: &Sheet, received: u64) -> Result<u64, Refusal>;
}

/// Document 02.
pub struct Rules;

impl Sheets for Rules {
    fn add(&self, sheet: &mut Sheet, room: &[u8]) -> Result<(), (Refusal, usize)> {
        add(sheet, room)
    }

    fn line(&self, sheet: &Sheet, i: u64) -> Result<Line, Refusal> {
        line(sheet, i)
    }

    fn share(&self, sheet: &Sheet, received: u64) -> Result<u64, Refusal> {
        share(sheet, received)
    }
}

const NUMBERS: usize = 5 * LINES;

/// A sheet as the test program holds it: the numbers after its lines stay there, so a wrong count
/// shows them.
struct Held {
    archives: u64,
    count: u64,
    kept: u64,
    loose: u64,
    numbers: Vec<u64>,
}

impl Held {
    fn new() -> Held {
        Held {
            archives: 0,
            count: 0,
            kept: 0,
            loose: 0,
            numbers: vec![0; NUMBERS],
        }
    }

    /// A count over 256 gives lines of zeros after the array, which no sheet has.
    fn sheet(&self) -> Sheet {
        let count = self.count.min(LINES as u64 + 1) as usize;
        let mut numbers = self.numbers.clone();
        numbers.resize(NUMBERS + 5, 0);
        let lines = numbers.chunks(5).take(count).map(|n| Line {
            identity: n[0],
            kept: n[1],
            loose: n[2],
            earliest: n[3],
            latest: n[4],
        });
        Sheet {
            archives: self.archives,
            lines: lines.collect(),
            kept: self.kept,
            loose: self.loose,
        }
    }

    fn store(&mut self, sheet: &Sheet) {
        self.archives = sheet.archives;
        self.count = sheet.lines.len() as u64;
        self.kept = sheet.kept;
        self.loose = sheet.loose;
        for (n, l) in self.numbers.chunks_mut(5).zip(&sheet.lines) {
            n.copy_from_slice(&[l.identity, l.kept, l.loose, l.earliest, l.latest]);
        }
    }

    fn spoil(&mut self, field: u8, index: u16, value: u64) {
        match field {
            0 => self.archives = value,
            1 => self.count = value,
            2 => self.kept = value,
            3 => self.loose = value,
            _ => self.numbers[usize::from(index).min(NUMBERS - 1)] = value,
        }
    }

    fn added(&mut self, room: &[u8], sheets: &impl Sheets) -> String {
        let mut sheet = self.sheet();
        let answer = sheets.add(&mut sheet, room);
        if answer.is_ok() {
            self.store(&sheet);
        }
        let (number, position) = answer.err().unwrap_or((0, 0));
        let totals = format!("{} {} {}", self.count, self.kept, self.loose);
        format!("ADD {number} {position} {} {totals}", self.archives)
    }
}

fn line_text(answer: Result<Line, Refusal>) -> String {
    let number = answer.err().unwrap_or(0);
    let l = answer.unwrap_or_default();
    let rows = format!("{} {}", l.kept, l.loose);
    format!(
        "LINE {number} {} {rows} {} {}",
        l.identity, l.earliest, l.latest
    )
}

fn share_text(answer: Result<u64, Refusal>) -> String {
    format!(
        "SHARE {} {}",
        answer.err().unwrap_or(0),
        answer.unwrap_or(0)
    )
}

/// The lines for a list of calls.
pub fn show(calls: &[Call], sheets: &impl Sheets) -> String {
    let mut out = String::new();
    let mut room: Vec<u8> = Vec::new();
    let mut held = Held::new();
    for call in calls {
        let line = match call {
            Call::New(n) => {
                room = vec![0; *n as usize];
                format!("NEW {n}")
            }
            Call::Put(place, bytes) => {
                room[*place as usize..][..bytes.len()].copy_from_slice(bytes);
                "PUT".to_string()
            }
            Call::Report => {
                held = Held::new();
                "REPORT".to_string()
            }
            Call::Add => held.added(&room, sheets),
            Call::Line(i) => line_text(sheets.line(&held.sheet(), *i)),
            Call::Share(received) => share_text(sheets.share(&held.sheet(), *received)),
            Call::Spoil(field, index, value) => {
                held.spoil(*field, *index, *value);
                "SPOIL".to_string()
            }
        };
        writeln!(out, "{line}").unwrap();
    }
    out
}

/// A call as a record of 320 bytes.
fn record(call: &Call) -> [u8; 320] {
    let mut record = [0; 320];
    record[0] = match call {
        Call::New(_) => 1,
        Call::Put(..) => 2,
        Call::Report => 13,
        Call::Add => 14,
        Call::Line(_) => 15,
        Call::Share(_) => 16,
        Call::Spoil(..) => 17,
    };
    match call {
        Call::New(n) => record[1..5].copy_from_slice(&n.to_be_bytes()),
        Call::Put(place, bytes) => {
            record[1..5].copy_from_slice(&place.to_be_bytes());
            record[5..7].copy_from_slice(&(bytes.len() as u16).to_be_bytes());
            record[8..8 + bytes.len()].copy_from_slice(bytes);
        }
        Call::Line(n) | Call::Share(n) => record[1..9].copy_from_slice(&n.to_be_bytes()),
        Call::Spoil(field, index, value) => {
            record[1] = *field;
            record[2..4].copy_from_slice(&index.to_be_bytes());
            record[8..16].copy_from_slice(&value.to_be_bytes());
        }
        Call::Report | Call::Add => {}
    }
    record
}

pub fn stdin() -> String {
    let calls = calls();
    calls.iter().map(|call| hex(&record(call)) + "\n").collect()
}

pub fn stdout() -> String {
    show(&calls(), &Rules)
}

// The calls.

/// The calls that are stored.
pub fn calls() -> Vec<Call> {
    let mut calls = Vec::new();
    few(&mut calls);
    many_archives(&mut calls);
    many_transmitters(&mut calls);
    refused_rooms(&mut calls);
    edges(&mut calls);
    shares(&mut calls);
    calls
}

/// The shortest subtelegram of a transmitter.
fn row(identity: u32, time: u64, loose: bool) -> Row {
    let mut bytes = vec![0xD5, 0x09, 0, 0, 0, 0, 0, 0];
    bytes[2..6].copy_from_slice(&identity.to_be_bytes());
    renew_hash(&mut bytes);
    Row { bytes, time, loose }
}

/// An addressed one: its DESTID is not a transmitter.
fn addressed_row(identity: u32, time: u64, loose: bool) -> Row {
    let mut bytes = vec![
        0xA6, 0xD5, 0x09, 0xF1, 0xF2, 0xF3, 0xF4, 0, 0, 0, 0, 0x80, 0,
    ];
    bytes[7..11].copy_from_slice(&identity.to_be_bytes());
    renew_hash(&mut bytes);
    Row { bytes, time, loose }
}

/// A room with these rows and some more blocks.
fn put_room(calls: &mut Vec<Call>, rows: &[Row], more: usize) {
    let n = BLOCK * (rows.len().div_ceil(ROWS) + more);
    calls.push(Call::New(n as u32));
    for (k, part) in room(n, rows).chunks(256).enumerate() {
        if part.iter().any(|&b| b != 0) {
            calls.push(Call::Put((256 * k) as u32, part.to_vec()));
        }
    }
}

fn lines(calls: &mut Vec<Call>, last: u64) {
    calls.extend((0..=last).map(Call::Line));
}

/// Few transmitters, their rows in any order, over three archives.
fn few(calls: &mut Vec<Call>) {
    let mut random = Random::new(120);
    calls.extend([Call::New(0), Call::Report, Call::Line(0)]);
    calls.extend([Call::Share(0), Call::Share(1), Call::Add]);
    let ids = [0, 1, 0x7FFF_FFFF, 0x8000_0000, 0xFFFF_FFFF, 0x0102_0304];
    for n in [40, 0, 33] {
        let rows: Vec<Row> = (0..n)
            .map(|i| {
                let id = random.pick(&ids);
                let time = match i {
                    3 => 0,
                    5 => u64::MAX,
                    _ => random.next(),
                };
                let loose = random.chance(40);
                if random.chance(30) {
                    addressed_row(id, time, loose)
                } else {
                    row(id, time, loose)
                }
            })
            .collect();
        put_room(calls, &rows, 1);
        calls.push(Call::Add);
        lines(calls, 6);
    }
}

/// 64 archives and one more.
fn many_archives(calls: &mut Vec<Call>) {
    calls.push(Call::Report);
    put_room(calls, &[row(7, 100, false), row(5, 90, true)], 0);
    calls.extend(vec![Call::Add; 65]);
    lines(calls, 2);
    calls.push(Call::New(511));
    calls.push(Call::Add);
}

/// 256 transmitters and one more, in one archive and over two.
fn many_transmitters(calls: &mut Vec<Call>) {
    let id = |i: u32| i.wrapping_mul(0x9E37_79B1);
    let rows: Vec<Row> = (0..257).map(|i| row(id(i), i.into(), i % 3 == 0)).collect();
    for (first, second) in [(256, 256), (257, 1), (200, 257), (100, 256)] {
        calls.push(Call::Report);
        put_room(calls, &rows[..first], 1);
        calls.push(Call::Add);
        put_room(calls, &rows[second - second.min(60)..second], 1);
        calls.push(Call::Add);
        for i in [0, 1, 99, 128, 255, 256, u64::MAX] {
            calls.push(Call::Line(i));
        }
    }
}

/// Rooms that are not archives, and the order of the refusals.
fn refused_rooms(calls: &mut Vec<Call>) {
    calls.push(Call::Report);
    put_room(calls, &[row(7, 100, false)], 2);
    calls.extend([Call::Add, Call::Put(1030, vec![1]), Call::Add]);
    calls.extend([
        Call::New(513),
        Call::Add,
        Call::Line(0),
        Call::New(0),
        Call::Add,
    ]);
    // 11 before 16, and 16 and 12 before 10.
    calls.extend([
        Call::Spoil(2, 0, 2),
        Call::New(513),
        Call::Add,
        Call::Spoil(2, 0, 1),
    ]);
    calls.extend([
        Call::Spoil(0, 0, 64),
        Call::Add,
        Call::New(512),
        Call::Put(0, vec![1]),
    ]);
    calls.extend([Call::Add, Call::New(512), Call::Add]);
}

/// A sheet of one line, field by field.
fn sheet(calls: &mut Vec<Call>, archives: u64, l: Line) {
    calls.push(Call::Report);
    for (field, value) in [(0, archives), (1, 1), (2, l.kept), (3, l.loose)] {
        calls.push(Call::Spoil(field, 0, value));
    }
    let numbers = [l.identity, l.kept, l.loose, l.earliest, l.latest];
    for (index, value) in numbers.into_iter().enumerate() {
        calls.push(Call::Spoil(4, index as u16, value));
    }
}

fn asked(calls: &mut Vec<Call>) {
    calls.extend([Call::Add, Call::Line(0), Call::Share(u64::MAX)]);
}

/// Sheets at the limit of what archives could give, and one past it.
fn edges(calls: &mut Vec<Call>) {
    const FULL: u64 = 15 << 32;
    calls.push(Call::New(512));
    let l = |kept, loose, earliest, latest| Line {
        identity: 0xFFFF_FFFF,
        kept,
        loose,
        earliest,
        latest,
    };
    let cases = [
        (0, l(1, 0, 5, 5)),
        (1, l(FULL, 0, 5, 9)),
        (1, l(FULL + 1, 0, 5, 9)),
        (1, l(FULL - 1, 1, 5, 9)),
        (1, l(FULL, 1, 5, 9)),
        (63, l(63 * FULL, 0, 0, u64::MAX)),
        (63, l(63 * FULL, 1, 0, u64::MAX)),
        (64, l(0, 64 * FULL, 0, u64::MAX)),
        (65, l(1, 0, 5, 5)),
        (1, l(u64::MAX, 1, 5, 9)),
        (1, l(1, 0, 5, 6)),
        (1, l(0, 1, 6, 5)),
        (1, l(1, 1, 5, 6)),
        (1, l(1, 1, 6, 5)),
        (1, l(0, 0, 5, 5)),
    ];
    for (archives, line) in cases {
        sheet(calls, archives, line);
        asked(calls);
    }
    // An identity of 33 bits, totals that are not the sums, lines out of order and twice, too many.
    for (field, index, value) in [
        (4, 0, 1 << 32),
        (2, 0, 2),
        (3, 0, 1),
        (1, 0, 2),
        (1, 0, 0),
        (1, 0, 256),
        (1, 0, 257),
        (1, 0, u64::MAX),
    ] {
        sheet(calls, 2, l(1, 0, 5, 5));
        calls.push(Call::Spoil(field, index, value));
        asked(calls);
    }
    for second in [0xFFFF_FFFE, 0xFFFF_FFFF, 0x1_0000_0000] {
        sheet(calls, 2, l(1, 0, 5, 5));
        calls.extend([Call::Spoil(1, 0, 2), Call::Spoil(2, 0, 2)]);
        for (index, value) in [(5, second), (6, 1), (8, 3), (9, 3)] {
            calls.push(Call::Spoil(4, index, value));
        }
        asked(calls);
        calls.push(Call::Spoil(4, 0, 1));
        asked(calls);
    }
}

/// Shares at every edge.
fn shares(calls: &mut Vec<Call>) {
    calls.push(Call::Report);
    let rows: Vec<Row> = (0..37).map(|i| row(i % 5, i.into(), i % 2 == 0)).collect();
    put_room(calls, &rows, 0);
    calls.push(Call::Add);
    for received in [
        0,
        1,
        36,
        37,
        38,
        73,
        74,
        75,
        36_999,
        37_000,
        37_001,
        u64::MAX,
    ] {
        calls.push(Call::Share(received));
    }
}
