//! Runs the stored records of the test programs through this crate, and compares with the second program's answers.
use mooringeye::raw;
use std::fmt::Write;
use std::path::Path;

mod arrays;

fn stored(name: &str) -> String {
    let path = Path::new(env!("CARGO_MANIFEST_DIR")).join("../../crates").join(name);
    std::fs::read_to_string(&path).unwrap_or_else(|e| panic!("{}: {e}", path.display()))
}

fn record(line: &str) -> Vec<u8> {
    (0..line.len() / 2).map(|i| u8::from_str_radix(&line[2 * i..2 * i + 2], 16).unwrap()).collect()
}

fn hex(bytes: &[u8]) -> String {
    if bytes.is_empty() {
        return "-".into();
    }
    bytes.iter().fold(String::new(), |mut s, b| {
        write!(s, "{b:02X}").unwrap();
        s
    })
}

fn number(bytes: &[u8]) -> u64 {
    bytes.iter().fold(0, |n, b| n * 256 + u64::from(*b))
}

fn size(bytes: &[u8]) -> usize {
    number(bytes) as usize
}

/// Checks every call against the second program's answer, and shows the first difference. A call may use the records that follow it.
fn compare_calls(name: &str, mut answer: impl FnMut(&[u8], &mut dyn FnMut() -> Vec<u8>) -> String) {
    let (input, wanted) = (stored(&format!("{name}/stdin")), stored(&format!("{name}/stdout")));
    let mut wanted = wanted.lines();
    let mut lines = input.lines().enumerate();
    while let Some((i, line)) = lines.next() {
        let said = answer(&record(line), &mut || record(lines.next().expect("a record that belongs to a call").1));
        for row in said.lines() {
            assert_eq!(Some(row), wanted.next(), "record {} of {name}: {line}", i + 1);
        }
    }
    assert_eq!(wanted.next(), None, "{name}");
}

/// The same if each record is a call.
fn compare(name: &str, mut answer: impl FnMut(&[u8]) -> String) {
    compare_calls(name, |r, _| answer(r));
}

// ---- subtelegrams

fn written(word: &str, capacity: usize, call: impl FnOnce(&mut [u8], &mut usize) -> u8) -> String {
    let (mut out, mut length) = (vec![0xEE; capacity], 0);
    let n = call(&mut out, &mut length);
    format!("{word} {n} {length} {}", hex(&out))
}

fn codec(r: &[u8]) -> String {
    let bytes = &r[8..8 + usize::from(r[2]).min(28)];
    let capacity = usize::from(r[1]).min(28);
    match r[0] {
        1 => {
            let input: Vec<u8> = (0..size(&r[1..3])).map(|i| r[8 + i % usize::from(r[3])]).collect();
            format!("CRC {:02X}", raw::crc8(&input))
        }
        2 => {
            let mut f = [0; raw::FIELDS];
            let n = raw::read(bytes, &mut f);
            assert_eq!(n, raw::check(bytes));
            let data = hex(&f[12..12 + usize::from(f[1])]);
            format!("READ {n} {:02X} {} {} {} {:02X} {data}", f[0], f[2], hex(&f[4..8]), hex(&f[8..12]), f[3])
        }
        3 => {
            let mut f = vec![r[4], r[2], r[3], r[5]];
            f.extend(&r[8..30]);
            written("BUILD", capacity, |out, length| raw::build(&f, out, length))
        }
        4 => written("ENCAPSULATE", capacity, |out, length| raw::encapsulate(bytes, number(&r[4..8]) as u32, out, length)),
        5 => written("DECAPSULATE", capacity, |out, length| raw::decapsulate(bytes, out, length)),
        6 => {
            let mut sent = [0; raw::FRAME];
            let n = raw::repeat(r[1], bytes, &mut sent);
            format!("REPEAT {n} {} {}", sent[0], hex(&sent[1..]))
        }
        _ => {
            let (a, b) = (&r[8..8 + usize::from(r[2])], &r[36..36 + usize::from(r[3])]);
            format!("SAME {}", u8::from(raw::same(a, b)))
        }
    }
}

#[test]
fn codec_run() {
    compare("codec_run", codec);
}

// ---- ERP2 telegrams

fn erp2(r: &[u8]) -> String {
    if r[0] == 1 {
        let n = size(&r[1..3]).min(300);
        let (mut f, mut from, mut to) = ([0; raw::ERP2], 0, 0);
        let answer = raw::erp2_read(&r[8..8 + n], &mut f, &mut from, &mut to);
        let flags = format!("{} {} {} {} {} {} {} {} {:02X}", f[0], f[1], f[2], f[3], f[4], f[5], f[6], f[7], f[8]);
        let (data, optional) = (&f[11..11 + usize::from(f[10])], &f[261..261 + usize::from(f[6])]);
        return format!("READ {answer} {flags} {from:012X} {} {to:08X} {} {}", f[9], hex(data), hex(optional));
    }
    let length = size(&r[25..27]);
    let mut f = vec![r[3], r[4], r[5], r[6], r[7], r[8], r[9], r[10], r[11], r[20], length.min(255) as u8];
    f.extend(&r[42..292]);
    f.extend(&r[27..42]);
    let (from, to) = (number(&r[12..20]), number(&r[21..25]) as u32);
    written("BUILD", size(&r[1..3]), |out, length| raw::erp2_build(&f, from, to, out, length))
}

#[test]
fn erp2_run() {
    compare("erp2_run", erp2);
}

// ---- slot plans

/// Lines of a draw: the request, and the number and slots of the answer. Lines that count plans are skipped.
fn plans(name: &str, asked: usize, plan: impl Fn(&[u64]) -> u32) {
    for line in stored(&format!("{name}/stdout")).lines() {
        let n: Vec<u64> = line.split(' ').map(|w| w.parse().unwrap()).collect();
        if n.len() == asked + 4 {
            let answer = plan(&n[..asked]).to_be_bytes();
            assert_eq!(answer.map(u64::from), n[asked..], "{line}");
        }
    }
}

#[test]
fn slots_run() {
    plans("slots_run", 3, |n| raw::plan(n[0] as u8, n[1] as u32, n[2]));
}

#[test]
fn rules_run() {
    plans("rules_run", 5, |n| raw::plan_by(n[0] as u8, n[1] as u8, n[2] as u8, n[3] as u32, n[4]));
}

#[test]
fn drawn_plans_are_lawful() {
    for line in stored("rules_run/stdout").lines() {
        let n: Vec<u64> = line.split(' ').map(|w| w.parse().unwrap()).collect();
        if n.len() == 9 && n[5] == 0 {
            let slots = [n[6] as u8, n[7] as u8, n[8] as u8];
            assert!(raw::is_lawful(n[0] as u8, n[1] as u8, n[3] as u32, slots[0], slots[1], slots[2]), "{line}");
            assert!(!raw::is_lawful(n[0] as u8, n[1] as u8, n[3] as u32, slots[1], slots[1], slots[2]), "{line}");
        }
    }
}

#[test]
fn site_run() {
    compare("site_run", |r| {
        let n = usize::from(r[0]);
        let [_, number, one, other] = raw::site(&r[8..8 + 9 * n]).to_be_bytes();
        format!("SITE {number} {one} {other}")
    });
}

// ---- archives and reports

struct Room {
    bytes: Vec<u8>,
    out: Vec<u8>,
    list: Vec<u64>,
    numbers: [u64; raw::REPORT_NUMBERS],
    lines: Box<[u64; raw::REPORT_LINES]>,
}

const MOST: usize = 24_576;

impl Room {
    fn new() -> Room {
        let (numbers, lines) = ([0; raw::REPORT_NUMBERS], Box::new([0; raw::REPORT_LINES]));
        Room { bytes: vec![], out: vec![0; MOST], list: vec![0; 64], numbers, lines }
    }

    fn row<'a>(&self, r: &'a [u8]) -> (u64, bool, &'a [u8]) {
        (number(&r[1..9]), r[9] != 0, &r[11..11 + usize::from(r[10]).min(64)])
    }

    fn answer(&mut self, r: &[u8]) -> String {
        let (mut position, mut rows, mut time) = (0, 0, 0);
        match r[0] {
            1 => {
                self.bytes = vec![0; size(&r[1..5]).min(MOST)];
                format!("NEW {}", self.bytes.len())
            }
            2 => {
                let (place, count) = (size(&r[1..5]), size(&r[5..7]).min(300));
                for (i, b) in r[8..8 + count].iter().enumerate() {
                    if let Some(to) = self.bytes.get_mut(place + i) {
                        *to = *b;
                    }
                }
                "PUT".into()
            }
            3 => {
                let (time, loose, bytes) = self.row(r);
                let n = raw::archive_append(&mut self.bytes, bytes, time, loose, &mut position);
                format!("APPEND {n} {position}")
            }
            4 => self.append_at(r),
            5 | 8 => {
                let n = raw::archive_verify(&self.bytes, &mut rows, &mut position);
                format!("{} {n} {position} {rows}", if r[0] == 5 { "OPEN" } else { "SCAN" })
            }
            6 => {
                let mut row = [0; raw::ROW];
                let n = raw::archive_row(&self.bytes, size(&r[1..9]), &mut row, &mut time);
                format!("ROW {n} {time} {} {}", row[0], hex(&row[2..2 + usize::from(row[1]).min(21)]))
            }
            7 => {
                let k = size(&r[1..5]);
                format!("BLOCK {}", hex(self.bytes.get(512 * k..512 * k + 512).unwrap_or(&[])))
            }
            9 => self.salvage(r),
            10 => {
                let k = size(&r[1..5]);
                format!("OUT {}", hex(self.out.get(512 * k..512 * k + 512).unwrap_or(&[])))
            }
            11 => self.list.iter().fold("LIST".into(), |s, n| format!("{s} {n}")),
            12 => {
                let identities: Vec<u32> = r[4..].chunks(4).take(usize::from(r[1]).min(70)).map(|b| number(b) as u32).collect();
                let mut freed = 0;
                let n = raw::archive_remove(&mut self.bytes, &identities, &mut freed, &mut position);
                format!("REMOVE {n} {position} {freed}")
            }
            18 => {
                let first = size(&r[1..9]);
                let n = raw::archive_cut(&mut self.bytes, first, &mut position);
                format!("CUT {n} {position} {}", if n == 0 { first } else { 0 })
            }
            _ => self.report(r),
        }
    }

    /// Appends a row by the three calls that take its number; they must agree if its block is inside the buffer.
    fn append_at(&mut self, r: &[u8]) -> String {
        let (time, loose, bytes) = self.row(r);
        let (mut position, mut other, n) = (0, 0, size(&r[80..88]));
        let before = self.bytes.clone();
        let answer = raw::archive_append_at(&mut self.bytes, n, bytes, time, loose, &mut position);
        let k = n / 15;
        if before.len().is_multiple_of(512) && k < before.len() / 512 {
            let mut block = before[512 * k..512 * k + 512].to_vec();
            let same = raw::archive_put_row(&mut block, n, bytes, time, loose, &mut other);
            assert_eq!((same, other, &block[..]), (answer, position, &self.bytes[512 * k..512 * k + 512]));
            let mut record = [0; raw::ROW];
            let shown = bytes.len().min(21);
            (record[0], record[1]) = (loose.into(), bytes.len().min(255) as u8);
            record[2..2 + shown].copy_from_slice(&bytes[..shown]);
            block.copy_from_slice(&before[512 * k..512 * k + 512]);
            let same = raw::archive_put_rows(&mut block, n, &[time], &record, &mut other);
            assert_eq!((same, other, &block[..]), (answer, position, &self.bytes[512 * k..512 * k + 512]));
        }
        format!("APPENDAT {answer} {position}")
    }

    fn salvage(&mut self, r: &[u8]) -> String {
        let (most, places) = (size(&r[1..5]).min(MOST), size(&r[5..9]).min(64));
        self.out.fill(0xEE);
        self.list.fill(0xEEEE_EEEE_EEEE_EEEE);
        let (mut dropped, mut rows) = (0, 0);
        let n = raw::archive_salvage(&self.bytes, &mut self.out[..most], &mut self.list[..places], &mut dropped, &mut rows);
        format!("SALVAGE {n} {dropped} {rows}")
    }

    fn report(&mut self, r: &[u8]) -> String {
        match r[0] {
            13 => {
                raw::report_empty(&mut self.numbers, &mut self.lines);
                "REPORT".into()
            }
            14 => {
                let mut position = 0;
                let n = raw::report_add(&mut self.numbers, &mut self.lines, &self.bytes, &mut position);
                let [archives, lines, kept, loose] = self.numbers;
                format!("ADD {n} {position} {archives} {lines} {kept} {loose}")
            }
            15 => {
                let mut line = [0; raw::LINE_NUMBERS];
                let n = raw::report_line(&self.numbers, &self.lines, size(&r[1..9]), &mut line);
                line.iter().fold(format!("LINE {n}"), |s, x| format!("{s} {x}"))
            }
            16 => {
                let mut thousandths = 0;
                let n = raw::report_share(&self.numbers, &self.lines, number(&r[1..9]), &mut thousandths);
                format!("SHARE {n} {thousandths}")
            }
            17 => {
                let at = size(&r[2..4]).min(1279);
                match r[1] {
                    i @ 0..=3 => self.numbers[usize::from(i)] = number(&r[8..16]),
                    _ => self.lines[at] = number(&r[8..16]),
                }
                "SPOIL".into()
            }
            _ => "?".into(),
        }
    }
}

#[test]
fn archive_run() {
    let mut room = Room::new();
    compare("archive_run", |r| room.answer(r));
}

// ---- histories of a collector

/// A history in progress.
struct History {
    state: raw::ArraysMut<'static>,
    setting: u8,
    shown: usize,
}

const LONGEST: usize = 3_000;
const LISTED: usize = 259;

fn word(kind: u8, number: u8) -> String {
    match (kind, number) {
        (0, 0) => "KEPT".into(),
        (1, 0) => "COPY".into(),
        (2, 0) => "LOOSE".into(),
        (0, n) => n.to_string(),
        _ => format!("kind {kind} beside {number}"),
    }
}

impl History {
    /// Before its first call, in memory that held something else.
    fn new() -> History {
        let mut history = History { state: arrays::arrays(0xEE), setting: 0, shown: 0 };
        raw::collector_fresh(&mut history.state);
        history
    }

    fn answer(&mut self, r: &[u8], more: &mut dyn FnMut() -> Vec<u8>) -> String {
        let n = number(&r[1..9]);
        let least = |most: usize| usize::try_from(n).unwrap_or(most).min(most);
        match r[0] {
            1 => {
                raw::collector_fresh(&mut self.state);
                (self.setting, self.shown) = (r[8], 0);
                "L 0".into()
            }
            2 => self.reception(n, &r[10..10 + usize::from(r[9]).min(28)]),
            3 => self.checkpoint(least(LONGEST)),
            4 => {
                let mut image = [0xEE; raw::IMAGE];
                let saved = raw::collector_checkpoint(&self.state.shared(), &mut image);
                raw::collector_fresh(&mut self.state);
                self.restore(&format!("C {saved}"), &image)
            }
            6 => self.burst(r[12], least(LISTED), size(&r[10..12]).min(LISTED), more),
            7 => {
                let mut heard = 7;
                let answer = raw::collector_copies(&self.state.shared(), n as usize, &mut heard);
                if answer != 0 {
                    // Lent memory is unchanged; the record says 0 with a refusal.
                    assert_eq!(heard, 7);
                    heard = 0;
                }
                format!("A {answer} {heard}{}", self.totals())
            }
            8 => {
                let n = least(LONGEST);
                let image: Vec<u8> = (0..n.div_ceil(54)).flat_map(|_| more()[10..].to_vec()).take(n).collect();
                self.restore("W", &image)
            }
            _ => {
                let mut image = [0xEE; raw::IMAGE];
                raw::collector_checkpoint(&self.state.shared(), &mut image);
                let k = least(raw::IMAGE);
                if let Some(byte) = image.get_mut(k) {
                    *byte ^= 1;
                }
                self.restore("X", &image[..if k < raw::IMAGE { raw::IMAGE } else { raw::IMAGE - 1 }])
            }
        }
    }

    fn totals(&self) -> String {
        let mut totals = [7; raw::TOTALS];
        assert_eq!(raw::collector_totals(&self.state.shared(), &mut totals), 0);
        totals.iter().fold(String::new(), |s, n| format!("{s} {n}"))
    }

    fn reception(&mut self, time: u64, bytes: &[u8]) -> String {
        let [kind, number] = raw::collector_take(&mut self.state, bytes, time).to_be_bytes();
        let mut sent = [0; raw::FRAME];
        if (kind, number) == (0, 0) {
            raw::repeat(self.setting, bytes, &mut sent);
        }
        let sent = hex(&sent[1..1 + usize::from(sent[0])]);
        format!("R {} {sent}{}", word(kind, number), self.totals())
    }

    fn checkpoint(&mut self, n: usize) -> String {
        let mut out = vec![0xEE; n];
        let answer = raw::collector_checkpoint(&self.state.shared(), &mut out);
        let digest = out.iter().fold(0u32, |d, b| d.wrapping_mul(31).wrapping_add(u32::from(*b)));
        let mut said = format!("P {answer} {digest:08X}{}", self.totals());
        if answer == 0 && self.shown < 3 {
            self.shown += 1;
            write!(said, "\nI {}", hex(&out[..raw::IMAGE])).unwrap();
        }
        said
    }

    fn restore(&mut self, words: &str, image: &[u8]) -> String {
        let answer = raw::collector_restore(&mut self.state, image);
        format!("{words} {answer}{}", self.totals())
    }

    fn burst(&mut self, setting: u8, n: usize, places: usize, more: &mut dyn FnMut() -> Vec<u8>) -> String {
        let (mut moments, mut records) = (vec![], vec![]);
        for _ in 0..n {
            let r = more();
            moments.push(number(&r[1..9]));
            records.extend(&r[9..31]);
        }
        let mut untouched = vec![2, 0, 21];
        untouched.resize(raw::REPLY, 0xEE);
        let mut replies = untouched.repeat(places);
        let answer = raw::collector_burst(&mut self.state, setting, &moments, &records, &mut replies);
        replies.chunks_exact(raw::REPLY).fold(format!("B {answer}{}", self.totals()), |said, b| {
            format!("{said}\nb {} {}", word(b[0], b[1]), hex(&b[3..3 + usize::from(b[2]).min(21)]))
        })
    }
}

#[test]
fn history_run() {
    let mut history = History::new();
    compare_calls("history_run", |r, more| history.answer(r, more));
}
