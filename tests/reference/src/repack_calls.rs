//! Calls of salvage, of removal and of a cut, and what is shown for each (document 02, A9 and A11),
//! on the room of archive_calls. The records and the lines are in README.md.

use crate::archive::{block, room, seal, Row, BLOCK, ROWS};
use crate::archive_calls::{put_block, random_row, random_rows, Call, MOST};
use crate::hex::hex_or_dash;
use crate::random::Random;
use crate::repack::{cut, remove, salvage, Salvaged};
use crate::subtelegram::{renew_hash, Refusal, ADDRESSED};

#[derive(Debug, Clone, PartialEq)]
pub enum Repack {
    /// The lengths of the output and of the list.
    Salvage(u32, u32),
    /// A block of the output.
    Out(u32),
    List,
    /// The rows of these transmitters removed.
    Remove(Vec<u32>),
    /// A cut that keeps this many rows.
    Cut(u64),
}

/// The largest number of identities in a record.
const MOST_LISTED: usize = 70;

/// What answers the calls: the rules here, others in the tests.
pub trait Repacker {
    fn salvage(&self, room: &[u8], out: &mut [u8], list: &mut [u64]) -> Result<Salvaged, Refusal>;
    /// How many blocks are no longer needed.
    fn remove(&self, room: &mut Vec<u8>, identities: &[u32]) -> Result<usize, (Refusal, usize)>;
    fn cut(&self, room: &mut Vec<u8>, rows: u64) -> Result<(), (Refusal, usize)>;
}

/// Document 02.
pub struct Rules;

impl Repacker for Rules {
    fn salvage(&self, room: &[u8], out: &mut [u8], list: &mut [u64]) -> Result<Salvaged, Refusal> {
        salvage(room, out, list)
    }

    fn remove(&self, room: &mut Vec<u8>, identities: &[u32]) -> Result<usize, (Refusal, usize)> {
        remove(room, identities)
    }

    fn cut(&self, room: &mut Vec<u8>, rows: u64) -> Result<(), (Refusal, usize)> {
        cut(room, rows)
    }
}

/// The output and the list, which every salvage fills with EE first.
pub struct Lent {
    out: Vec<u8>,
    list: Vec<u64>,
}

impl Lent {
    pub fn new() -> Self {
        let (out, list) = (vec![0; MOST], vec![0; 64]);
        Lent { out, list }
    }

    /// The line for a call.
    pub fn show(&mut self, call: &Repack, room: &mut Vec<u8>, by: &impl Repacker) -> String {
        match call {
            Repack::Salvage(end, len) => {
                self.out.fill(0xEE);
                self.list.fill(u64::from_be_bytes([0xEE; 8]));
                let out = &mut self.out[..(*end as usize).min(MOST)];
                let list = &mut self.list[..(*len as usize).min(64)];
                match by.salvage(room, out, list) {
                    Ok((dropped, rows)) => format!("SALVAGE 0 {} {rows}", dropped.len()),
                    Err(number) => format!("SALVAGE {number} 0 0"),
                }
            }
            Repack::Out(k) => {
                let bytes = self.out.chunks_exact(BLOCK).nth(*k as usize);
                format!("OUT {}", hex_or_dash(bytes.unwrap_or_default()))
            }
            Repack::List => {
                let numbers = self.list.iter().map(|n| format!(" {n}"));
                format!("LIST{}", numbers.collect::<String>())
            }
            Repack::Remove(identities) => {
                let identities = &identities[..identities.len().min(MOST_LISTED)];
                match by.remove(room, identities) {
                    Ok(freed) => format!("REMOVE 0 0 {freed}"),
                    Err((number, position)) => format!("REMOVE {number} {position} 0"),
                }
            }
            Repack::Cut(rows) => match by.cut(room, *rows) {
                Ok(()) => format!("CUT 0 0 {rows}"),
                Err((number, position)) => format!("CUT {number} {position} 0"),
            },
        }
    }
}

/// A call as a record of 320 bytes.
pub fn record(call: &Repack) -> [u8; 320] {
    let mut record = [0; 320];
    match call {
        Repack::Salvage(end, len) => {
            record[0] = 9;
            record[1..5].copy_from_slice(&end.to_be_bytes());
            record[5..9].copy_from_slice(&len.to_be_bytes());
        }
        Repack::Out(k) => {
            record[0] = 10;
            record[1..5].copy_from_slice(&k.to_be_bytes());
        }
        Repack::List => record[0] = 11,
        Repack::Remove(identities) => {
            record[0] = 12;
            record[1] = identities.len() as u8;
            for (i, identity) in identities.iter().take(MOST_LISTED).enumerate() {
                record[4 + 4 * i..][..4].copy_from_slice(&identity.to_be_bytes());
            }
        }
        Repack::Cut(rows) => {
            record[0] = 18;
            record[1..9].copy_from_slice(&rows.to_be_bytes());
        }
    }
    record
}

// The calls.

/// The calls that are stored.
pub fn calls(calls: &mut Vec<Call>) {
    salvage_lengths(calls);
    salvage_blocks(calls);
    salvage_changed(calls);
    remove_lengths(calls);
    remove_rows(calls);
    remove_blocks(calls);
    remove_damaged(calls);
    cut_lengths(calls);
    cut_rows(calls);
    cut_damaged(calls);
}

/// The calls after a salvage into this output and list: all that was written.
fn salvages(calls: &mut Vec<Call>, end: usize, len: usize) {
    calls.push(Call::Repack(Repack::Salvage(end as u32, len as u32)));
    let blocks = (end / BLOCK) as u32 + 1;
    calls.extend((0..blocks).map(|k| Call::Repack(Repack::Out(k))));
    calls.push(Call::Repack(Repack::List));
}

/// Rooms of every odd length, with outputs and lists one too short, right and one too long.
fn salvage_lengths(calls: &mut Vec<Call>) {
    let mut random = Random::new(31);
    for n in [0usize, 1, 511, 512, 513, 1024, 24_576] {
        calls.push(Call::New(n as u32));
        for end in [n.saturating_sub(1), n, n + 1] {
            for len in [0, 1, 64, 65] {
                calls.push(Call::Repack(Repack::Salvage(end as u32, len)));
                calls.push(Call::Repack(Repack::Out((end / BLOCK) as u32)));
            }
        }
    }
    calls.extend([0, 47, 48, u32::MAX].map(|k| Call::Repack(Repack::Out(k))));
    calls.push(Call::Repack(Repack::List));
    // Three of five blocks are dropped.
    calls.push(Call::New(2560));
    let rows = random_rows(&mut random, ROWS);
    for k in 0..5 {
        put_block(calls, k, &block(k as u32, &rows[..3 * k + 3]));
    }
    for k in [0, 2, 3] {
        calls.push(Call::Put((BLOCK * k + 100) as u32, vec![0xAA, 0xAA]));
    }
    for end in [2559, 2560, 2561] {
        for len in [2, 3, 4, 5, 6] {
            salvages(calls, end, len);
        }
    }
    calls.push(Call::Open);
}

/// Short blocks, blocks after an all-zero one, other numbers and two of the same number; an intact
/// archive, and what salvage wrote, salvaged again.
fn salvage_blocks(calls: &mut Vec<Call>) {
    let mut random = Random::new(32);
    for counts in [
        &[15usize][..],
        &[1],
        &[15, 15, 4],
        &[15, 0, 15],
        &[0, 0, 7],
        &[14, 14, 14, 14],
        &[1, 1, 1, 1, 1, 1],
        &[15, 1, 15, 1, 14, 15],
        &[13, 15, 15, 2, 15, 0, 0, 1],
        &[0, 0],
        &[15, 15, 15, 15],
    ] {
        for numbers in [
            &[0u32, 1, 2, 3, 4, 5, 6, 7][..],
            &[7, 7, 65_536, 0, 1 << 31, u32::MAX, 2, 3],
        ] {
            let n = BLOCK * counts.len();
            calls.push(Call::New(n as u32));
            for (k, &count) in counts.iter().enumerate() {
                if count > 0 {
                    put_block(
                        calls,
                        k,
                        &block(numbers[k], &random_rows(&mut random, count)),
                    );
                }
            }
            calls.push(Call::Open);
            salvages(calls, n, counts.len());
            // A block without rows is dropped, and so is one with a wrong CRC.
            let mut none = block(1, &[]);
            calls.push(Call::Put(0, none[..256].to_vec()));
            calls.push(Call::Put(256, none[256..].to_vec()));
            salvages(calls, n, counts.len());
            none[511] ^= 0x10;
            calls.push(Call::Put(511, none[511..].to_vec()));
            salvages(calls, n, 1);
            salvages(calls, n, 0);
        }
    }
}

/// Each part of a short block changed, with the CRC renewed and without, between two others.
fn salvage_changed(calls: &mut Vec<Call>) {
    let mut random = Random::new(33);
    let right = block(9, &random_rows(&mut random, 3));
    calls.push(Call::New(1536));
    put_block(calls, 0, &block(1, &random_rows(&mut random, 14)));
    put_block(calls, 2, &block(1, &random_rows(&mut random, 15)));
    for at in [
        0, 3, 4, 5, 23, 24, 31, 32, 33, 53, 54, 55, 56, 119, 120, 503, 504, 510, 511,
    ] {
        for renewed in [false, true] {
            let mut other = right.clone();
            other[at] ^= 1;
            if renewed {
                let n = usize::from(other[32]).min(21);
                renew_hash(&mut other[33..33 + n]);
                seal(&mut other);
            }
            put_block(calls, 1, &other);
            salvages(calls, 1536, 3);
        }
    }
}

// Removal.

/// Transmitters of the rows; the last one is only ever a DESTID.
const SENDERS: [u32; 5] = [0, 1, 0x0102_0304, 0x0403_0201, u32::MAX];
const DESTID: u32 = 0x0505_0505;

/// A row of this transmitter; an addressed one is for another.
fn row_of(random: &mut Random, identity: u32) -> Row {
    let mut row = random_row(random);
    let n = row.bytes.len();
    row.bytes[n - 6..n - 2].copy_from_slice(&identity.to_be_bytes());
    if row.bytes[0] == ADDRESSED {
        let to = random.pick(&[SENDERS[1], SENDERS[2], DESTID]);
        row.bytes[n - 10..n - 6].copy_from_slice(&to.to_be_bytes());
    }
    renew_hash(&mut row.bytes);
    row
}

fn rows_of_senders(random: &mut Random, n: usize) -> Vec<Row> {
    let mut rows = Vec::new();
    for _ in 0..n {
        let identity = random.pick(&SENDERS);
        rows.push(row_of(random, identity));
    }
    rows
}

/// An archive of these rows in a room of `blocks` blocks.
fn put_rows(calls: &mut Vec<Call>, blocks: usize, rows: &[Row]) {
    calls.push(Call::New((BLOCK * blocks) as u32));
    let used = rows.len().div_ceil(ROWS);
    let whole = room(BLOCK * used, rows);
    for (k, block) in whole.chunks(BLOCK).enumerate() {
        put_block(calls, k, block);
    }
}

/// A removal, and all that it leaves.
fn removes(calls: &mut Vec<Call>, blocks: usize, identities: &[u32]) {
    calls.push(Call::Repack(Repack::Remove(identities.to_vec())));
    calls.extend((0..blocks as u32).map(Call::Block));
    calls.push(Call::Open);
}

/// Rooms of every odd length with lists of every length.
fn remove_lengths(calls: &mut Vec<Call>) {
    for n in [0u32, 1, 511, 512, 513, 24_576] {
        calls.push(Call::New(n));
        for count in [0, 1, 31, 32, 33, 70, 71, 200] {
            calls.push(Call::Repack(Repack::Remove(vec![7; count])));
        }
        calls.push(Call::Open);
    }
}

/// Numbers of rows at a limit, with the blocks of their room: as many as they need, or one more.
const ROWS_AND_BLOCKS: [(usize, usize); 8] = [
    (0, 1),
    (1, 1),
    (14, 2),
    (15, 1),
    (16, 2),
    (30, 3),
    (31, 3),
    (45, 3),
];

/// Archives of every number of rows at a limit, with room after them and without: none, some and
/// all rows removed, twice each, and then appended to until 6.
fn remove_rows(calls: &mut Vec<Call>) {
    let mut random = Random::new(34);
    for (n, blocks) in ROWS_AND_BLOCKS {
        let rows = rows_of_senders(&mut random, n);
        for list in [
            &[][..],
            &[0x0101_0101],
            &[DESTID],
            &SENDERS[..1],
            &SENDERS[2..3],
            &[SENDERS[4], SENDERS[4], 9, SENDERS[1]],
            &SENDERS[..4],
            &SENDERS,
        ] {
            put_rows(calls, blocks, &rows);
            removes(calls, blocks, list);
            calls.push(Call::Repack(Repack::Remove(list.to_vec())));
            calls.extend((0..blocks as u32).map(Call::Block));
        }
        // One of four senders is left: the freed blocks are used again.
        put_rows(calls, blocks, &rows);
        removes(calls, blocks, &SENDERS[1..]);
        for _ in 0..=ROWS * blocks {
            calls.push(Call::Append(row_of(&mut random, SENDERS[0])));
        }
        removes(calls, blocks, &SENDERS[1..2]);
    }
}

/// Whole blocks of one sender, first, in the middle and last, and rows removed in turn; lists of
/// 32, of which the last one counts.
fn remove_blocks(calls: &mut Vec<Call>) {
    let mut random = Random::new(35);
    let senders = |k: usize, i: usize| [k as u32, (i % 2) as u32, (i % 15) as u32];
    for by in 0..3 {
        let mut rows = Vec::new();
        for k in 0..5 {
            for i in 0..ROWS {
                rows.push(row_of(&mut random, senders(k, i)[by]));
            }
        }
        for gone in [0, 1, 2, 4] {
            put_rows(calls, 6, &rows);
            removes(calls, 6, &[gone]);
            let mut list = vec![0x7777_7777; 32];
            list[31] = gone ^ 1;
            removes(calls, 6, &list);
            list.push(3);
            removes(calls, 6, &list);
        }
    }
}

/// A damaged archive and too many identities: 12 comes first; the bytes of refused rooms are
/// unchanged.
fn remove_damaged(calls: &mut Vec<Call>) {
    let mut random = Random::new(36);
    let rows = rows_of_senders(&mut random, 20);
    for at in [40, 512 + 4, 512 + 511, 1024] {
        put_rows(calls, 3, &rows);
        calls.push(Call::Put(at, vec![0xAA]));
        removes(calls, 3, &SENDERS);
        removes(calls, 3, &[9; 33]);
    }
    put_rows(calls, 3, &rows);
    removes(calls, 3, &[SENDERS[0]; 33]);
    removes(calls, 3, &[SENDERS[0]; 32]);
}

// Cuts.

/// A cut, and all that it leaves.
fn cuts(calls: &mut Vec<Call>, blocks: usize, rows: u64) {
    calls.push(Call::Repack(Repack::Cut(rows)));
    calls.extend((0..blocks as u32).map(Call::Block));
    calls.push(Call::Open);
}

/// Rooms of every odd length, cut at rows that they do not have.
fn cut_lengths(calls: &mut Vec<Call>) {
    for n in [0u32, 1, 511, 512, 513, 24_576] {
        calls.push(Call::New(n));
        for rows in [0, 1, 15, 720, 721, u64::MAX] {
            calls.push(Call::Repack(Repack::Cut(rows)));
        }
        calls.push(Call::Open);
    }
}

/// Archives of every number of rows at a limit, with room after them and without: cut at every row
/// at a limit, twice each; if only few rows were cut off, they are appended again.
fn cut_rows(calls: &mut Vec<Call>) {
    let mut random = Random::new(37);
    for (n, blocks) in ROWS_AND_BLOCKS {
        let rows = random_rows(&mut random, n);
        let edges = [0, 1, 2, 14, 15, 16, 29, 30, 31, 44, 45, 46];
        for first in edges.into_iter().filter(|first| *first <= n + 1) {
            put_rows(calls, blocks, &rows);
            cuts(calls, blocks, first as u64);
            calls.push(Call::Repack(Repack::Cut(first as u64)));
            calls.extend((0..blocks as u32).map(Call::Block));
            if n <= first + ROWS + 1 {
                let again = rows.iter().skip(first).cloned();
                calls.extend(again.map(Call::Append));
                calls.extend((0..blocks as u32).map(Call::Block));
            }
        }
        // One row after the other is cut off, and then another one appended.
        put_rows(calls, blocks, &rows);
        for left in (0..n as u64).rev() {
            calls.push(Call::Repack(Repack::Cut(left)));
        }
        calls.push(Call::Append(random_row(&mut random)));
        calls.extend((0..blocks as u32).map(Call::Block));
    }
}

/// A damaged archive and too many rows: 12 comes first; the bytes of refused rooms are unchanged.
fn cut_damaged(calls: &mut Vec<Call>) {
    let mut random = Random::new(38);
    let rows = random_rows(&mut random, 20);
    for at in [40, 512 + 4, 512 + 511, 1024] {
        for first in [3, 15, 21] {
            put_rows(calls, 3, &rows);
            calls.push(Call::Put(at, vec![0xAA]));
            cuts(calls, 3, first);
        }
    }
    put_rows(calls, 3, &rows);
    cuts(calls, 3, 21);
    cuts(calls, 3, 20);
    cuts(calls, 3, 1 << 32);
}
