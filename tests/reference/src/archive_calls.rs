//! Calls to archives, and what is shown of each (document 02, A2). The records and the lines
//! are in README.md.

use crate::archive::{append, append_at, block, read, row_at, seal, Row, BLOCK, ROWS};
use crate::hex::{hex, hex_or_dash};
use crate::random::Random;
use crate::repack_calls::{self, Lent, Repack, Repacker};
use crate::subtelegram::{renew_hash, Refusal};
use crate::telegrams::{addressed, hashed, plain, valid, Kind, KINDS};
use std::fmt::Write;

#[derive(Debug, Clone, PartialEq)]
pub enum Call {
    /// A room of this many zero bytes.
    New(u32),
    /// Bytes are stored in the room from this position on.
    Put(u32, Vec<u8>),
    Append(Row),
    /// A row is appended as row n.
    AppendAt(Row, u64),
    Open,
    Row(u64),
    Block(u32),
    /// The room is read in pieces of this many blocks.
    Scan(u32),
    /// Salvage and removal.
    Repack(Repack),
    Unknown(u8),
}

/// The largest length of a room.
pub const MOST: usize = 24_576;

/// What answers the calls: the rules here, others in the tests.
pub trait Archive {
    fn append(&self, room: &mut Vec<u8>, row: &Row) -> Result<(), (Refusal, usize)>;
    fn append_at(&self, room: &mut [u8], n: u64, row: &Row) -> Result<(), (Refusal, usize)>;
    /// How many rows there are.
    fn open(&self, room: &[u8]) -> Result<usize, (Refusal, usize)>;
}

/// Document 02.
pub struct Rules;

impl Archive for Rules {
    fn append(&self, room: &mut Vec<u8>, row: &Row) -> Result<(), (Refusal, usize)> {
        append(room, row)
    }

    fn append_at(&self, room: &mut [u8], n: u64, row: &Row) -> Result<(), (Refusal, usize)> {
        append_at(room, n, row)
    }

    fn open(&self, room: &[u8]) -> Result<usize, (Refusal, usize)> {
        Ok(read(room)?.len())
    }
}

fn pair(answer: Result<(), (Refusal, usize)>) -> String {
    let (number, position) = answer.err().unwrap_or((0, 0));
    format!("{number} {position}")
}

fn opened(answer: Result<usize, (Refusal, usize)>) -> String {
    let rows = answer.unwrap_or(0);
    format!("{} {rows}", pair(answer.map(|_| ())))
}

fn row_text(answer: Result<Row, Refusal>) -> String {
    match answer {
        Ok(row) => {
            let loose = u8::from(row.loose);
            format!("0 {} {loose} {}", row.time, hex_or_dash(&row.bytes))
        }
        Err(number) => format!("{number} 0 0 -"),
    }
}

fn store(room: &mut [u8], place: u32, bytes: &[u8]) {
    for (i, byte) in bytes.iter().enumerate() {
        if let Some(there) = room.get_mut(place as usize + i) {
            *there = *byte;
        }
    }
}

/// The lines for a list of calls.
pub fn show(calls: &[Call], archive: &impl Archive, repacker: &impl Repacker) -> String {
    let mut out = String::new();
    let mut lent = Lent::new();
    let mut room: Vec<u8> = Vec::new();
    for call in calls {
        let line = match call {
            Call::New(n) => {
                room = vec![0; (*n as usize).min(MOST)];
                format!("NEW {}", room.len())
            }
            Call::Put(place, bytes) => {
                store(&mut room, *place, bytes);
                "PUT".to_string()
            }
            Call::Append(row) => format!("APPEND {}", pair(archive.append(&mut room, row))),
            Call::AppendAt(row, n) => {
                format!("APPENDAT {}", pair(archive.append_at(&mut room, *n, row)))
            }
            Call::Open => format!("OPEN {}", opened(archive.open(&room))),
            Call::Row(i) => format!("ROW {}", row_text(row_at(&room, *i))),
            Call::Block(k) => {
                let bytes = room.chunks_exact(BLOCK).nth(*k as usize);
                format!("BLOCK {}", hex_or_dash(bytes.unwrap_or_default()))
            }
            // In pieces or whole, the answer is the same.
            Call::Scan(_) => format!("SCAN {}", opened(archive.open(&room))),
            Call::Repack(call) => lent.show(call, &mut room, repacker),
            Call::Unknown(_) => "?".to_string(),
        };
        writeln!(out, "{line}").unwrap();
    }
    out
}

/// A call as a record of 320 bytes.
fn record(call: &Call) -> [u8; 320] {
    if let Call::Repack(call) = call {
        return repack_calls::record(call);
    }
    let mut record = [0; 320];
    match call {
        Call::New(n) | Call::Block(n) | Call::Scan(n) => {
            record[1..5].copy_from_slice(&n.to_be_bytes());
        }
        Call::Put(place, bytes) => {
            record[1..5].copy_from_slice(&place.to_be_bytes());
            record[5..7].copy_from_slice(&(bytes.len() as u16).to_be_bytes());
            record[8..8 + bytes.len()].copy_from_slice(bytes);
        }
        Call::Append(row) | Call::AppendAt(row, _) => {
            record[1..9].copy_from_slice(&row.time.to_be_bytes());
            record[9] = u8::from(row.loose);
            record[10] = row.bytes.len() as u8;
            record[11..11 + row.bytes.len()].copy_from_slice(&row.bytes);
        }
        Call::Row(i) => record[1..9].copy_from_slice(&i.to_be_bytes()),
        Call::Open | Call::Repack(_) | Call::Unknown(_) => {}
    }
    if let Call::AppendAt(_, n) = call {
        record[80..88].copy_from_slice(&n.to_be_bytes());
    }
    record[0] = match call {
        Call::New(_) => 1,
        Call::Put(..) => 2,
        Call::Append(_) => 3,
        Call::AppendAt(..) => 4,
        Call::Open => 5,
        Call::Row(_) => 6,
        Call::Block(_) => 7,
        Call::Scan(_) => 8,
        Call::Repack(_) => 0,
        Call::Unknown(operation) => *operation,
    };
    record
}

pub fn stdin() -> String {
    let calls = calls();
    calls.iter().map(|call| hex(&record(call)) + "\n").collect()
}

pub fn stdout() -> String {
    show(&calls(), &Rules, &repack_calls::Rules)
}

// The calls.

/// The calls that are stored.
pub fn calls() -> Vec<Call> {
    let mut calls = Vec::new();
    lengths(&mut calls);
    fills(&mut calls);
    at_cursor(&mut calls);
    refused_rows(&mut calls);
    ends(&mut calls);
    headers(&mut calls);
    cells(&mut calls);
    changed(&mut calls);
    repack_calls::calls(&mut calls);
    calls
}

pub fn random_row(random: &mut Random) -> Row {
    let time = match random.below(8) {
        0 => 0,
        1 => u64::MAX,
        2 => random.next(),
        _ => random.next() % 100_000,
    };
    let (bytes, loose) = (valid(random), random.chance(40));
    Row { bytes, time, loose }
}

pub fn random_rows(random: &mut Random, n: usize) -> Vec<Row> {
    (0..n).map(|_| random_row(random)).collect()
}

/// Whole blocks put into the room, each in two parts.
pub fn put_block(calls: &mut Vec<Call>, k: usize, block: &[u8]) {
    let place = (BLOCK * k) as u32;
    calls.push(Call::Put(place, block[..256].to_vec()));
    calls.push(Call::Put(place + 256, block[256..].to_vec()));
}

/// The calls that are made on every room.
fn looks(calls: &mut Vec<Call>) {
    calls.extend([Call::Open, Call::Scan(1), Call::Scan(2)]);
}

/// Rooms of every odd length, of none and of more than there is; nothing in them.
fn lengths(calls: &mut Vec<Call>) {
    let row = random_row(&mut Random::new(20));
    calls.extend([Call::Open, Call::Row(0), Call::Block(0), Call::Scan(1)]);
    for n in [
        0,
        1,
        511,
        512,
        513,
        1023,
        1024,
        24_575,
        24_576,
        24_577,
        u32::MAX,
    ] {
        calls.push(Call::New(n));
        looks(calls);
        calls.extend([0, 3, 48, u32::MAX].map(Call::Scan));
        calls.extend([0, 14, 15, 720, u64::MAX].map(Call::Row));
        calls.extend([0, 1, 47, 48, u32::MAX].map(Call::Block));
        calls.push(Call::AppendAt(row.clone(), 720));
        calls.push(Call::Append(row.clone()));
        calls.extend([Call::Open, Call::Row(0), Call::Row(1)]);
        calls.push(Call::AppendAt(row.clone(), u64::MAX));
    }
    calls.extend([0, 19, 255].map(Call::Unknown));
    calls.push(Call::Open);
}

/// Rooms that are filled by appending, up to 6 and once more; times fall, are equal, and reach both
/// ends.
fn fills(calls: &mut Vec<Call>) {
    let mut random = Random::new(21);
    for blocks in [1, 3] {
        calls.push(Call::New(BLOCK as u32 * blocks));
        let rows = random_rows(&mut random, ROWS * blocks as usize);
        for (i, row) in rows.iter().enumerate() {
            calls.push(Call::Append(row.clone()));
            calls.push(Call::Row(i as u64));
            if [0, 1, 13, 14, 15, 29, 30, 44].contains(&i) {
                looks(calls);
                calls.extend([0, 3, 48, u32::MAX].map(Call::Scan));
                calls.extend([Call::Block(0), Call::Block(1), Call::Row(i as u64 + 1)]);
            }
        }
        calls.push(Call::Append(rows[0].clone()));
        calls.push(Call::Append(rows[0].clone()));
        looks(calls);
        calls.extend((0..blocks).map(Call::Block));
    }
    calls.push(Call::New(1024));
    let mut same = random_row(&mut random);
    for time in (0..17).rev() {
        same.time = time;
        same.loose = time % 5 == 0;
        calls.extend([Call::Append(same.clone()), Call::Append(same.clone())]);
    }
    looks(calls);
    calls.extend([Call::Block(0), Call::Block(1), Call::Row(29), Call::Row(30)]);
}

/// The same rows by `append` and by the cursor, which reads one block.
fn at_cursor(calls: &mut Vec<Call>) {
    let mut random = Random::new(22);
    let rows = random_rows(&mut random, 47);
    for by_cursor in [false, true] {
        calls.push(Call::New(1536));
        for (n, row) in rows.iter().enumerate() {
            calls.push(match by_cursor {
                false => Call::Append(row.clone()),
                true => Call::AppendAt(row.clone(), n as u64),
            });
        }
        looks(calls);
        calls.extend((0..3).map(Call::Block));
    }
    // Cursors that are wrong, in a room of 17 rows.
    calls.push(Call::New(1536));
    for row in &rows[..17] {
        calls.push(Call::Append(row.clone()));
    }
    for n in [
        0,
        1,
        14,
        15,
        16,
        18,
        29,
        30,
        31,
        44,
        45,
        46,
        64_424_509_440,
        u64::MAX,
    ] {
        calls.push(Call::AppendAt(rows[20].clone(), n));
        calls.extend([Call::Open, Call::Block(0), Call::Block(1), Call::Block(2)]);
    }
    // A block of another number, and one of another count.
    for other in [block(5, &rows[..2]), block(1, &rows[..3])] {
        put_block(calls, 1, &other);
        calls.push(Call::AppendAt(rows[20].clone(), 17));
        calls.extend([Call::Open, Call::Block(1)]);
    }
    put_block(calls, 1, &block(1, &rows[15..17]));
    // A block that the cursor does not read is damaged; then the one that it reads, after its first
    // five bytes.
    calls.push(Call::Put(100, vec![0xFF]));
    calls.extend([Call::AppendAt(rows[21].clone(), 17), Call::Open]);
    calls.push(Call::Put(512 + 6, vec![0xFF, 0xFF]));
    calls.push(Call::Put(512 + 400, vec![0xFF, 0xFF]));
    calls.extend([
        Call::AppendAt(rows[22].clone(), 18),
        Call::Block(1),
        Call::Open,
    ]);
}

/// Rows that the check refuses, in an archive that has room, in a full one and in a damaged one.
fn refused_rows(calls: &mut Vec<Call>) {
    let mut random = Random::new(23);
    let mut bad: Vec<Vec<u8>> = [0, 1, 7, 22, 64].map(|n| random.bytes(n)).to_vec();
    for kind in KINDS {
        let mut wrong_hash = plain(&mut random, 10, kind);
        wrong_hash[1] ^= 1;
        bad.push(wrong_hash);
    }
    bad.push(hashed(&mut random, 12, &[0xA6, 0x01], Kind::Crc));
    bad.push(hashed(&mut random, 13, &[0xA6, 0xA6], Kind::Sum));
    let row = random_row(&mut random);
    for damaged in [false, true] {
        calls.push(Call::New(512));
        for n in 0..=ROWS {
            if damaged && n == 7 {
                calls.push(Call::Put(30, vec![0x55]));
            }
            for bytes in &bad {
                let row = Row {
                    bytes: bytes.clone(),
                    ..row.clone()
                };
                calls.push(Call::Append(row.clone()));
                calls.push(Call::AppendAt(row, n as u64));
            }
            calls.push(Call::Append(row.clone()));
        }
        looks(calls);
        calls.push(Call::Block(0));
    }
}

/// Where an archive ends: full and short blocks with nothing, zeros or more after them.
fn ends(calls: &mut Vec<Call>) {
    let mut random = Random::new(24);
    for counts in [
        &[15usize][..],
        &[14],
        &[1],
        &[15, 15],
        &[15, 1],
        &[14, 15],
        &[1, 1],
        &[15, 14, 15],
        &[15, 15, 15],
    ] {
        for blocks in counts.len()..=4 {
            calls.push(Call::New((BLOCK * blocks) as u32));
            for (k, &n) in counts.iter().enumerate() {
                let rows = random_rows(&mut random, n);
                put_block(calls, k, &block(k as u32, &rows));
            }
            looks(calls);
            calls.push(Call::Append(random_row(&mut random)));
            // After the end: the last byte of a block, and the first.
            for at in [BLOCK * blocks - 1, BLOCK * (blocks - 1)] {
                calls.push(Call::Put(at as u32, vec![1]));
                calls.push(Call::Open);
                calls.push(Call::Scan(1));
            }
        }
    }
    // A right block after an all-zero one, with its own number.
    let rows = random_rows(&mut random, 15);
    for k in 1..4 {
        calls.push(Call::New(2048));
        put_block(calls, 0, &block(0, &rows));
        put_block(calls, k, &block(k as u32, &rows[..3]));
        looks(calls);
    }
}

/// Numbers and counts that are wrong, in blocks that are otherwise right.
fn headers(calls: &mut Vec<Call>) {
    let mut random = Random::new(25);
    let rows = random_rows(&mut random, 15);
    for number in [0, 1, 2, 256, 65_536, 65_537, 1 << 24, 1 << 31, u32::MAX] {
        for place in 0..2 {
            calls.push(Call::New(1536));
            put_block(calls, 0, &block(0, &rows));
            put_block(calls, place, &block(number, &rows));
            looks(calls);
        }
    }
    for count in [0, 1, 14, 15, 16, 31, 128, 255] {
        for used in [0, 1, 14, 15] {
            let mut one = block(1, &rows[..used]);
            one[4] = count;
            seal(&mut one);
            calls.push(Call::New(1536));
            put_block(calls, 0, &block(0, &rows));
            put_block(calls, 1, &one);
            looks(calls);
            calls.extend([14, 15, 15 + u64::from(count), 29, 30].map(Call::Row));
        }
    }
}

/// Cells with a length that no cell holds, rows of every length, plain and addressed, and
/// rows that are not valid in blocks whose CRC is right.
fn cells(calls: &mut Vec<Call>) {
    let mut random = Random::new(26);
    let mut rows: Vec<Row> = Vec::new();
    for n in 8..=21 {
        let kind = if n % 2 == 0 { Kind::Sum } else { Kind::Crc };
        let bytes = if n < 13 {
            plain(&mut random, n, kind)
        } else {
            addressed(&mut random, n, kind)
        };
        rows.push(Row {
            bytes,
            ..random_row(&mut random)
        });
    }
    let right = block(0, &rows);
    calls.push(Call::New(1024));
    put_block(calls, 0, &right);
    looks(calls);
    calls.extend((0..16).map(Call::Row));
    for length in [0, 7, 8, 20, 21, 22, 23, 128, 255] {
        for cell in [0, 7, 13] {
            let mut other = right.clone();
            other[24 + 32 * cell + 8] = length;
            seal(&mut other);
            put_block(calls, 0, &other);
            looks(calls);
            calls.push(Call::Row(cell as u64));
        }
    }
    for (at, value) in [
        (9, 0xA6),
        (10, 0xA6),
        (30, 2),
        (30, 255),
        (31, 1),
        (31, 0x80),
    ] {
        let mut other = right.clone();
        other[24 + 32 * 6 + at] = value;
        let n = usize::from(other[24 + 32 * 6 + 8]);
        renew_hash(&mut other[24 + 32 * 6 + 9..][..n]);
        seal(&mut other);
        put_block(calls, 0, &other);
        looks(calls);
        calls.push(Call::Row(6));
    }
}

/// Each byte of a full and of a short block changed, with the CRC renewed and without.
fn changed(calls: &mut Vec<Call>) {
    let mut random = Random::new(27);
    let full = block(0, &random_rows(&mut random, 15));
    let short = block(1, &random_rows(&mut random, 3));
    calls.push(Call::New(1536));
    put_block(calls, 0, &full);
    put_block(calls, 1, &short);
    for (k, right) in [(0, &full), (1, &short)] {
        for renewed in [false, true] {
            let place = BLOCK * k;
            let mut before = 0;
            for at in (0..BLOCK).filter(|at| renewed == (k == 1) || is_edge(*at)) {
                // One store corrects the byte before and changes this one.
                let mut other = right[before..=at].to_vec();
                *other.last_mut().unwrap() ^= 1;
                calls.push(Call::Put((place + before) as u32, other));
                if renewed {
                    let mut whole = right.clone();
                    whole[at] ^= 1;
                    seal(&mut whole);
                    calls.push(Call::Put((place + 511) as u32, vec![whole[511]]));
                }
                calls.push(Call::Open);
                before = at;
            }
            calls.push(Call::Put((place + before) as u32, right[before..].to_vec()));
            calls.push(Call::Put((place + 511) as u32, vec![right[511]]));
            looks(calls);
        }
    }
}

/// The header, the first, third and fourth cells, some of another, and what comes after the last.
fn is_edge(at: usize) -> bool {
    at < 56 || (88..152).contains(&at) || (320..324).contains(&at) || at >= 500
}
