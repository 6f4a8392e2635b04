//! Archive block files (document 02, A2): each position is tested by itself, and an append writes
//! the whole room again.

use crate::hash::crc;
use crate::subtelegram::{check, Refusal, LONGEST, OUTPUT_SHORT, OUT_OF_RANGE};

pub const BLOCK: usize = 512;
pub const ROWS: usize = 15;
const CELL: usize = 32;
/// Where the first row of a block begins.
const FIRST: usize = 24;

pub const MISMATCH: Refusal = 12;
pub const SIZE: Refusal = 16;

/// A reception that was KEPT or LOOSE.
#[derive(Debug, Clone, PartialEq)]
pub struct Row {
    pub bytes: Vec<u8>,
    pub time: u64,
    pub loose: bool,
}

/// The transmitter of a row: the four bytes before STATUS and HASH.
pub fn identity(row: &Row) -> u32 {
    let n = row.bytes.len();
    u32::from_be_bytes(row.bytes[n - 6..n - 2].try_into().unwrap())
}

/// "Rows laid out as parked entries, except that byte 30 of a row is 0 for KEPT and 1 for
/// LOOSE."
fn cell(row: &Row) -> [u8; CELL] {
    let mut cell = [0; CELL];
    cell[..8].copy_from_slice(&row.time.to_be_bytes());
    cell[8] = row.bytes.len() as u8;
    cell[9..9 + row.bytes.len()].copy_from_slice(&row.bytes);
    cell[30] = u8::from(row.loose);
    cell
}

/// Sets the last byte of a block to the CRC of the others.
pub fn seal(block: &mut [u8]) {
    block[BLOCK - 1] = crc(&block[..BLOCK - 1]);
}

/// Block k with these rows.
pub fn block(k: u32, rows: &[Row]) -> Vec<u8> {
    let mut block = vec![0; BLOCK];
    block[..4].copy_from_slice(&k.to_be_bytes());
    block[4] = rows.len() as u8;
    for (i, row) in rows.iter().enumerate() {
        let at = FIRST + CELL * i;
        block[at..at + CELL].copy_from_slice(&cell(row));
    }
    seal(&mut block);
    block
}

/// A room of n bytes that holds these rows and nothing else.
pub fn room(n: usize, rows: &[Row]) -> Vec<u8> {
    let mut room = Vec::new();
    for (k, rows) in rows.chunks(ROWS).enumerate() {
        room.extend(block(k as u32, rows));
    }
    room.resize(n, 0);
    room
}

fn is_zero(bytes: &[u8]) -> bool {
    bytes.iter().all(|&b| b == 0)
}

/// The row of a cell, if each byte of it is as it must be.
fn row_of(cell: &[u8]) -> Option<Row> {
    let n = usize::from(cell[8]);
    if n > LONGEST || !is_zero(&cell[9 + n..30]) || cell[30] > 1 || cell[31] != 0 {
        return None;
    }
    let bytes = cell[9..9 + n].to_vec();
    check(&bytes).ok()?;
    Some(Row {
        bytes,
        time: u64::from_be_bytes(cell[..8].try_into().unwrap()),
        loose: cell[30] == 1,
    })
}

/// The rows of a block whose layout, rows and CRC are right, whatever its number is.
pub fn rows_of(block: &[u8]) -> Option<Vec<Row>> {
    let n = usize::from(block[4]);
    if !(1..=ROWS).contains(&n) || !is_zero(&block[5..FIRST]) {
        return None;
    }
    if !is_zero(&block[FIRST + CELL * n..BLOCK - 1]) || block[BLOCK - 1] != crc(&block[..511]) {
        return None;
    }
    let cells = &block[FIRST..FIRST + CELL * n];
    cells.chunks(CELL).map(row_of).collect()
}

/// Whether the block at this position matches.
fn matches(blocks: &[&[u8]], k: usize) -> bool {
    let end = blocks.iter().position(|b| is_zero(b));
    let end = end.unwrap_or(blocks.len());
    if k >= end {
        return is_zero(blocks[k]);
    }
    let Some(rows) = rows_of(blocks[k]) else {
        return false;
    };
    let number = u32::from_be_bytes(blocks[k][..4].try_into().unwrap());
    let last = k + 1 == end;
    number as usize == k && (last || rows.len() == ROWS)
}

/// Whole blocks, and at most 2^32 of them.
pub fn is_whole(n: usize) -> bool {
    n.is_multiple_of(BLOCK) && n / BLOCK <= 1 << 32
}

/// The rows of an archive, or a refusal with its position.
pub fn read(room: &[u8]) -> Result<Vec<Row>, (Refusal, usize)> {
    if !is_whole(room.len()) {
        return Err((SIZE, 0));
    }
    let blocks: Vec<&[u8]> = room.chunks(BLOCK).collect();
    if let Some(k) = (0..blocks.len()).find(|&k| !matches(&blocks, k)) {
        return Err((MISMATCH, k));
    }
    let used = blocks.iter().filter(|b| !is_zero(b));
    Ok(used.flat_map(|b| rows_of(b).unwrap()).collect())
}

/// The refusal of a row, in an archive of `rows` rows.
fn refused(room: &[u8], rows: usize, row: &Row) -> Result<(), Refusal> {
    check(&row.bytes)?;
    if rows / ROWS >= room.len() / BLOCK {
        return Err(OUTPUT_SHORT);
    }
    Ok(())
}

pub fn append(room_: &mut Vec<u8>, row: &Row) -> Result<(), (Refusal, usize)> {
    let mut rows = read(room_)?;
    refused(room_, rows.len(), row).map_err(|number| (number, 0))?;
    rows.push(row.clone());
    *room_ = room(room_.len(), &rows);
    Ok(())
}

/// A row is appended as row n; only one block is read. It is the next row if the block's number and
/// count say so, or, for the first row of a block, if they are zero. Only the header, the row's
/// cell and the CRC are written.
pub fn append_at(room: &mut [u8], n: u64, row: &Row) -> Result<(), (Refusal, usize)> {
    if !is_whole(room.len()) {
        return Err((SIZE, 0));
    }
    let (k, used) = ((n / 15) as usize, (n % 15) as u8);
    let inside = k < room.len() / BLOCK;
    if inside {
        let mut head = [0; 5];
        if used > 0 {
            head[..4].copy_from_slice(&(k as u32).to_be_bytes());
            head[4] = used;
        }
        if room[BLOCK * k..][..5] != head {
            return Err((MISMATCH, k));
        }
    }
    check(&row.bytes).map_err(|number| (number, 0))?;
    if !inside {
        return Err((OUTPUT_SHORT, 0));
    }
    let block = &mut room[BLOCK * k..][..BLOCK];
    block[..4].copy_from_slice(&(k as u32).to_be_bytes());
    block[4] = used + 1;
    block[5..FIRST].fill(0);
    let at = FIRST + CELL * usize::from(used);
    block[at..at + CELL].copy_from_slice(&cell(row));
    seal(block);
    Ok(())
}

/// Row i from its cell: time, LOOSE and bytes; a length over 21 does not match.
pub fn row_at(room: &[u8], i: u64) -> Result<Row, Refusal> {
    if !is_whole(room.len()) {
        return Err(SIZE);
    }
    let (k, i) = (i / 15, (i % 15) as usize);
    if k >= (room.len() / BLOCK) as u64 {
        return Err(OUT_OF_RANGE);
    }
    let block = &room[BLOCK * k as usize..][..BLOCK];
    if i >= usize::from(block[4]) {
        return Err(OUT_OF_RANGE);
    }
    let cell = &block[FIRST + CELL * i..][..CELL];
    let n = usize::from(cell[8]);
    if n > LONGEST {
        return Err(MISMATCH);
    }
    Ok(Row {
        bytes: cell[9..9 + n].to_vec(),
        time: u64::from_be_bytes(cell[..8].try_into().unwrap()),
        loose: cell[30..] == [1, 0],
    })
}

#[cfg(test)]
mod tests {
    use super::*;
    use crate::hex::unhex;

    fn row(text: &str, time: u64, loose: bool) -> Row {
        let bytes = unhex(text.as_bytes()).unwrap();
        Row { bytes, time, loose }
    }

    /// Blocks whose CRC was computed by hand before.
    #[test]
    fn vectors() {
        let first = row("D5090102030400E8", 0x0102_0304_0506_0708, false);
        let second = row("A6A500000008F1F2F3F4010203040027", 9, true);
        assert_eq!(block(0, &[first, second])[511], 0x05);
        assert_eq!(block(0, &[row("D5090102030400E8", 1000, false)])[511], 0xAF);
        let rows: Vec<Row> = (0..16)
            .map(|t| row("D5090102030400E8", t, t % 5 == 0))
            .collect();
        let two = room(1024, &rows);
        assert_eq!((two[511], two[1023]), (0x1E, 0x4D));
        assert_eq!(two[512..518], [0, 0, 0, 1, 1, 0]);
    }

    #[test]
    fn lengths_of_rooms() {
        for (n, whole) in [
            (0, true),
            (511, false),
            (512, true),
            (513, false),
            (2_199_023_255_552, true),
            (2_199_023_256_064, false),
        ] {
            assert_eq!(is_whole(n), whole, "{n}");
        }
    }

    #[test]
    fn what_is_appended_is_read() {
        let mut room = vec![0; 2 * BLOCK];
        let rows: Vec<Row> = (0..30)
            .map(|t| row("D5090102030400E8", 99 - t, t % 7 == 0))
            .collect();
        for row in &rows {
            assert_eq!(append(&mut room, row), Ok(()));
        }
        assert_eq!(append(&mut room, &rows[0]), Err((OUTPUT_SHORT, 0)));
        assert_eq!(read(&room), Ok(rows));
    }
}
