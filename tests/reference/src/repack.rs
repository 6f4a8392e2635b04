//! Salvage of a damaged archive (document 02, A9), the removal of sensors that left (A11) and cuts,
//! over lists of rows: what stays is written as a new archive.

use crate::archive::{identity, is_whole, read, room, rows_of, Row, BLOCK, ROWS, SIZE};
use crate::subtelegram::{Refusal, OUTPUT_SHORT, OUT_OF_RANGE};

/// What salvage answers, with 0: the positions dropped and how many rows remain.
pub type Salvaged = (Vec<u64>, usize);

/// "Keeps every block whose layout, rows and check are right apart from its number", at any
/// position; an all-zero block is not counted.
fn sorted(room: &[u8]) -> (Vec<u64>, Vec<Row>) {
    let (mut dropped, mut rows) = (Vec::new(), Vec::new());
    for (k, block) in room.chunks(BLOCK).enumerate() {
        match rows_of(block) {
            Some(more) => rows.extend(more),
            None if block.iter().all(|b| *b == 0) => {}
            None => dropped.push(k as u64),
        }
    }
    (dropped, rows)
}

pub fn salvage(from: &[u8], out: &mut [u8], list: &mut [u64]) -> Result<Salvaged, Refusal> {
    if !is_whole(from.len()) {
        return Err(SIZE);
    }
    let (dropped, rows) = sorted(from);
    if out.len() < from.len() || list.len() < dropped.len() {
        return Err(OUTPUT_SHORT);
    }
    out[..from.len()].copy_from_slice(&room(from.len(), &rows));
    list[..dropped.len()].copy_from_slice(&dropped);
    Ok((dropped, rows.len()))
}

/// "Up to 32 transmitter identities."
const IDENTITIES: usize = 32;

/// The archive "rewritten in its own room without their rows: the others in order, packed,
/// renumbered"; how many blocks are no longer needed.
pub fn remove(from: &mut Vec<u8>, identities: &[u32]) -> Result<usize, (Refusal, usize)> {
    let mut rows = read(from)?;
    if identities.len() > IDENTITIES {
        return Err((OUT_OF_RANGE, 0));
    }
    let before = rows.len().div_ceil(ROWS);
    rows.retain(|row| !identities.contains(&identity(row)));
    *from = room(from.len(), &rows);
    Ok(before - rows.len().div_ceil(ROWS))
}

/// Keeps the first rows of an archive, which must have that many.
pub fn cut(from: &mut Vec<u8>, first: u64) -> Result<(), (Refusal, usize)> {
    let mut rows = read(from)?;
    if (rows.len() as u64) < first {
        return Err((OUT_OF_RANGE, 0));
    }
    rows.truncate(first as usize);
    *from = room(from.len(), &rows);
    Ok(())
}
