//! What the calls of salvage, of removal and of a cut must show: everything that can occur, and the
//! faults that a program could have. Each fault is put into a program of its own, which copies
//! cells and changes blocks in place. Its lines must differ from those of the rules.

use crate::archive::{is_whole, read, rows_of, seal, BLOCK, ROWS, SIZE};
use crate::archive_calls::{self, calls, show, stdout};
use crate::repack::Salvaged;
use crate::repack_calls::Repacker;
use crate::subtelegram::{Refusal, ADDRESSED, OUTPUT_SHORT, OUT_OF_RANGE};
use std::collections::BTreeSet;

struct Cells {
    fault: &'static str,
}

impl Cells {
    fn has(&self, fault: &str) -> bool {
        self.fault == fault
    }

    fn is_kept(&self, k: usize, block: &[u8]) -> bool {
        let mut block = block.to_vec();
        if self.has("CRC not looked at") {
            seal(&mut block);
        }
        if self.has("short blocks dropped") && usize::from(block[4]) < ROWS {
            return false;
        }
        if self.has("the number counts") && block[..4] != (k as u32).to_be_bytes() {
            return false;
        }
        rows_of(&block).is_some()
    }

    fn is_dropped(&self, k: usize, block: &[u8]) -> bool {
        let zero = block.iter().all(|b| *b == 0);
        let spared = zero && !self.has("all-zero blocks dropped");
        !spared && !self.is_kept(k, block)
    }

    /// Blocks of n cells each, with the numbers of the source.
    fn pack(&self, cells: &[[u8; 32]], n: usize, numbers: &[[u8; 4]]) -> Vec<u8> {
        let mut out = Vec::new();
        let full = if self.has("14 rows are full") {
            14
        } else {
            ROWS
        };
        for (k, group) in cells.chunks(full).enumerate() {
            let mut block = vec![0; BLOCK];
            block[..4].copy_from_slice(&(k as u32).to_be_bytes());
            if self.has("numbers not renewed") {
                block[..4].copy_from_slice(&numbers[k]);
            }
            block[4] = group.len() as u8;
            for (i, cell) in group.iter().enumerate() {
                block[24 + 32 * i..][..32].copy_from_slice(cell);
            }
            seal(&mut block);
            out.extend(block);
        }
        if !self.has("no zeros behind the rows") {
            out.resize(n, 0);
        }
        out
    }
}

impl Repacker for Cells {
    fn salvage(&self, room: &[u8], out: &mut [u8], list: &mut [u64]) -> Result<Salvaged, Refusal> {
        if !is_whole(room.len()) {
            return Err(SIZE);
        }
        let (mut gone, mut cells, mut numbers) = (Vec::new(), Vec::new(), Vec::new());
        for (k, block) in room.chunks(BLOCK).enumerate() {
            if self.has("the end is at an all-zero block") && block.iter().all(|b| *b == 0) {
                break;
            }
            numbers.push(block[..4].try_into().unwrap());
            if self.is_dropped(k, block) {
                gone.push(if self.has("counted for listed") {
                    gone.len() as u64
                } else {
                    k as u64
                });
            } else if self.is_kept(k, block) {
                let end = 24 + 32 * usize::from(block[4]);
                cells.extend(
                    block[24..end]
                        .chunks(32)
                        .map(|c| <[u8; 32]>::try_from(c).unwrap()),
                );
            }
        }
        let spare = usize::from(self.has("a list one too short accepted"));
        let less = usize::from(self.has("an output one byte short accepted"));
        let more = usize::from(self.has("a list as long refused"));
        if out.len() + less < room.len() || list.len() + spare < gone.len() + more {
            return Err(OUTPUT_SHORT);
        }
        let packed = self.pack(&cells, room.len(), &numbers);
        let most = if self.has("output past the room cleared") {
            out.fill(0);
            out.len()
        } else {
            packed.len().min(out.len())
        };
        let n = packed.len().min(most);
        out[..n].copy_from_slice(&packed[..n]);
        if self.has("list past the positions cleared") {
            list.fill(0);
        }
        for (there, k) in list.iter_mut().zip(&gone) {
            *there = *k;
        }
        Ok((gone, cells.len()))
    }

    fn remove(&self, room: &mut Vec<u8>, identities: &[u32]) -> Result<usize, (Refusal, usize)> {
        let mut different = identities.to_vec();
        different.dedup();
        let listed = match self.fault {
            "32 identities refused" => identities.len() + 1,
            "33 identities accepted" => identities.len().saturating_sub(1),
            "equal identities counted once" => different.len(),
            _ => identities.len(),
        };
        if self.has("10 before 12") && listed > 32 {
            return Err((OUT_OF_RANGE, 0));
        }
        let rows = read(room)?.len();
        if listed > 32 {
            return Err((OUT_OF_RANGE, 0));
        }
        let used = &room[..BLOCK * rows.div_ceil(ROWS)];
        let cells: Vec<[u8; 32]> = used.chunks(BLOCK).flat_map(cells_of).collect();
        let stay = |cell: &&[u8; 32]| !self.leaves(cell, identities);
        let mut rest: Vec<[u8; 32]> = cells.iter().filter(stay).copied().collect();
        if self.has("the last row forgotten") && rest.len() < cells.len() {
            rest.pop();
        }
        let numbers: Vec<[u8; 4]> = (0..=rows as u32).map(|k| (k + 1).to_be_bytes()).collect();
        let how = match self.fault {
            "numbers not kept from 0" => "numbers not renewed",
            "freed blocks left as they were" => "no zeros behind the rows",
            _ => "",
        };
        let packed = Cells { fault: how }.pack(&rest, room.len(), &numbers);
        room[..packed.len()].copy_from_slice(&packed);
        let (before, after) = (rows.div_ceil(ROWS), rest.len().div_ceil(ROWS));
        Ok(match self.fault {
            "all free blocks reported" => room.len() / BLOCK - after,
            "blocks of removed rows reported" => (rows - rest.len()) / ROWS,
            "rows reported" => rows - rest.len(),
            _ => before - after,
        })
    }

    fn cut(&self, room: &mut Vec<u8>, rows: u64) -> Result<(), (Refusal, usize)> {
        if self.has("too many rows before 12") && rows > 20 {
            return Err((OUT_OF_RANGE, 0));
        }
        let n = read(room)?.len() as u64;
        if n < rows {
            let spared = self.has("more rows than there are accepted");
            return if spared {
                Ok(())
            } else {
                Err((OUT_OF_RANGE, 0))
            };
        }
        if n == rows {
            let refused = self.has("as many rows refused");
            return if refused {
                Err((OUT_OF_RANGE, 0))
            } else {
                Ok(())
            };
        }
        let first = match self.fault {
            "one row too many left" => rows as usize + 1,
            "whole blocks left" => (rows as usize).next_multiple_of(ROWS).min(n as usize),
            _ => rows as usize,
        };
        let (k, used) = (first / ROWS, first % ROWS);
        if !self.has("blocks behind the cut left") && k < room.len() / BLOCK {
            room[BLOCK * (k + 1)..].fill(0);
        }
        if let Some(block) = room.chunks_mut(BLOCK).nth(k) {
            if used == 0 && !self.has("a block of no rows left") {
                block.fill(0);
            } else {
                self.cut_block(block, used);
            }
        }
        Ok(())
    }
}

fn cells_of(block: &[u8]) -> Vec<[u8; 32]> {
    let cells = block[24..504].chunks(32).take(block[4].into());
    cells.map(|cell| cell.try_into().unwrap()).collect()
}

impl Cells {
    /// The first rows of a block, in place.
    fn cut_block(&self, block: &mut [u8], used: usize) {
        if !self.has("the count not renewed") {
            block[4] = used as u8;
        }
        if !self.has("cells behind the cut left") {
            block[24 + 32 * used..511].fill(0);
        }
        if !self.has("the CRC not renewed") {
            seal(block);
        }
    }

    /// Whether a row leaves.
    fn leaves(&self, cell: &[u8; 32], identities: &[u32]) -> bool {
        let n = usize::from(cell[8]);
        let at = match self.fault {
            "DESTID for TXID" if cell[9] == ADDRESSED => 9 + n - 10,
            "STATUS for the last byte" => 9 + n - 5,
            _ => 9 + n - 6,
        };
        let identity = u32::from_be_bytes(cell[at..at + 4].try_into().unwrap());
        let list = match self.fault {
            "the first identity alone" => &identities[..identities.len().min(1)],
            "the last identity forgotten" => &identities[..identities.len().saturating_sub(1)],
            _ => identities,
        };
        list.contains(&identity)
    }
}

fn agrees(fault: &'static str) -> bool {
    show(&calls(), &archive_calls::Rules, &Cells { fault }) == stdout()
}

#[test]
fn copied_cells_are_rows_written_again() {
    assert!(agrees(""));
}

#[test]
fn faults_of_salvage_are_seen() {
    for fault in [
        "CRC not looked at",
        "short blocks dropped",
        "the number counts",
        "all-zero blocks dropped",
        "14 rows are full",
        "numbers not renewed",
        "no zeros behind the rows",
        "the end is at an all-zero block",
        "counted for listed",
        "a list one too short accepted",
        "an output one byte short accepted",
        "a list as long refused",
        "output past the room cleared",
        "list past the positions cleared",
    ] {
        assert!(!agrees(fault), "{fault}");
    }
}

#[test]
fn faults_of_removal_are_seen() {
    for fault in [
        "32 identities refused",
        "33 identities accepted",
        "equal identities counted once",
        "10 before 12",
        "the last row forgotten",
        "numbers not kept from 0",
        "freed blocks left as they were",
        "all free blocks reported",
        "blocks of removed rows reported",
        "rows reported",
        "DESTID for TXID",
        "STATUS for the last byte",
        "the first identity alone",
        "the last identity forgotten",
    ] {
        assert!(!agrees(fault), "{fault}");
    }
}

#[test]
fn faults_of_a_cut_are_seen() {
    for fault in [
        "too many rows before 12",
        "more rows than there are accepted",
        "as many rows refused",
        "one row too many left",
        "whole blocks left",
        "blocks behind the cut left",
        "a block of no rows left",
        "the count not renewed",
        "cells behind the cut left",
        "the CRC not renewed",
    ] {
        assert!(!agrees(fault), "{fault}");
    }
}

/// The numbers that a call answers.
fn numbers(lines: &str, call: &str) -> Vec<String> {
    let seen: BTreeSet<&str> = lines
        .lines()
        .filter(|line| line.starts_with(call))
        .map(|line| line.split(' ').nth(1).unwrap())
        .collect();
    seen.into_iter().map(String::from).collect()
}

/// Every answer occurs.
#[test]
fn every_answer_occurs() {
    let lines = stdout();
    assert_eq!(numbers(&lines, "SALVAGE"), ["0", "16", "6"]);
    assert_eq!(numbers(&lines, "REMOVE"), ["0", "10", "12", "16"]);
    assert_eq!(numbers(&lines, "CUT"), ["0", "10", "12", "16"]);
}
