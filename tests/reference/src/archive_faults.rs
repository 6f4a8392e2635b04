//! What the calls on archives must show: everything that can occur, and the faults that a program
//! could have. Each fault is put into an archive program of its own, which reads a room in one pass
//! and writes one block. Its lines must differ from those of the rules.

use crate::archive::{is_whole, Row, BLOCK, MISMATCH, ROWS, SIZE};
use crate::archive_calls::{calls, show, stdin, stdout, Archive, Call};
use crate::hash::crc;
use crate::repack_calls;
use crate::subtelegram::{check, Refusal, OUTPUT_SHORT};
use std::collections::BTreeMap;
use std::sync::OnceLock;

struct OnePass {
    fault: &'static str,
}

type Answer<T> = Result<T, (Refusal, usize)>;

impl OnePass {
    fn has(&self, fault: &str) -> bool {
        self.fault == fault
    }

    fn is_row(&self, cell: &[u8]) -> bool {
        let n = usize::from(cell[8]);
        if n > 21 {
            return false;
        }
        let zeros = self.has("bytes past the length not looked at")
            || cell[9 + n..30].iter().all(|b| *b == 0);
        let mark = match self.fault {
            "byte 31 for 30" => cell[31] <= 1 && cell[30] == 0,
            "any byte 30" => cell[31] == 0,
            "byte 31 not looked at" => cell[30] <= 1,
            _ => cell[30] <= 1 && cell[31] == 0,
        };
        let valid = self.has("rows not checked") || check(&cell[9..9 + n]).is_ok();
        zeros && mark && valid
    }

    /// How many rows a right block has.
    fn rows(&self, block: &[u8]) -> Option<usize> {
        let n = usize::from(block[4]);
        let least = usize::from(!self.has("count 0 accepted"));
        let most = if self.has("14 rows at most") {
            14
        } else {
            ROWS
        };
        if n < least || n > most {
            return None;
        }
        let zero = |a: usize, b: usize| block[a..b].iter().all(|b| *b == 0);
        let gap = self.has("bytes 5 to 23 not looked at") || zero(5, 24);
        let unused = self.has("unused rows not looked at") || zero(24 + 32 * n, 504);
        let tail = self.has("bytes 504 to 510 not looked at") || zero(504, 511);
        let sealed = self.has("CRC not looked at") || block[511] == crc(&block[..511]);
        let cells = (0..n).all(|i| self.is_row(&block[24 + 32 * i..56 + 32 * i]));
        (gap && unused && tail && sealed && cells).then_some(n)
    }

    fn is_numbered(&self, block: &[u8], k: usize) -> bool {
        let number = u32::from_be_bytes(block[..4].try_into().unwrap()) as usize;
        match self.fault {
            "number ignored" => true,
            "number modulo 65,536" => number % 65_536 == k,
            "numbers from 1" => number == k + 1,
            _ => number == k,
        }
    }

    fn is_next(&self, block: &[u8], n: usize) -> bool {
        let used = n % ROWS;
        if used == 0 {
            return block[..5] == [0; 5] || self.has("no look at a new block");
        }
        let number = u32::from_be_bytes(block[..4].try_into().unwrap()) as usize;
        let count = usize::from(block[4]) == used || self.has("count not looked at");
        count && (number == n / ROWS || self.has("no number looked at"))
    }

    fn write(&self, block: &mut [u8], n: usize, row: &Row) {
        let used = n % ROWS;
        block[..4].copy_from_slice(&((n / ROWS) as u32).to_be_bytes());
        block[4] = used as u8 + 1;
        if !self.has("header not cleared") {
            block[5..24].fill(0);
        }
        let cell = &mut block[24 + 32 * used..56 + 32 * used];
        cell.fill(0);
        cell[..8].copy_from_slice(&match self.fault {
            "little-endian times" => row.time.to_le_bytes(),
            _ => row.time.to_be_bytes(),
        });
        cell[8] = row.bytes.len() as u8;
        cell[9..9 + row.bytes.len()].copy_from_slice(&row.bytes);
        let mark = if self.has("byte 31 for 30") { 31 } else { 30 };
        cell[mark] = u8::from(row.loose && !self.has("LOOSE forgotten"));
        if !self.has("CRC not written") {
            block[511] = crc(&block[..511]);
        }
    }
}

impl Archive for OnePass {
    fn open(&self, room: &[u8]) -> Answer<usize> {
        if !is_whole(room.len()) {
            return Err((SIZE, 0));
        }
        if room.is_empty() && self.has("an empty room refused") {
            return Err((SIZE, 0));
        }
        let (mut rows, mut short, mut ended) = (0, false, false);
        for (k, block) in room.chunks(BLOCK).enumerate() {
            if block.iter().all(|b| *b == 0) {
                ended = true;
                if self.has("nothing looked at behind the end") {
                    break;
                }
            } else if ended || short && self.has("the block after the short one") {
                return Err((MISMATCH, k));
            } else if short && !self.has("short blocks anywhere") {
                return Err((MISMATCH, k - 1));
            } else {
                let n = self.rows(block).ok_or((MISMATCH, k))?;
                if !self.is_numbered(block, k) {
                    return Err((MISMATCH, k));
                }
                rows += n;
                short = n < ROWS;
            }
        }
        Ok(rows)
    }

    fn append(&self, room: &mut Vec<u8>, row: &Row) -> Answer<()> {
        if self.has("the check's before 12") {
            check(&row.bytes).map_err(|number| (number, 0))?;
        }
        let rows = self.open(room)?;
        let most = match self.fault {
            "a spare block" => room.len() / BLOCK * ROWS - 1,
            _ => room.len() / BLOCK * ROWS,
        };
        if self.has("6 before the check's") && rows >= most {
            return Err((OUTPUT_SHORT, 0));
        }
        check(&row.bytes).map_err(|number| (number, 0))?;
        if rows >= most {
            return Err((OUTPUT_SHORT, 0));
        }
        if let Some(block) = room.chunks_mut(BLOCK).nth(rows / ROWS) {
            self.write(block, rows, row);
        }
        Ok(())
    }

    fn append_at(&self, room: &mut [u8], n: u64, row: &Row) -> Answer<()> {
        if !is_whole(room.len()) {
            return Err((SIZE, 0));
        }
        let k = (n / 15) as usize;
        let Some(block) = room.chunks_mut(BLOCK).nth(k) else {
            check(&row.bytes).map_err(|number| (number, 0))?;
            return Err((OUTPUT_SHORT, 0));
        };
        if !self.is_next(block, n as usize) {
            let position = if self.has("row for block") {
                n as usize
            } else {
                k
            };
            return Err((MISMATCH, position));
        }
        check(&row.bytes).map_err(|number| (number, 0))?;
        self.write(block, n as usize, row);
        Ok(())
    }
}

fn agrees(fault: &'static str) -> bool {
    static EXPECTED: OnceLock<(Vec<Call>, String)> = OnceLock::new();
    let (calls, lines) = EXPECTED.get_or_init(|| (calls(), stdout()));
    show(calls, &OnePass { fault }, &repack_calls::Rules) == *lines
}

#[test]
fn one_pass_is_each_position_by_itself() {
    assert!(agrees(""));
}

#[test]
fn faults_of_archives_are_seen() {
    for fault in [
        "bytes past the length not looked at",
        "byte 31 for 30",
        "any byte 30",
        "byte 31 not looked at",
        "rows not checked",
        "count 0 accepted",
        "14 rows at most",
        "bytes 5 to 23 not looked at",
        "unused rows not looked at",
        "bytes 504 to 510 not looked at",
        "CRC not looked at",
        "number ignored",
        "number modulo 65,536",
        "numbers from 1",
        "no look at a new block",
        "count not looked at",
        "no number looked at",
        "header not cleared",
        "little-endian times",
        "LOOSE forgotten",
        "CRC not written",
        "an empty room refused",
        "nothing looked at behind the end",
        "the block after the short one",
        "short blocks anywhere",
        "the check's before 12",
        "a spare block",
        "6 before the check's",
        "row for block",
    ] {
        assert!(!agrees(fault), "{fault}");
    }
}

/// Every answer occurs, of every call that can give it.
#[test]
fn every_answer_occurs() {
    let mut seen: BTreeMap<String, usize> = BTreeMap::new();
    for line in stdout().lines() {
        let words: Vec<&str> = line.split(' ').take(2).collect();
        *seen.entry(words.join(" ")).or_default() += 1;
    }
    for (call, numbers) in [
        ("APPEND", &[0, 1, 2, 3, 6, 12, 16][..]),
        ("APPENDAT", &[0, 1, 2, 3, 6, 12, 16]),
        ("OPEN", &[0, 12, 16]),
        ("SCAN", &[0, 12, 16]),
        ("ROW", &[0, 10, 12, 16]),
    ] {
        for number in numbers {
            assert!(
                seen.contains_key(&format!("{call} {number}")),
                "{call} {number}"
            );
        }
    }
    assert!(seen.contains_key("?"));
}

/// Rows that are appended one after the other give the same blocks with both calls.
#[test]
fn the_cursor_writes_what_appending_writes() {
    let calls = calls();
    let blocks = |from: usize| -> Vec<String> {
        let end = from
            + 1
            + calls[from + 1..]
                .iter()
                .position(|c| matches!(c, Call::New(_)))
                .unwrap();
        let lines = show(
            &calls[from..end],
            &OnePass { fault: "" },
            &repack_calls::Rules,
        );
        lines
            .lines()
            .filter(|l| l.starts_with("BLOCK"))
            .map(str::to_string)
            .collect()
    };
    let first = calls
        .iter()
        .position(|c| matches!(c, Call::AppendAt(_, 0)))
        .unwrap()
        - 1;
    let other = calls[..first]
        .iter()
        .rposition(|c| matches!(c, Call::New(_)))
        .unwrap();
    assert!(matches!(calls[first], Call::New(_)));
    assert_eq!(blocks(first), blocks(other));
    assert_eq!(blocks(first).len(), 3);
}

#[test]
fn records_are_lines_of_640_digits() {
    assert!(stdin().lines().all(|line| line.len() == 640));
    assert_eq!(stdin().lines().count(), stdout().lines().count());
}
