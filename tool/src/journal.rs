//! The decisions of the journal, as pure functions over bytes: the bytes of the state file, the judgement on the block with the last counted row,
//! where the leftover rows end, and how many of them equal the rows that the log gives again. Reading, writing and syncing is in `store` and `keeper`
//! (docs/CRASH.md has the whole picture; crates/journal_model has the model and the theorems).
use mooringeye::{raw, Archive, Block, Collector, Refusal};

const BLOCK: usize = Archive::BLOCK;
pub const ROWS: u64 = Archive::ROWS_PER_BLOCK as u64;
/// The length of a row without its time: 1 for LOOSE, else 0; a length; 21 bytes.
pub const RECORD: usize = raw::ROW;
/// The bytes of a state file.
pub const LENGTH: usize = raw::STATE;
pub const MAX_NAME: usize = raw::STATE_NAME;
/// How many bytes of the log before the offset are kept.
pub const TAIL: usize = raw::STATE_TAIL;

/// What a state file holds.
#[derive(Clone)]
pub struct State {
    pub collector: Collector,
    /// How many lines were taken.
    pub lines: u64,
    pub archive: Option<Attached>,
    /// The position in the log; none in a state of version 1.
    pub log: Option<LogPlace>,
    pub out: Option<OutPlace>,
}

/// The archive that a state's rows go to.
#[derive(Clone)]
pub struct Attached {
    /// Its file name, or its pattern.
    pub name: Vec<u8>,
    /// The number of the file, if a pattern names it.
    pub number: u64,
    /// KEPT and LOOSE rows that the collector had counted when this file began.
    pub counted: u64,
    /// How many rows the file had then.
    pub had: u64,
    /// The block with its last counted row; all zero if it has none.
    pub last: Block,
}

/// The position in the log after the last line that was taken.
#[derive(Clone, Debug, Default, PartialEq, Eq)]
pub struct LogPlace {
    /// Bytes before it: of the file, or of standard input in all runs.
    pub offset: u64,
    /// The log's file; zeros for standard input.
    pub device: u64,
    pub inode: u64,
    /// The last bytes before it, at most `TAIL`.
    pub tail: Vec<u8>,
}

impl LogPlace {
    /// The position after more text.
    pub fn pass(&mut self, text: &[u8]) {
        self.offset += text.len() as u64;
        keep_last(&mut self.tail, text);
    }
}

/// Keeps the last bytes, at most `TAIL`, of those that are kept and of more after them.
pub fn keep_last(tail: &mut Vec<u8>, text: &[u8]) {
    let text = &text[text.len().saturating_sub(TAIL)..];
    let keep = tail.len().min(TAIL - text.len());
    tail.drain(..tail.len() - keep);
    tail.extend_from_slice(text);
}

/// The file of `--out`.
#[derive(Clone, Copy, Debug, PartialEq, Eq)]
pub struct OutPlace {
    pub length: u64,
    pub device: u64,
    pub inode: u64,
}

impl State {
    pub fn fresh() -> State {
        State { collector: Collector::new(), lines: 0, archive: None, log: Some(LogPlace::default()), out: None }
    }

    /// KEPT and LOOSE rows that the collector has counted.
    pub fn counted(&self) -> u64 {
        let totals = self.collector.totals();
        totals.kept + totals.loose
    }

    /// The bytes of docs/FORMATS.md, "State file of mooringeye collect". Refused: a state whose parts do not agree.
    pub fn to_bytes(&self) -> Result<Vec<u8>, Refusal> {
        let (mut numbers, mut name, mut tail) = ([0; raw::STATE_NUMBERS], [0; raw::STATE_NAME], [0; TAIL]);
        let mut last = Block::default();
        numbers[0] = self.lines;
        if let Some(archive) = &self.archive {
            numbers[1..5].copy_from_slice(&[archive.counted, archive.had, archive.number, archive.name.len() as u64]);
            name[..archive.name.len()].copy_from_slice(&archive.name);
            last = archive.last.clone();
        }
        if let Some(log) = &self.log {
            numbers[5..10].copy_from_slice(&[1, log.offset, log.device, log.inode, log.tail.len() as u64]);
            tail[..log.tail.len()].copy_from_slice(&log.tail);
        }
        if let Some(out) = &self.out {
            numbers[10..].copy_from_slice(&[1, out.length, out.device, out.inode]);
        }
        let mut bytes = [0; LENGTH];
        match raw::state_write(&numbers, &name, last.as_bytes(), &self.collector.checkpoint(), &tail, &mut bytes) {
            0 => Ok(bytes.to_vec()),
            _ => Err(Refusal::NotAccepted),
        }
    }

    /// The state of these bytes, or why they have none. Accepted are exactly the bytes that are written for a state, in this version or in version 1.
    pub fn of_bytes(bytes: &[u8]) -> Result<State, String> {
        let (mut numbers, mut name, mut tail) = ([0; raw::STATE_NUMBERS], [0; raw::STATE_NAME], [0; TAIL]);
        let (mut last, mut image) = ([0; BLOCK], [0; Collector::IMAGE]);
        match raw::state_accept(bytes, &mut numbers, &mut name, &mut last, &mut image, &mut tail) {
            0 => {}
            16 => return Err(format!("{} bytes, expected {LENGTH}", bytes.len())),
            _ => return Err("its bytes are not those of a state".into()),
        }
        let collector = Collector::restore(&image).map_err(|why| format!("its image is {why}"))?;
        let [lines, counted, had, number, length, has_log, offset, device, inode, kept, has_out, ..] = numbers;
        let name = name[..length as usize].to_vec();
        let archive = Attached { name, number, counted, had, last: Block::new(last) };
        let log = LogPlace { offset, device, inode, tail: tail[..kept as usize].to_vec() };
        let out = OutPlace { length: numbers[11], device: numbers[12], inode: numbers[13] };
        Ok(State {
            collector,
            lines,
            archive: (length > 0).then_some(archive),
            log: (has_log == 1).then_some(log),
            out: (has_out == 1).then_some(out),
        })
    }
}

/// How many of this many rows of a file are in its last block.
pub fn in_last(rows: u64) -> usize {
    match rows {
        0 => 0,
        rows => ((rows - 1) % ROWS) as usize + 1,
    }
}

/// The block with the last counted row, compared with the state's copy of it.
#[derive(Clone, Copy, Debug, PartialEq, Eq)]
pub enum Found {
    Same,
    /// The counted rows, and leftovers after them.
    Longer,
    /// Bytes that are not a block: a write that did not end.
    Torn,
    /// A block of another archive, or none.
    Another,
}

/// `rows` of the block's rows are counted.
pub fn judge(last: &Block, rows: usize, block: &Block) -> Found {
    match raw::journal_judge(last.as_bytes(), rows, block.as_bytes()) {
        0 => Found::Same,
        1 => Found::Longer,
        2 => Found::Torn,
        _ => Found::Another,
    }
}

/// A row as `put_rows` takes it.
#[derive(Clone, Debug, PartialEq, Eq)]
pub struct Stored {
    pub time: u64,
    pub record: [u8; RECORD],
}

/// The rows of a block; none if it is not sound.
pub fn rows_of(block: &Block) -> Vec<Stored> {
    if !block.is_sound() {
        return Vec::new();
    }
    let row_at = |index| {
        let (mut record, mut time) = ([0; RECORD], 0);
        (raw::archive_row(block.as_bytes(), index, &mut record, &mut time) == 0).then_some(Stored { time, record })
    };
    (0..Archive::ROWS_PER_BLOCK).map_while(row_at).collect()
}

/// How many of the new rows, from the first on, equal the rows that are there. If all do, they are counted; else the leftovers after them are put
/// aside.
pub fn agreeing(times: &[u64], records: &[u8], left: &[Stored]) -> usize {
    let moments: Vec<u64> = left.iter().map(|row| row.time).collect();
    let standing: Vec<u8> = left.iter().flat_map(|row| row.record).collect();
    let (mut agreed, mut going) = (0, 0);
    let number = raw::journal_compare(times, records, &moments, &standing, &mut agreed, &mut going);
    assert_eq!(number, 0, "a record of 23 bytes for each time");
    agreed
}

/// Where a run of blocks ends that reads as an archive: sound, with the right numbers, and only the last one short.
pub struct Run {
    numbers: [u64; raw::RUN_NUMBERS],
}

impl Run {
    /// The next block has this number; in one file no number is too large.
    pub fn from(next: u64) -> Run {
        Run { numbers: [1 << 32, next, 0, 0, 0] }
    }

    /// A run that ends before its first block.
    pub fn ended() -> Run {
        Run { numbers: [1 << 32, 0, 0, 0, 1] }
    }

    /// How many blocks it has, and how many rows.
    pub fn blocks(&self) -> u64 {
        self.numbers[2]
    }

    pub fn rows(&self) -> u64 {
        self.numbers[3]
    }

    /// Takes blocks until the run ends.
    pub fn feed(&mut self, piece: &[u8]) {
        let number = raw::journal_scan(&mut self.numbers, piece);
        assert_eq!(number, 0, "whole blocks, and numbers of a scan");
    }
}

fn is_zero(bytes: &[u8]) -> bool {
    bytes.iter().fold(0, |any, b| any | b) == 0
}

/// What comes after a run of blocks: bytes that nobody counts.
#[derive(Clone, Copy, Debug, Default, PartialEq, Eq)]
pub struct Behind {
    /// Blocks up to the last that is not all zero.
    pub blocks: u64,
    /// How many of them are sound.
    pub sound: u64,
    seen: u64,
}

impl Behind {
    pub fn feed(&mut self, piece: &[u8]) {
        for bytes in piece.chunks(BLOCK) {
            self.seen += 1;
            if !is_zero(bytes) {
                self.blocks = self.seen;
                let block: Result<[u8; BLOCK], _> = bytes.try_into();
                self.sound += u64::from(block.is_ok_and(|b| Block::new(b).is_sound()));
            }
        }
    }
}

#[cfg(test)]
mod tests {
    use super::*;

    const PRESS: [u8; 8] = [0xD5, 0x09, 1, 2, 3, 4, 0, 0xE8];

    fn state() -> State {
        let mut state = State::fresh();
        let mut last = Block::default();
        state.collector.take(&PRESS, 1_000).unwrap();
        last.put(15, &PRESS, 1_000, false).unwrap();
        state.lines = 7;
        state.archive = Some(Attached { name: b"a.arc".into(), number: 3, counted: 0, had: 15, last });
        state.log.as_mut().unwrap().pass(&[b'7'; 700]);
        state.out = Some(OutPlace { length: 10, device: 1, inode: 2 });
        state
    }

    #[test]
    fn reads_back() {
        for state in [state(), State::fresh()] {
            let bytes = state.to_bytes().unwrap();
            assert_eq!(State::of_bytes(&bytes).ok().unwrap().to_bytes().unwrap(), bytes);
        }
    }

    /// What version 1 wrote for a state without a position in a log.
    fn bytes_1(state: State) -> Vec<u8> {
        let mut bytes = State { log: None, out: None, ..state }.to_bytes().unwrap();
        bytes.truncate(LENGTH - TAIL);
        bytes[7] = 1;
        bytes[348] = 0;
        bytes[BLOCK - 1] = mooringeye::crc8(&bytes[..BLOCK - 1]);
        bytes
    }

    #[test]
    fn reads_version_1() {
        let read = State::of_bytes(&bytes_1(state())).ok().unwrap();
        assert_eq!((read.lines, read.log.is_none(), read.out), (7, true, None));
    }

    #[test]
    fn no_bit_can_flip() {
        for bytes in [state().to_bytes().unwrap(), bytes_1(state())] {
            for bit in 0..8 * bytes.len() {
                let mut other = bytes.clone();
                other[bit / 8] ^= 1 << (bit % 8);
                assert!(State::of_bytes(&other).is_err(), "bit {bit}");
            }
        }
    }

    #[test]
    fn no_byte_can_be_missing() {
        let bytes = state().to_bytes().unwrap();
        for n in 0..LENGTH {
            assert!(State::of_bytes(&bytes[..n]).is_err());
        }
    }

    #[test]
    fn the_last_bytes_are_kept() {
        let (mut tail, mut all) = (Vec::new(), Vec::new());
        for n in [0, 1, 500, 11, 1, 512, 30, 2_000, 7] {
            let text: Vec<u8> = (0..n).map(|i| (i * 7 + n) as u8).collect();
            keep_last(&mut tail, &text);
            all.extend_from_slice(&text);
            assert_eq!(tail, all[all.len().saturating_sub(TAIL)..]);
        }
    }

    fn block(first: usize, rows: usize) -> Block {
        let mut block = Block::default();
        (first..first + rows).for_each(|n| block.put(n, &PRESS, n as u64, false).unwrap());
        block
    }

    #[test]
    fn judgements() {
        let last = block(15, 4);
        assert_eq!(judge(&last, 4, &last), Found::Same);
        assert_eq!(judge(&last, 4, &block(15, 9)), Found::Longer);
        assert_eq!(judge(&last, 4, &block(15, 3)), Found::Another);
        assert_eq!(judge(&last, 4, &block(30, 4)), Found::Another);
        assert_eq!(judge(&last, 4, &Block::default()), Found::Another);
        let mut torn = *last.as_bytes();
        torn[300] ^= 1;
        assert_eq!(judge(&last, 4, &Block::new(torn)), Found::Torn);
    }

    #[test]
    fn runs_end_where_an_archive_does() {
        let bytes = [block(15, 15), block(30, 15), block(45, 3), block(60, 15)].map(|b| *b.as_bytes()).concat();
        let mut run = Run::from(1);
        bytes.chunks(1024).for_each(|piece| run.feed(piece));
        assert_eq!((run.blocks(), run.rows()), (3, 33));
        let mut run = Run::from(2);
        run.feed(&bytes);
        assert_eq!((run.blocks(), run.rows()), (0, 0));
        let mut behind = Behind::default();
        behind.feed(&[&bytes[..], &[0; 512], &[7; 512], &[0; 600]].concat());
        assert_eq!((behind.blocks, behind.sound), (6, 4));
    }

    #[test]
    fn rows_are_compared_one_by_one() {
        let left = rows_of(&block(0, 5));
        let times: Vec<u64> = left.iter().map(|r| r.time).collect();
        let records: Vec<u8> = left.iter().flat_map(|r| r.record).collect();
        assert_eq!(agreeing(&times, &records, &left), 5);
        assert_eq!(agreeing(&times[..2], &records[..2 * RECORD], &left), 2);
        assert_eq!(agreeing(&times, &records, &left[..3]), 3);
        let mut other = records.clone();
        other[3 * RECORD] = 1;
        assert_eq!(agreeing(&times, &other, &left), 3);
        assert_eq!(agreeing(&[0, 9, 2, 3, 4], &records, &left), 1);
    }
}
