//! Archives of any length in fixed memory: a file is read in pieces of whole blocks, and what comes out is that of the whole.
use crate::archive::{Archive, Row};
use crate::raw;
use crate::refusal::{done, done_at, Refusal, Refused};
use crate::report::Report;
use crate::telegram::Telegram;

/// What is known of an archive after its first pieces.
///
/// ```
/// use mooringeye::{Refusal, Scan};
///
/// let mut scan = Scan::new();
/// scan.feed(&[0; 1024]).unwrap();
/// assert_eq!((scan.blocks(), scan.end()), (2, Ok(0)));
/// scan.feed(&[7; 512]).unwrap();
/// assert_eq!(scan.end().unwrap_err().position, 2);
/// assert_eq!(scan.feed(&[0; 100]), Err(Refusal::Size));
/// ```
#[derive(Clone, Debug, Default)]
pub struct Scan {
    numbers: [u64; raw::SCAN_NUMBERS],
}

impl Scan {
    /// Before the first piece.
    pub fn new() -> Scan {
        Scan::default()
    }

    /// A scan after `blocks` full blocks, which are not read: for a caller that read them before.
    ///
    /// ```
    /// let mut scan = mooringeye::Scan::behind(7);
    /// scan.feed(&[0; 512]).unwrap();
    /// assert_eq!((scan.blocks(), scan.end()), (8, Ok(105)));
    /// ```
    pub fn behind(blocks: u64) -> Scan {
        let rows = blocks.saturating_mul(Archive::ROWS_PER_BLOCK as u64);
        Scan { numbers: [blocks, rows, 0, 0] }
    }

    /// Takes the blocks of the next piece. Refused: [`Refusal::Size`], and the scan is unchanged. [`Scan::end`] reports a block that does not match.
    pub fn feed(&mut self, piece: &[u8]) -> Result<(), Refusal> {
        done(raw::scan_feed(&mut self.numbers, piece))
    }

    /// The same, and the rows of the piece, up to the first block that does not match.
    pub fn feed_rows<'a>(&mut self, piece: &'a [u8]) -> Result<PieceRows<'a>, Refusal> {
        let before = self.blocks();
        self.feed(piece)?;
        let right = match self.end() {
            Ok(_) => piece.len(),
            Err(refused) => (refused.position as u64).saturating_sub(before) as usize * Archive::BLOCK,
        };
        Ok(PieceRows { piece: &piece[..right], block: 0, row: 0 })
    }

    /// How many blocks were taken.
    pub fn blocks(&self) -> u64 {
        self.numbers[0]
    }

    /// How many rows the pieces have, as one archive. Refused: [`Refusal::Mismatch`] with the position of the first block that does not match.
    pub fn end(&self) -> Result<usize, Refused> {
        let (mut rows, mut position) = (0, 0);
        done_at(raw::scan_end(&self.numbers, &mut rows, &mut position), position)?;
        Ok(rows)
    }
}

/// A block of an archive by itself.
///
/// ```
/// use mooringeye::Block;
///
/// let press = [0xD5, 0x09, 1, 2, 3, 4, 0, 0xE8];
/// let mut block = Block::default();
/// block.put(15, &press, 1_000, false).unwrap();
/// block.put(16, &press, 1_200, true).unwrap();
/// assert_eq!(block.rows().map(|r| r.time).collect::<Vec<_>>(), [1_000, 1_200]);
/// block.cut(1).unwrap();
/// assert_eq!(block.rows().count(), 1);
/// ```
#[derive(Clone, Debug, PartialEq, Eq)]
pub struct Block {
    bytes: [u8; Archive::BLOCK],
}

impl Block {
    /// The block of these bytes, right or not.
    pub fn new(bytes: [u8; Archive::BLOCK]) -> Block {
        Block { bytes }
    }

    /// Its bytes.
    pub fn as_bytes(&self) -> &[u8; Archive::BLOCK] {
        &self.bytes
    }

    /// Whether all its bytes are zero.
    pub fn is_blank(&self) -> bool {
        self.bytes.iter().fold(0, |any, b| any | b) == 0
    }

    /// Puts row `n` of an archive, counted from 0, after the others of its block. Refused: [`Refusal::Size`] for an `n` that no archive has,
    /// [`Refusal::Mismatch`] where the block does not say that row `n` is next, and the check's own.
    pub fn put(&mut self, n: usize, telegram: &[u8], time: u64, loose: bool) -> Result<(), Refused> {
        let mut position = 0;
        done_at(raw::archive_put_row(&mut self.bytes, n, telegram, time, loose, &mut position), position)
    }

    /// Puts rows `first`, first + 1 and so on of an archive after the others of their block, all or none, with one CRC: as [`Block::put`] one after the
    /// other. `rows` has for each of `times` a record of [`raw::ROW`] bytes: 1 for LOOSE and else 0, a length, and 21 bytes, zero filled. Refused:
    /// [`Refusal::Size`] for a row that no archive has or another number of bytes, [`Refusal::Mismatch`] where the block does not say that row
    /// `first` is next, the check's own with the position of the first such row in the list, and [`Refusal::ShortOutput`] if there is no room for all.
    ///
    /// ```
    /// use mooringeye::{Block, Refusal};
    ///
    /// let mut press = [0; 23];
    /// press[1..10].copy_from_slice(&[8, 0xD5, 0x09, 1, 2, 3, 4, 0, 0xE8]);
    /// let mut loose = press;
    /// loose[0] = 1;
    /// let mut block = Block::default();
    /// block.put_rows(15, &[1_000, 1_200], &[press, loose].concat()).unwrap();
    /// assert_eq!(block.rows().map(|r| (r.time, r.loose)).collect::<Vec<_>>(), [(1_000, false), (1_200, true)]);
    /// press[9] = 0;
    /// let refused = block.put_rows(17, &[1_300, 1_400], &[loose, press].concat()).unwrap_err();
    /// assert_eq!((refused.why, refused.position), (Refusal::Sum, 1));
    /// assert_eq!(block.rows().count(), 2);
    /// ```
    pub fn put_rows(&mut self, first: usize, times: &[u64], rows: &[u8]) -> Result<(), Refused> {
        let mut position = 0;
        done_at(raw::archive_put_rows(&mut self.bytes, first, times, rows, &mut position), position)
    }

    /// Leaves its first `rows` rows. Refused: [`Refusal::Mismatch`] for a block that is not sound or has fewer.
    pub fn cut(&mut self, rows: usize) -> Result<(), Refusal> {
        done(raw::archive_cut_block(&mut self.bytes, rows))
    }

    /// Whether layout, rows and CRC are right, whatever its number.
    pub fn is_sound(&self) -> bool {
        self.clone().cut(1).is_ok()
    }

    /// Its rows; none of a block that is not sound.
    pub fn rows(&self) -> PieceRows<'_> {
        let piece = if self.is_sound() { &self.bytes[..] } else { &[] };
        PieceRows { piece, block: 0, row: 0 }
    }
}

/// All zero: the block of no row.
impl Default for Block {
    fn default() -> Block {
        Block { bytes: [0; Archive::BLOCK] }
    }
}

/// The rows of a piece of an archive, in order.
///
/// ```
/// let mut scan = mooringeye::Scan::new();
/// assert_eq!(scan.feed_rows(&[0; 1024]).unwrap().count(), 0);
/// ```
#[derive(Clone, Debug)]
pub struct PieceRows<'a> {
    piece: &'a [u8],
    block: usize,
    row: usize,
}

impl Iterator for PieceRows<'_> {
    type Item = Row;

    fn next(&mut self) -> Option<Row> {
        while let Some(block) = self.piece.get(self.block * Archive::BLOCK..(self.block + 1) * Archive::BLOCK) {
            let (mut bytes, mut time) = ([0; raw::ROW], 0);
            if self.row < Archive::ROWS_PER_BLOCK && raw::archive_row(block, self.row, &mut bytes, &mut time) == 0 {
                self.row += 1;
                let mut frame = [0; raw::FRAME];
                frame.copy_from_slice(&bytes[1..]);
                let telegram = Telegram::of_frame(frame)?;
                return Some(Row { telegram, time, loose: bytes[0] != 0 });
            }
            self.block += 1;
            self.row = 0;
        }
        None
    }
}

/// An archive that is added to a report in pieces. If it is dropped without [`Adding::end`], the report is unchanged.
///
/// ```
/// use mooringeye::{Adding, Report};
///
/// let mut report = Report::new();
/// let mut adding = Adding::new(&mut report);
/// adding.feed(&[0; 1024]).unwrap();
/// adding.end().unwrap();
/// assert_eq!(report.archives(), 1);
/// ```
#[derive(Debug)]
pub struct Adding<'a> {
    report: &'a mut Report,
    numbers: [u64; raw::ADDING_NUMBERS],
    lines: Box<[u64; raw::REPORT_LINES]>,
}

impl<'a> Adding<'a> {
    /// Before the first piece.
    pub fn new(report: &'a mut Report) -> Adding<'a> {
        let mut adding = Adding { report, numbers: [0; raw::ADDING_NUMBERS], lines: Box::new([0; raw::REPORT_LINES]) };
        raw::report_start(&adding.report.numbers, &adding.report.lines, &mut adding.numbers, &mut adding.lines);
        adding
    }

    /// Takes the blocks of the next piece. Refused: [`Refusal::Size`], and nothing is changed.
    pub fn feed(&mut self, piece: &[u8]) -> Result<(), Refusal> {
        done(raw::report_feed(&self.report.numbers, &self.report.lines, &mut self.numbers, &mut self.lines, piece))
    }

    /// Adds what the pieces were, as one archive; what [`Report::add`] answers.
    pub fn end(self) -> Result<(), Refused> {
        let mut position = 0;
        let Adding { report, numbers, lines } = self;
        done_at(raw::report_end(&mut report.numbers, &mut report.lines, &numbers, &lines, &mut position), position)
    }
}

/// Packs the rows of sound blocks again, without those of some transmitters: salvage and removal in pieces.
///
/// ```
/// use mooringeye::{Archive, Block, Packer};
///
/// let mut block = Block::default();
/// block.put(0, &[0xD5, 0x09, 1, 2, 3, 4, 0, 0xE8], 1_000, false).unwrap();
/// let mut packer = Packer::new(&[]);
/// let (mut out, mut positions) = ([0; 512], [0; 1]);
/// packer.feed(block.as_bytes(), &mut out, &mut positions).unwrap();
/// assert_eq!(packer.rows(), 1);
/// assert_eq!(packer.end(), Some(block));
/// ```
#[derive(Clone, Debug)]
pub struct Packer {
    numbers: [u64; raw::PACKER_NUMBERS],
    waiting: [u8; raw::PACKER_BYTES],
    identities: Vec<u32>,
}

/// What [`Packer::feed`] did with a piece.
///
/// ```
/// let packed = mooringeye::Packed { written: 512, dropped: 0 };
/// assert_eq!(packed.written / mooringeye::Archive::BLOCK, 1);
/// ```
#[derive(Clone, Copy, Debug, PartialEq, Eq)]
pub struct Packed {
    /// How many bytes of the output are blocks now, from its front on.
    pub written: usize,
    /// How many blocks of the piece were not sound: their positions in it are in the front of the list.
    pub dropped: usize,
}

impl Packer {
    /// The most transmitters that are left out.
    pub const MAX_IDENTITIES: usize = 32;

    /// Before the first piece; rows of these transmitters are left out.
    pub fn new(identities: &[u32]) -> Packer {
        Packer { numbers: [0; raw::PACKER_NUMBERS], waiting: [0; raw::PACKER_BYTES], identities: identities.to_vec() }
    }

    /// Takes the sound blocks of the next piece. An output as long as the piece, and a position for each of its blocks, are enough.
    /// Refused: [`Refusal::Size`], [`Refusal::Argument`] for more than 32 transmitters, [`Refusal::ShortOutput`]; then nothing is changed.
    pub fn feed(&mut self, piece: &[u8], out: &mut [u8], positions: &mut [u64]) -> Result<Packed, Refusal> {
        let (before, mut dropped) = (self.numbers[1], 0);
        done(raw::pack_feed(&mut self.numbers, &mut self.waiting, piece, &self.identities, out, positions, &mut dropped))?;
        Ok(Packed { written: (self.numbers[1] - before) as usize * Archive::BLOCK, dropped })
    }

    /// How many rows there are, those that wait among them.
    pub fn rows(&self) -> u64 {
        Archive::ROWS_PER_BLOCK as u64 * self.numbers[1] + self.numbers[0]
    }

    /// The last block, where rows wait for one.
    pub fn end(&self) -> Option<Block> {
        let (mut block, mut length) = (Block::default(), 0);
        done(raw::pack_end(&self.numbers, &self.waiting, &mut block.bytes, &mut length)).expect("a packer's own numbers, and a block");
        (length != 0).then_some(block)
    }
}

#[cfg(test)]
mod tests {
    use super::*;

    const BLOCK: usize = Archive::BLOCK;

    fn telegram(x: usize) -> Telegram {
        Telegram::build(&crate::Fields { rorg: 0xF6, data: vec![x as u8], destid: None, txid: [0, 0, 0, (x % 40) as u8], status: 0x30 }).unwrap()
    }

    fn archive(blocks: usize, rows: usize) -> Vec<u8> {
        let mut buffer = vec![0; blocks * BLOCK];
        let mut archive = Archive::open(&mut buffer).unwrap();
        (0..rows).for_each(|i| archive.append(&Row { telegram: telegram(i), time: i as u64, loose: i % 7 == 0 }).unwrap());
        buffer
    }

    /// Archives that are right, and archives with one byte changed.
    fn archives() -> Vec<Vec<u8>> {
        let mut all: Vec<Vec<u8>> = [(0, 0), (3, 0), (1, 15), (9, 100), (9, 120), (9, 135)].map(|(blocks, rows)| archive(blocks, rows)).into();
        for at in [0, 4, 30, 511, 2 * BLOCK + 4, 6 * BLOCK + 4, 6 * BLOCK + 40, 8 * BLOCK - 1, 9 * BLOCK - 1] {
            let mut damaged = archive(9, 100);
            damaged[at] ^= 1;
            all.push(damaged);
        }
        all
    }

    /// The pieces of a buffer, of `blocks` blocks each.
    fn pieces(buffer: &[u8], blocks: usize) -> std::slice::Chunks<'_, u8> {
        buffer.chunks(blocks * BLOCK)
    }

    #[test]
    fn scans_say_what_the_whole_says() {
        for mut buffer in archives() {
            for blocks in 1..10 {
                let mut scan = Scan::new();
                pieces(&buffer, blocks).for_each(|piece| scan.feed(piece).unwrap());
                assert_eq!(scan.blocks() as usize, buffer.len() / BLOCK);
                let whole = Archive::open(&mut buffer).map(|a| a.len());
                assert_eq!(scan.end(), whole);
            }
        }
    }

    #[test]
    fn rows_of_pieces_are_those_of_the_whole() {
        let mut buffer = archive(9, 100);
        let mut scan = Scan::new();
        let in_pieces: Vec<Row> = pieces(&buffer, 2).flat_map(|piece| scan.feed_rows(piece).unwrap()).collect();
        assert!(Archive::open(&mut buffer).unwrap().rows().eq(in_pieces.iter().copied()));
        for block in 0..7 {
            let mut damaged = archive(9, 100);
            damaged[block * BLOCK + 100] ^= 1;
            let mut scan = Scan::new();
            let before: Vec<Row> = pieces(&damaged, 2).flat_map(|piece| scan.feed_rows(piece).unwrap()).collect();
            assert_eq!(before, in_pieces[..15 * block], "rows before block {block}");
        }
        assert_eq!(Scan::new().feed_rows(&[1; 700]).err(), Some(Refusal::Size));
        assert_eq!(Block::new([1; BLOCK]).rows().count(), 0);
    }

    /// What packing leaves, with the dropped positions.
    fn packed(buffer: &[u8], blocks: usize, identities: &[u32]) -> (Vec<u8>, Vec<u64>, u64) {
        let (mut packer, mut all, mut dropped, mut before) = (Packer::new(identities), Vec::new(), Vec::new(), 0);
        for piece in pieces(buffer, blocks) {
            let (mut out, mut positions) = (vec![0xEE; piece.len()], vec![0; piece.len() / BLOCK]);
            let packed = packer.feed(piece, &mut out, &mut positions).unwrap();
            all.extend(&out[..packed.written]);
            dropped.extend(positions[..packed.dropped].iter().map(|p| before + p));
            before += (piece.len() / BLOCK) as u64;
        }
        all.extend(packer.end().iter().flat_map(|b| b.as_bytes()));
        all.resize(buffer.len(), 0);
        (all, dropped, packer.rows())
    }

    #[test]
    fn salvage_in_pieces_is_that_of_the_whole() {
        for buffer in archives() {
            let whole = Archive::salvage(&buffer).unwrap();
            for blocks in 1..10 {
                assert!(packed(&buffer, blocks, &[]) == (whole.buffer.clone(), whole.dropped.clone(), whole.rows as u64));
            }
        }
    }

    #[test]
    fn removal_in_pieces_is_that_of_the_whole() {
        let mut buffer = archive(9, 120);
        let in_pieces = packed(&buffer, 2, &[3, 39, 77]);
        let mut whole = Archive::open(&mut buffer).unwrap();
        whole.remove(&[3, 39, 77]).unwrap();
        assert!(in_pieces == (whole.as_bytes().to_vec(), vec![], whole.len() as u64));
        assert_eq!(Packer::new(&[0; 33]).feed(&buffer, &mut [], &mut []), Err(Refusal::Argument));
    }

    #[test]
    fn a_report_in_pieces_is_that_of_the_whole() {
        for buffer in archives() {
            let (mut whole, mut in_pieces) = (Report::new(), Report::new());
            let mut adding = Adding::new(&mut in_pieces);
            pieces(&buffer, 4).for_each(|piece| adding.feed(piece).unwrap());
            assert_eq!(adding.end(), whole.add(&buffer));
            assert_eq!(in_pieces, whole);
        }
    }

    #[test]
    fn a_cut_block_is_that_of_its_first_rows() {
        let buffer = archive(1, 15);
        for rows in 0..=15 {
            let mut block = Block::new(buffer[..].try_into().unwrap());
            assert!(block.is_sound());
            block.cut(rows).unwrap();
            assert_eq!(block.as_bytes()[..], archive(1, rows));
            assert_eq!((block.is_blank(), block.rows().count()), (rows == 0, rows));
            assert_eq!(block.clone().cut(rows + 1), Err(Refusal::Mismatch));
        }
        assert!(!Block::new([7; BLOCK]).is_sound());
        let mut whole = archive(3, 40);
        let mut position = 0;
        assert_eq!(raw::archive_cut(&mut whole, 17, &mut position), 0);
        assert_eq!(whole, archive(3, 17));
        assert_eq!(raw::archive_cut(&mut whole, 18, &mut position), Refusal::Argument.number());
    }
}
