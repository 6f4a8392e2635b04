//! Appends rows to one archive file. The rows of a block are put into it together, so its CRC is computed once. Full blocks wait until they are
//! written together, in one aligned write.
use crate::disk::{Disk, Handle};
use crate::failure::Failure;
use crate::files::{self, Pieces};
use crate::journal::{RECORD, ROWS};
use mooringeye::{Archive, Block};
use std::io;
use std::path::{Path, PathBuf};

pub const BLOCK: u64 = Archive::BLOCK as u64;
/// The bytes of a frame: a length and 21 bytes.
pub const FRAME: usize = RECORD - 1;
/// The largest number of blocks in an archive.
pub const MAX_BLOCKS: u64 = 1 << 32;
/// A file grows by zeros to a multiple of this many blocks, so it is an archive at every moment.
pub const GROWTH: u64 = 2_048;
/// The largest number of bytes of full blocks that wait.
const MOST_WAITING: usize = 1 << 20;

/// The largest number of blocks in a file, and by how many it grows.
#[derive(Clone, Copy)]
pub struct Size {
    pub limit: u64,
    pub growth: u64,
}

pub struct Appender {
    path: PathBuf,
    file: Box<dyn Handle>,
    /// The file's length in blocks.
    blocks: u64,
    size: Size,
    rows: u64,
    /// The block with the last row; all zero if there is none.
    last: Block,
    /// Whether rows were put into the last block since it was written.
    is_changed: bool,
    /// The full blocks before it that are not written yet.
    full: Vec<u8>,
    /// Whether something was written since the last sync.
    is_unsynced: bool,
}

impl Appender {
    /// Opens the file, before its rows are known. Bytes after its last whole block do not count.
    pub fn over(file: Box<dyn Handle>, path: &Path, size: Size) -> Result<Appender, Failure> {
        let facts = file.facts().map_err(|e| Failure::of(format!("read {}", path.display()), &e))?;
        if !facts.is_file {
            return Err(Failure::Failed(format!("cannot open {}: it is not a file", path.display())));
        }
        let (blocks, last) = (facts.length / BLOCK, Block::default());
        Ok(Appender { path: path.into(), file, blocks, size, rows: 0, last, is_changed: false, full: Vec::new(), is_unsynced: false })
    }

    /// Positions after all rows of a file of whole blocks.
    pub fn behind_all(file: impl Into<Box<dyn Handle>>, path: &Path, limit: u64) -> Result<Appender, Failure> {
        Appender::behind_all_of(file.into(), path, Size { limit, growth: GROWTH })
    }

    pub fn behind_all_of(file: Box<dyn Handle>, path: &Path, size: Size) -> Result<Appender, Failure> {
        files::blocks_of(&*file, path)?;
        let mut appender = Appender::over(file, path, size)?;
        let rows = appender.scan(appender.blocks)?;
        let last = if rows > 0 { appender.read_block((rows - 1) / ROWS)? } else { Block::default() };
        appender.stand_behind(rows, last);
        Ok(appender)
    }

    /// Positions after this many rows; the last of them is in this block.
    pub fn stand_behind(&mut self, rows: u64, last: Block) {
        (self.rows, self.last) = (rows, last);
    }

    pub fn path(&self) -> &Path {
        &self.path
    }

    pub fn rows(&self) -> u64 {
        self.rows
    }

    pub fn blocks(&self) -> u64 {
        self.blocks
    }

    /// The block with the last row; all zero if there is none.
    pub fn last(&self) -> &Block {
        &self.last
    }

    /// How many more rows it can have.
    pub fn room(&self) -> u64 {
        (ROWS * self.size.limit).saturating_sub(self.rows)
    }

    fn cannot(&self, verb: &str, error: &io::Error) -> Failure {
        Failure::of(format!("{verb} {}", self.path.display()), error)
    }

    /// The blocks from this one on, in pieces.
    pub fn pieces(&self, from: u64) -> Pieces<'_> {
        Pieces::of(&*self.file, &self.path, from, self.blocks.max(from))
    }

    pub fn pieces_to(&self, from: u64, to: u64) -> Pieces<'_> {
        Pieces::of(&*self.file, &self.path, from, to)
    }

    /// The bytes after the last whole block.
    pub fn odd_end(&self) -> Result<Vec<u8>, Failure> {
        let length = self.file.facts().map_err(|e| self.cannot("read", &e))?.length;
        let mut bytes = vec![0; length.saturating_sub(self.blocks * BLOCK) as usize];
        self.file.read_all_at(&mut bytes, self.blocks * BLOCK).map_err(|e| self.cannot("read", &e))?;
        Ok(bytes)
    }

    pub fn cut_odd_end(&mut self) -> Result<(), Failure> {
        self.is_unsynced = true;
        self.file.set_length(self.blocks * BLOCK).map_err(|e| self.cannot("write", &e))
    }

    /// How many rows its first blocks have, as an archive.
    pub fn scan(&self, blocks: u64) -> Result<u64, Failure> {
        let scan = files::scan(self.pieces_to(0, blocks))?;
        let rows = scan.end().map_err(|refused| Failure::refused_at(self.path.display(), refused))?;
        Ok(rows as u64)
    }

    pub fn read_block(&self, position: u64) -> Result<Block, Failure> {
        let mut bytes = [0; Archive::BLOCK];
        self.file.read_all_at(&mut bytes, position * BLOCK).map_err(|e| self.cannot("read", &e))?;
        Ok(Block::new(bytes))
    }

    /// One aligned write: a killed process leaves the old block or the new one.
    pub fn write_block(&mut self, block: &Block, position: u64) -> Result<(), Failure> {
        self.is_unsynced = true;
        self.file.write_at(block.as_bytes(), position * BLOCK).map_err(|e| self.cannot("write", &e))
    }

    /// Writes zeros over blocks that nobody counts.
    pub fn clear(&mut self, from: u64, to: u64) -> Result<(), Failure> {
        self.is_unsynced |= from < to;
        let zeros = vec![0; ((to - from) * BLOCK).min(MOST_WAITING as u64) as usize];
        let mut at = from * BLOCK;
        while at < to * BLOCK {
            let part = &zeros[..zeros.len().min((to * BLOCK - at) as usize)];
            self.file.write_at(part, at).map_err(|e| self.cannot("write", &e))?;
            at += part.len() as u64;
        }
        Ok(())
    }

    /// Appends a row; a frame has the telegram.
    pub fn append(&mut self, frame: &[u8; FRAME], time: u64, loose: bool) -> Result<(), Failure> {
        let mut record = [0; RECORD];
        record[0] = loose.into();
        record[1..].copy_from_slice(frame);
        self.append_rows(&[time], &record)
    }

    /// Appends rows, for which there is room.
    pub fn append_rows(&mut self, times: &[u64], records: &[u8]) -> Result<(), Failure> {
        self.put_rows(times, records, true)
    }

    /// Counts rows that are in the file already.
    pub fn pass_rows(&mut self, times: &[u64], records: &[u8]) -> Result<(), Failure> {
        debug_assert!(!self.is_changed && self.full.is_empty());
        self.put_rows(times, records, false)
    }

    /// Puts the rows that fit into a block at once, one block after the other.
    fn put_rows(&mut self, times: &[u64], records: &[u8], is_new: bool) -> Result<(), Failure> {
        let mut at = 0;
        while at < times.len() {
            if self.rows.is_multiple_of(ROWS) {
                self.begin_block()?;
            }
            let end = times.len().min(at + (ROWS - self.rows % ROWS) as usize);
            let put = self.last.put_rows(self.rows as usize, &times[at..end], &records[RECORD * at..RECORD * end]);
            put.map_err(|refused| Failure::refused_at(self.path.display(), refused))?;
            self.rows += (end - at) as u64;
            (at, self.is_changed) = (end, is_new);
        }
        Ok(())
    }

    /// Begins a block: after a full one, or the first one.
    fn begin_block(&mut self) -> Result<(), Failure> {
        self.keep_last();
        if self.full.len() >= MOST_WAITING {
            self.write_before(self.rows / ROWS)?;
        }
        self.last = Block::default();
        Ok(())
    }

    fn keep_last(&mut self) {
        if self.is_changed {
            self.full.extend_from_slice(self.last.as_bytes());
            self.is_changed = false;
        }
    }

    /// Writes all rows that the file does not have yet.
    pub fn write(&mut self) -> Result<(), Failure> {
        self.keep_last();
        self.write_before(self.rows.div_ceil(ROWS))
    }

    /// Writes the blocks that wait, which are before this position, in one write. A killed process leaves the first of them; each block is the old
    /// one or the new one.
    fn write_before(&mut self, end: u64) -> Result<(), Failure> {
        if self.full.is_empty() {
            return Ok(());
        }
        self.is_unsynced = true;
        if end > self.blocks {
            let blocks = end.next_multiple_of(self.size.growth).min(self.size.limit).max(end);
            self.file.set_length(blocks * BLOCK).map_err(|e| self.cannot("write", &e))?;
            self.blocks = blocks;
        }
        let start = end * BLOCK - self.full.len() as u64;
        self.file.write_at(&self.full, start).map_err(|e| self.cannot("write", &e))?;
        self.full.clear();
        Ok(())
    }

    /// Writes what waits, and returns when it would survive a power cut.
    pub fn sync(&mut self) -> Result<(), Failure> {
        self.write()?;
        if self.is_unsynced {
            self.file.sync().map_err(|e| self.cannot("sync", &e))?;
            self.is_unsynced = false;
        }
        Ok(())
    }

    /// Checks that the path still names this file, and that the file is as long as it was made.
    pub fn notice(&self, disk: &dyn Disk) -> Result<(), Failure> {
        let shown = self.path.display();
        let mine = self.file.facts().map_err(|e| self.cannot("read", &e))?;
        let lost = |what: String| Failure::Damaged(format!("{shown} {what} while it was being written. Put it back, or use --adopt-archive."));
        match disk.facts(&self.path).map_err(|e| self.cannot("read", &e))? {
            None => Err(lost("was removed or renamed".into())),
            Some(named) if !named.is_same(&mine) => Err(lost("was replaced by another file".into())),
            Some(_) if mine.length != self.blocks * BLOCK => Err(lost(format!("was changed from {} to {} bytes", self.blocks * BLOCK, mine.length))),
            Some(_) => Ok(()),
        }
    }
}

#[cfg(test)]
mod tests {
    use super::*;
    use std::fs::{self, OpenOptions};

    const PRESS: [u8; 8] = [0xD5, 0x09, 1, 2, 3, 4, 0, 0xE8];

    /// The blocks of this many rows, put one after the other.
    fn one_by_one(rows: u64) -> Vec<u8> {
        let mut bytes = Vec::new();
        let mut block = Block::default();
        for n in 0..rows {
            if n > 0 && n % ROWS == 0 {
                bytes.extend_from_slice(block.as_bytes());
                block = Block::default();
            }
            block.put(n as usize, &PRESS, 7 * n, n % 3 == 0).unwrap();
        }
        bytes.extend_from_slice(block.as_bytes());
        bytes
    }

    #[test]
    fn rows_that_waited_stand_as_those_put_one_by_one() {
        let path = std::env::temp_dir().join(format!("mooringeye-appender-{}", std::process::id()));
        let open = || OpenOptions::new().create(true).truncate(false).read(true).write(true).open(&path).unwrap();
        let mut record = [0; RECORD];
        record[1] = 8;
        record[2..10].copy_from_slice(&PRESS);
        let mut appender = Appender::behind_all(open(), &path, MAX_BLOCKS).unwrap();
        // After row 2,000, more than 2,048 full blocks wait: the first of them are written before the end.
        let (mut times, mut records) = (Vec::new(), Vec::new());
        for n in 0..40_000 {
            record[0] = u8::from(n % 3 == 0);
            times.push(7 * n);
            records.extend_from_slice(&record);
            if [0, 1, 14, 15, 20, 29, 44, 100, 1_999].contains(&n) {
                appender.append_rows(&times, &records).unwrap();
                (times, records) = (Vec::new(), Vec::new());
                appender.write().unwrap();
                let expected = one_by_one(n + 1);
                assert!(fs::read(&path).unwrap().starts_with(&expected), "row {n}");
                assert!(expected.ends_with(appender.last().as_bytes()));
                appender = Appender::behind_all(open(), &path, MAX_BLOCKS).unwrap();
                assert_eq!(appender.rows(), n + 1);
            }
        }
        appender.append_rows(&times, &records).unwrap();
        appender.sync().unwrap();
        let (written, expected) = (fs::read(&path).unwrap(), one_by_one(40_000));
        fs::remove_file(&path).unwrap();
        assert!(written.starts_with(&expected) && written[expected.len()..].iter().all(|b| *b == 0));
        assert_eq!(written.len() as u64 % (GROWTH * BLOCK), 0);
    }
}
