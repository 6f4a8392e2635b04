//! Archive block files.
use crate::raw;
use crate::refusal::{done, done_at, Refusal, Refused};
use crate::telegram::Telegram;

/// A row of an archive: a reception that was KEPT or LOOSE.
///
/// ```
/// use mooringeye::{Row, Telegram};
///
/// let telegram = Telegram::new(&[0xD5, 0x09, 1, 2, 3, 4, 0, 0xE8]).unwrap();
/// let row = Row { telegram, time: 1_000, loose: false };
/// assert_eq!(row.telegram.fields().txid, [1, 2, 3, 4]);
/// ```
#[derive(Clone, Copy, Debug, PartialEq, Eq, Hash)]
pub struct Row {
    /// The telegram as it was received.
    pub telegram: Telegram,
    /// When, in milliseconds.
    pub time: u64,
    /// LOOSE, and else KEPT.
    pub loose: bool,
}

/// An archive in a buffer of whole blocks of 512 bytes. An all-zero buffer is an archive of no rows.
///
/// ```
/// use mooringeye::{Archive, Row, Telegram};
///
/// # fn main() -> Result<(), Box<dyn std::error::Error>> {
/// let mut buffer = vec![0; 1024];
/// let telegram = Telegram::new(&[0xD5, 0x09, 1, 2, 3, 4, 0, 0xE8])?;
/// let mut archive = Archive::open(&mut buffer)?;
/// archive.append(&Row { telegram, time: 1_000, loose: false })?;
/// archive.append(&Row { telegram, time: 1_200, loose: true })?;
/// assert_eq!(archive.rows().map(|r| r.time).collect::<Vec<_>>(), [1_000, 1_200]);
/// assert_eq!(Archive::open(&mut buffer)?.len(), 2);
/// # Ok(())
/// # }
/// ```
#[derive(Debug)]
pub struct Archive<'a> {
    buffer: &'a mut [u8],
    rows: usize,
}

impl<'a> Archive<'a> {
    /// The bytes of a block, and the rows that one holds.
    pub const BLOCK: usize = 512;
    /// The rows of a full block.
    pub const ROWS_PER_BLOCK: usize = 15;

    /// The archive in a buffer. Refused: [`Refusal::Size`], [`Refusal::Mismatch`] with the position of the first block that does not match.
    pub fn open(buffer: &'a mut [u8]) -> Result<Archive<'a>, Refused> {
        let (mut rows, mut position) = (0, 0);
        done_at(raw::archive_verify(buffer, &mut rows, &mut position), position)?;
        Ok(Archive { buffer, rows })
    }

    /// How many rows it has.
    pub fn len(&self) -> usize {
        self.rows
    }

    /// Whether it has none.
    pub fn is_empty(&self) -> bool {
        self.rows == 0
    }

    /// All its bytes.
    pub fn as_bytes(&self) -> &[u8] {
        self.buffer
    }

    /// Appends a row; only one block is read. Refused: [`Refusal::ShortOutput`] where the buffer has no further block.
    pub fn append(&mut self, row: &Row) -> Result<(), Refusal> {
        let mut position = 0;
        let bytes = row.telegram.as_bytes();
        done(raw::archive_append_at(self.buffer, self.rows, bytes, row.time, row.loose, &mut position))?;
        self.rows += 1;
        Ok(())
    }

    /// Row `index`, from 0.
    pub fn row(&self, index: usize) -> Option<Row> {
        let (mut bytes, mut time) = ([0; raw::ROW], 0);
        if index >= self.rows {
            return None;
        }
        done(raw::archive_row(self.buffer, index, &mut bytes, &mut time)).expect("an opened archive has its rows");
        let mut frame = [0; raw::FRAME];
        frame.copy_from_slice(&bytes[1..]);
        let telegram = Telegram::of_frame(frame).expect("a row of an opened archive is valid");
        Some(Row { telegram, time, loose: bytes[0] != 0 })
    }

    /// Its rows, in order.
    pub fn rows(&self) -> Rows<'_> {
        Rows { archive: self, at: 0 }
    }

    /// Removes the rows of up to 32 transmitters, and answers how many blocks are no longer needed. Refused: [`Refusal::Argument`] for more than 32.
    ///
    /// ```
    /// use mooringeye::{Archive, Row, Telegram};
    ///
    /// let mut buffer = [0; 512];
    /// let mut archive = Archive::open(&mut buffer).unwrap();
    /// let telegram = Telegram::new(&[0xD5, 0x09, 1, 2, 3, 4, 0, 0xE8]).unwrap();
    /// archive.append(&Row { telegram, time: 1_000, loose: false }).unwrap();
    /// assert_eq!(archive.remove(&[0x0102_0304]), Ok(1));
    /// assert!(archive.is_empty());
    /// ```
    pub fn remove(&mut self, identities: &[u32]) -> Result<usize, Refusal> {
        let (mut freed, mut position) = (0, 0);
        done(raw::archive_remove(self.buffer, identities, &mut freed, &mut position))?;
        done(raw::archive_verify(self.buffer, &mut self.rows, &mut position)).expect("what removal leaves is an archive");
        Ok(freed)
    }

    /// The rows of the sound blocks of a damaged archive, packed again. Refused: [`Refusal::Size`].
    pub fn salvage(damaged: &[u8]) -> Result<Salvaged, Refusal> {
        let mut buffer = vec![0; damaged.len()];
        let mut dropped = vec![0; damaged.len() / Archive::BLOCK];
        let (mut count, mut rows) = (0, 0);
        done(raw::archive_salvage(damaged, &mut buffer, &mut dropped, &mut count, &mut rows))?;
        dropped.truncate(count);
        Ok(Salvaged { buffer, dropped, rows })
    }
}

/// What [`Archive::salvage`] saved.
///
/// ```
/// use mooringeye::Archive;
///
/// let mut damaged = vec![0; 1024];
/// damaged[512] = 7;
/// let mut saved = Archive::salvage(&damaged).unwrap();
/// assert_eq!((saved.rows, &saved.dropped[..]), (0, &[1][..]));
/// assert!(Archive::open(&mut saved.buffer).unwrap().is_empty());
/// ```
#[derive(Clone, Debug, PartialEq, Eq)]
pub struct Salvaged {
    /// An archive of the rows that remain, as long as what was handed in.
    pub buffer: Vec<u8>,
    /// The positions of the blocks that were dropped, rising.
    pub dropped: Vec<u64>,
    /// How many rows remain.
    pub rows: usize,
}

/// The rows of an archive, in order.
///
/// ```
/// let mut buffer = [0; 512];
/// let archive = mooringeye::Archive::open(&mut buffer).unwrap();
/// assert_eq!(archive.rows().count(), 0);
/// ```
#[derive(Clone, Debug)]
pub struct Rows<'a> {
    archive: &'a Archive<'a>,
    at: usize,
}

impl Iterator for Rows<'_> {
    type Item = Row;

    fn next(&mut self) -> Option<Row> {
        let row = self.archive.row(self.at)?;
        self.at += 1;
        Some(row)
    }

    fn size_hint(&self) -> (usize, Option<usize>) {
        let left = self.archive.rows - self.at;
        (left, Some(left))
    }
}

impl ExactSizeIterator for Rows<'_> {}

#[cfg(test)]
mod tests {
    use super::*;

    fn row(time: u64) -> Row {
        let telegram = Telegram::new(&[0xD5, 0x09, 1, 2, 3, 4, 0, 0xE8]).unwrap();
        Row { telegram, time, loose: time % 2 == 1 }
    }

    /// This many blocks, with rows at the times from 0 on.
    fn filled(blocks: usize, rows: u64) -> Vec<u8> {
        let mut buffer = vec![0; blocks * Archive::BLOCK];
        let mut archive = Archive::open(&mut buffer).unwrap();
        (0..rows).for_each(|i| archive.append(&row(i)).unwrap());
        buffer
    }

    #[test]
    fn fills_and_refuses() {
        let mut buffer = filled(2, 30);
        let mut archive = Archive::open(&mut buffer).unwrap();
        let before = archive.as_bytes().to_vec();
        assert_eq!(archive.append(&row(30)), Err(Refusal::ShortOutput));
        assert_eq!(archive.as_bytes(), before);
        assert_eq!(archive.rows().len(), 30);
        assert!(archive.rows().eq((0..30).map(row)));
        assert_eq!(archive.row(30), None);
    }

    #[test]
    fn sizes() {
        for n in [1, 511, 513] {
            let refused = Archive::open(&mut vec![0; n]).unwrap_err();
            assert_eq!((refused.why, refused.position), (Refusal::Size, 0));
            assert_eq!(Archive::salvage(&vec![0; n]), Err(Refusal::Size));
        }
        assert!(Archive::open(&mut []).unwrap().is_empty());
        assert_eq!(Archive::open(&mut []).unwrap().append(&row(0)), Err(Refusal::ShortOutput));
        assert_eq!(Archive::salvage(&[]).unwrap().rows, 0);
    }

    #[test]
    fn removes() {
        let mut buffer = filled(2, 20);
        let mut archive = Archive::open(&mut buffer).unwrap();
        assert_eq!(archive.remove(&[0; 33]), Err(Refusal::Argument));
        assert_eq!(archive.remove(&[7; 32]), Ok(0));
        assert_eq!(archive.len(), 20);
        assert_eq!(archive.remove(&[0x0102_0304]), Ok(2));
        assert!(archive.as_bytes().iter().all(|b| *b == 0));
        assert_eq!(archive.remove(&[]), Ok(0));
    }

    #[test]
    fn salvages() {
        let mut buffer = filled(4, 45);
        buffer[600] ^= 1;
        let mut saved = Archive::salvage(&buffer).unwrap();
        assert_eq!((saved.rows, &saved.dropped[..]), (30, &[1][..]));
        let archive = Archive::open(&mut saved.buffer).unwrap();
        assert!(archive.rows().eq((0..15).chain(30..45).map(row)));
    }
}
