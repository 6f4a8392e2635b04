//! `collect_kept STATE ARCHIVE < LOG`: does what `mooringeye collect --state STATE --archive ARCHIVE` does with a log that begins with its level,
//! written by hand over the collector of `bench/collect`. It gives the same rows, and byte for byte the same archive and the same state, each on disk
//! before the rows of a batch are printed.
use collect_rust::collector::{repeat, Answer, Collector};
use collect_rust::text::{self, MAX_BYTES, MAX_LINE};
use std::fs::{self, File, OpenOptions};
use std::io::{self, Read, Write};
use std::os::unix::ffi::OsStrExt;
use std::os::unix::fs::FileExt;
use std::path::{Path, PathBuf};

const CHUNK: usize = 1 << 20;
const MAX_BATCH: usize = 16_384;
const BLOCK: usize = 512;
const CELL: usize = 32;
const CELLS: usize = 15;
/// The file of an archive has a multiple of this many blocks.
const GROWTH: u64 = 2_048;

fn main() -> io::Result<()> {
    let mut words = std::env::args_os().skip(1);
    let (Some(state), Some(archive)) = (words.next(), words.next()) else {
        panic!("collect_kept STATE ARCHIVE < LOG");
    };
    let mut run = Run::start(state.into(), Path::new(&archive))?;
    let mut input = io::stdin().lock();
    let mut buffer = vec![0; MAX_LINE + 1 + CHUNK];
    let mut carried = 0;
    loop {
        let filled = match input.read(&mut buffer[carried..carried + CHUNK])? {
            0 => break,
            n => carried + n,
        };
        let end = buffer[..filled].iter().rposition(|c| *c == b'\n').map_or(0, |at| at + 1);
        run.take(&buffer[..end])?;
        carried = (filled - end).min(MAX_LINE + 1);
        buffer.copy_within(end..end + carried, 0);
    }
    text::totals(&mut run.printed, &run.collector.totals);
    io::stdout().write_all(&run.printed)
}

struct Run {
    setting: Option<u8>,
    collector: Collector,
    lines: u64,
    /// The number of bytes that were taken, and the last 512 of them.
    offset: u64,
    tail: Vec<u8>,
    archive: Archive,
    state: PathBuf,
    name: Vec<u8>,
    printed: Vec<u8>,
}

impl Run {
    fn start(state: PathBuf, archive: &Path) -> io::Result<Run> {
        let name = archive.file_name().expect("a file").as_bytes().to_vec();
        let file = OpenOptions::new().create_new(true).write(true).open(archive)?;
        let archive = Archive { file, blocks: 0, number: 0, count: 0, block: [0; BLOCK], is_changed: false, full: Vec::new() };
        let (collector, tail, printed) = (Collector::new(), Vec::new(), Vec::new());
        Ok(Run { setting: None, collector, lines: 0, offset: 0, tail, archive, state, name, printed })
    }

    /// Takes whole lines, in batches.
    fn take(&mut self, mut text: &[u8]) -> io::Result<()> {
        let mut bytes = [0; MAX_BYTES];
        while !text.is_empty() {
            let (mut batch, before) = (MAX_BATCH, text);
            if self.setting.is_none() {
                let (line, rest) = split_line(text);
                self.setting = Some(text::setting(line).expect("a level"));
                self.lines += 1;
                text = rest;
            }
            while batch > 0 && !text.is_empty() {
                text = self.take_line(text, &mut bytes);
                batch -= 1;
                self.lines += 1;
            }
            self.pass(&before[..before.len() - text.len()]);
            self.commit()?;
        }
        Ok(())
    }

    /// Counts these bytes of the log as taken.
    fn pass(&mut self, taken: &[u8]) {
        self.offset += taken.len() as u64;
        self.tail.extend_from_slice(&taken[taken.len().saturating_sub(BLOCK)..]);
        self.tail.drain(..self.tail.len().saturating_sub(BLOCK));
    }

    #[inline]
    fn take_line<'a>(&mut self, text: &'a [u8], bytes: &mut [u8; MAX_BYTES]) -> &'a [u8] {
        let Some(line) = text::reception(text, bytes) else {
            text::bad(&mut self.printed);
            return split_line(text).1;
        };
        let bytes = &mut bytes[..line.count];
        let answer = self.collector.take(line.time, bytes);
        if let Answer::Kept | Answer::Loose = answer {
            self.archive.put(line.time, bytes, matches!(answer, Answer::Loose));
        }
        let sent = matches!(answer, Answer::Kept) && repeat(self.setting.expect("a level"), bytes);
        text::row(&mut self.printed, line.time, answer, sent.then_some(bytes));
        &text[line.used..]
    }

    /// Archive, state, rows.
    fn commit(&mut self) -> io::Result<()> {
        self.archive.sync()?;
        let new = self.state.with_extension("new");
        let mut file = File::create(&new)?;
        file.write_all(&self.image())?;
        file.sync_all()?;
        fs::rename(&new, &self.state)?;
        File::open(self.state.parent().expect("a folder"))?.sync_all()?;
        io::stdout().write_all(&self.printed)?;
        self.printed.clear();
        Ok(())
    }

    /// The state file: a header, the archive's last block, the collector's image, the log's last bytes.
    fn image(&self) -> Vec<u8> {
        let mut header = [0; BLOCK];
        header[..8].copy_from_slice(b"MOORING\x02");
        header[8..16].copy_from_slice(&self.lines.to_be_bytes());
        header[40] = self.name.len() as u8;
        header[41..41 + self.name.len()].copy_from_slice(&self.name);
        header[296] = 1;
        header[297..305].copy_from_slice(&self.offset.to_be_bytes());
        header[321..323].copy_from_slice(&(self.tail.len() as u16).to_be_bytes());
        let mut tail = [0; BLOCK];
        tail[..self.tail.len()].copy_from_slice(&self.tail);
        header[348] = crc(&tail);
        seal(&mut header);
        let mut image = [header, self.archive.block].concat();
        let totals = &self.collector.totals;
        let numbers =
            [[self.collector.latest(), totals.received], [totals.kept, totals.copies], [totals.loose, totals.damaged], [totals.late, 0], [0, 0]];
        let mut open = self.collector.open_telegrams();
        for (k, [first, second]) in numbers.into_iter().enumerate() {
            let mut block = [0; BLOCK];
            block[0] = k as u8;
            block[8..16].copy_from_slice(&first.to_be_bytes());
            block[16..24].copy_from_slice(&second.to_be_bytes());
            for (i, telegram) in open.by_ref().take(CELLS).enumerate() {
                put_cell(&mut block, i, telegram.time, telegram.bytes(), telegram.copies);
                block[1] = i as u8 + 1;
            }
            seal(&mut block);
            image.extend_from_slice(&block);
        }
        image.extend_from_slice(&tail);
        image
    }
}

/// The rows of an archive; whole blocks wait until they are written together.
struct Archive {
    file: File,
    /// The file's length in blocks.
    blocks: u64,
    /// The last block, its number and its rows.
    number: u32,
    count: usize,
    block: [u8; BLOCK],
    is_changed: bool,
    full: Vec<u8>,
}

impl Archive {
    #[inline]
    fn put(&mut self, time: u64, bytes: &[u8], loose: bool) {
        if self.count == CELLS {
            self.close();
            (self.block, self.count, self.number) = ([0; BLOCK], 0, self.number + 1);
        }
        put_cell(&mut self.block, self.count, time, bytes, u16::from(loose) << 8);
        self.count += 1;
        self.is_changed = true;
    }

    /// Seals the last block, and puts it after those that wait.
    fn close(&mut self) {
        if self.is_changed {
            self.block[..4].copy_from_slice(&self.number.to_be_bytes());
            self.block[4] = self.count as u8;
            seal(&mut self.block);
            self.full.extend_from_slice(&self.block);
            self.is_changed = false;
        }
    }

    fn sync(&mut self) -> io::Result<()> {
        self.close();
        if self.full.is_empty() {
            return Ok(());
        }
        let end = u64::from(self.number) + 1;
        if end > self.blocks {
            self.blocks = end.next_multiple_of(GROWTH);
            self.file.set_len(self.blocks * BLOCK as u64)?;
        }
        self.file.write_all_at(&self.full, end * BLOCK as u64 - self.full.len() as u64)?;
        self.full.clear();
        self.file.sync_data()
    }
}

/// An entry of an image, or a row of an archive.
#[inline]
fn put_cell(block: &mut [u8; BLOCK], at: usize, time: u64, bytes: &[u8], last: u16) {
    let cell = &mut block[24 + CELL * at..][..CELL];
    cell[..8].copy_from_slice(&time.to_be_bytes());
    cell[8] = bytes.len() as u8;
    cell[9..9 + bytes.len()].copy_from_slice(bytes);
    cell[30..].copy_from_slice(&last.to_be_bytes());
}

/// Sets the last byte to the CRC of those before it.
fn seal(block: &mut [u8; BLOCK]) {
    let (body, last) = block.split_at_mut(BLOCK - 1);
    last[0] = crc(body);
}

/// Entry b of table j is the remainder of b times x^(8 (j + 1)) by x^8 + x^2 + x + 1.
const TABLES: [[u8; 256]; 8] = tables();

const fn tables() -> [[u8; 256]; 8] {
    let mut tables = [[0; 256]; 8];
    let (mut j, mut i) = (0, 0);
    while j < 8 {
        let mut value = if j == 0 { i as u8 } else { tables[j - 1][i] };
        let mut bit = 0;
        while bit < 8 {
            value = (value << 1) ^ if value & 0x80 == 0 { 0 } else { 0x07 };
            bit += 1;
        }
        tables[j][i] = value;
        i += 1;
        if i == 256 {
            (j, i) = (j + 1, 0);
        }
    }
    tables
}

/// Eight bytes at a time.
fn crc(bytes: &[u8]) -> u8 {
    let (eights, rest) = bytes.as_chunks::<8>();
    let long = eights.iter().fold(0, |crc, [a, b, c, d, e, f, g, h]| {
        let at = |j: usize, byte: u8| TABLES[j][usize::from(byte)];
        at(7, crc ^ a) ^ at(6, *b) ^ at(5, *c) ^ at(4, *d) ^ at(3, *e) ^ at(2, *f) ^ at(1, *g) ^ at(0, *h)
    });
    rest.iter().fold(long, |crc, byte| TABLES[0][usize::from(crc ^ byte)])
}

/// The first line without its newline, and what follows it.
fn split_line(text: &[u8]) -> (&[u8], &[u8]) {
    let at = text.iter().position(|c| *c == b'\n').expect("a whole line");
    (&text[..at], &text[at + 1..])
}
