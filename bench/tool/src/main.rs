//! `archives make FILE ROWS`, `list FILE`, `salvage FILE NEW`, `sheet FILE`: the same work as `mooringeye archive`, written by hand, in pieces of 1
//! MiB, with the CRC of each block computed byte by byte.
use collect_rust::hash::{crc, renew};
use std::collections::BTreeMap;
use std::fs::File;
use std::io::{self, BufWriter, Read, Write};

const BLOCK: usize = 512;
const PIECE: usize = 1 << 20;
const ROWS: usize = 15;

fn main() -> io::Result<()> {
    let words: Vec<String> = std::env::args().skip(1).collect();
    let words: Vec<&str> = words.iter().map(String::as_str).collect();
    match words[..] {
        ["make", file, rows] => make(file, rows.parse().expect("a number of rows")),
        ["list", file] => list(file),
        ["salvage", file, new] => salvage(file, new),
        ["sheet", file] => sheet(file),
        _ => panic!("archives make|list|salvage|sheet FILE .."),
    }
}

/// Every block of a file, with its position.
fn each_block(file: &str, mut take: impl FnMut(usize, &[u8]) -> io::Result<()>) -> io::Result<()> {
    let mut file = File::open(file)?;
    let mut piece = vec![0; PIECE];
    let mut position = 0;
    loop {
        let mut filled = 0;
        while filled < PIECE {
            match file.read(&mut piece[filled..])? {
                0 => break,
                n => filled += n,
            }
        }
        if filled == 0 {
            return Ok(());
        }
        for block in piece[..filled].chunks_exact(BLOCK) {
            take(position, block)?;
            position += 1;
        }
    }
}

/// The rows of a block: time, bytes, whether LOOSE. None if its CRC or its count is wrong.
fn rows(block: &[u8]) -> Option<impl Iterator<Item = (u64, &[u8], bool)>> {
    let count = usize::from(block[4]);
    let is_right = crc(&block[..BLOCK - 1]) == block[BLOCK - 1] && (1..=ROWS).contains(&count);
    let cells = block[24..].chunks_exact(32).take(count);
    let is_right = is_right && cells.clone().all(|cell| (8..=21).contains(&cell[8]));
    is_right.then(|| cells.map(|cell| (u64::from_be_bytes(cell[..8].try_into().unwrap()), &cell[9..9 + usize::from(cell[8])], cell[30] == 1)))
}

fn is_zero(block: &[u8]) -> bool {
    block.iter().fold(0, |any, b| any | b) == 0
}

/// The rows of the blocks of an archive; a block that does not match ends the program.
fn each_row(file: &str, mut take: impl FnMut(u64, &[u8], bool)) -> io::Result<()> {
    each_block(file, |position, block| {
        if !is_zero(block) {
            assert_eq!(block[..4], (position as u32).to_be_bytes(), "block {position}");
            rows(block).unwrap_or_else(|| panic!("block {position}")).for_each(|(time, bytes, loose)| take(time, bytes, loose));
        }
        Ok(())
    })
}

fn list(file: &str) -> io::Result<()> {
    const HEX: &[u8; 16] = b"0123456789ABCDEF";
    let mut out = BufWriter::with_capacity(PIECE, io::stdout().lock());
    let mut line = Vec::new();
    each_row(file, |time, bytes, loose| {
        line.clear();
        write!(line, "{time} {} ", if loose { "LOOSE" } else { "KEPT" }).expect("memory");
        bytes.iter().for_each(|b| line.extend([HEX[usize::from(b >> 4)], HEX[usize::from(b & 15)]]));
        line.push(b'\n');
        out.write_all(&line).expect("standard output");
    })?;
    out.flush()
}

/// Rows packed into blocks.
struct Packer<W: Write> {
    out: W,
    block: [u8; BLOCK],
    number: u32,
    count: usize,
}

impl<W: Write> Packer<W> {
    fn of(out: W) -> Packer<W> {
        Packer { out, block: [0; BLOCK], number: 0, count: 0 }
    }

    fn put(&mut self, time: u64, bytes: &[u8], loose: bool) -> io::Result<()> {
        let cell = &mut self.block[24 + 32 * self.count..][..32];
        cell[..8].copy_from_slice(&time.to_be_bytes());
        cell[8] = bytes.len() as u8;
        cell[9..9 + bytes.len()].copy_from_slice(bytes);
        cell[30] = u8::from(loose);
        self.count += 1;
        if self.count == ROWS {
            self.flush()?;
        }
        Ok(())
    }

    fn flush(&mut self) -> io::Result<()> {
        if self.count > 0 {
            self.block[..4].copy_from_slice(&self.number.to_be_bytes());
            self.block[4] = self.count as u8;
            self.block[BLOCK - 1] = crc(&self.block[..BLOCK - 1]);
            self.out.write_all(&self.block)?;
            (self.block, self.count) = ([0; BLOCK], 0);
            self.number += 1;
        }
        Ok(())
    }
}

fn salvage(file: &str, new: &str) -> io::Result<()> {
    let out = File::create(new)?;
    let mut packer = Packer::of(BufWriter::with_capacity(PIECE, &out));
    each_block(file, |position, block| match rows(block) {
        Some(mut rows) => rows.try_for_each(|(time, bytes, loose)| packer.put(time, bytes, loose)),
        None if is_zero(block) => Ok(()),
        None => writeln!(io::stdout(), "DROPPED {position}"),
    })?;
    packer.flush()?;
    packer.out.flush()?;
    out.set_len(std::fs::metadata(file)?.len())?;
    out.sync_all()
}

fn sheet(file: &str) -> io::Result<()> {
    let mut lines: BTreeMap<[u8; 4], [u64; 4]> = BTreeMap::new();
    each_row(file, |time, bytes, loose| {
        let id = bytes[bytes.len() - 6..bytes.len() - 2].try_into().expect("four bytes");
        let line = lines.entry(id).or_insert([0, 0, u64::MAX, 0]);
        line[usize::from(loose)] += 1;
        (line[2], line[3]) = (line[2].min(time), line[3].max(time));
    })?;
    let mut out = BufWriter::new(io::stdout().lock());
    writeln!(out, "txid,kept,loose,earliest,latest,share")?;
    let mut total = [0, 0, u64::MAX, 0];
    for (id, [kept, loose, earliest, latest]) in lines {
        writeln!(out, "{:08X},{kept},{loose},{earliest},{latest},", u32::from_be_bytes(id))?;
        total = [total[0] + kept, total[1] + loose, total[2].min(earliest), total[3].max(latest)];
    }
    writeln!(out, "TOTAL,{},{},{},{},", total[0], total[1], total[2], total[3])
}

/// Rows of 200 transmitters, every hundredth LOOSE.
fn make(file: &str, rows: u64) -> io::Result<()> {
    let mut packer = Packer::of(BufWriter::with_capacity(PIECE, File::create(file)?));
    for i in 0..rows {
        let mut bytes = vec![0xA5, i as u8, (i >> 8) as u8, (i >> 16) as u8, 8, 5, 1, (i * 7 % 20) as u8, (i * 13 % 10) as u8, 0, 0];
        renew(&mut bytes);
        packer.put(1_767_225_600_000 + 3_200 * i, &bytes, i % 100 == 0)?;
    }
    packer.flush()?;
    packer.out.flush()
}
