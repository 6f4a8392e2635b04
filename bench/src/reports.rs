//! A whole archive is added to an empty report: it is opened, and its rows are counted by transmitter.
use crate::archive::{open, BLOCK, NUMBER};
use crate::{report as print, time, Random};

extern "C" {
    fn report_bench_add(buffer: *const u8, len: usize) -> u64;
    fn report_bench_pieces(buffer: *const u8, len: usize) -> u64;
}

fn proved(buffer: &[u8]) -> u64 {
    unsafe { report_bench_add(buffer.as_ptr(), buffer.len()) }
}

/// The same in two pieces.
fn in_pieces(buffer: &[u8]) -> u64 {
    unsafe { report_bench_pieces(buffer.as_ptr(), buffer.len()) }
}

// ---- by hand

#[derive(Clone, Copy)]
struct Line {
    identity: u32,
    kept: u64,
    loose: u64,
    earliest: u64,
    latest: u64,
}

fn by_hand(buffer: &[u8]) -> u64 {
    let rows = open(buffer);
    if rows >= NUMBER {
        return rows / NUMBER * NUMBER;
    }
    let mut lines: Vec<Line> = Vec::with_capacity(256);
    let (mut kept, mut loose) = (0u64, 0u64);
    for block in buffer.chunks_exact(BLOCK) {
        for cell in block[24..24 + 32 * usize::from(block[4])].chunks_exact(32) {
            let n = usize::from(cell[8]);
            let identity = u32::from_be_bytes(cell[3 + n..7 + n].try_into().unwrap());
            let time = u64::from_be_bytes(cell[..8].try_into().unwrap());
            let is_loose = u64::from(cell[30]);
            kept += 1 - is_loose;
            loose += is_loose;
            match lines.binary_search_by_key(&identity, |l| l.identity) {
                Ok(i) => {
                    let l = &mut lines[i];
                    l.kept += 1 - is_loose;
                    l.loose += is_loose;
                    l.earliest = l.earliest.min(time);
                    l.latest = l.latest.max(time);
                }
                Err(_) if lines.len() == 256 => return 17 * NUMBER,
                Err(i) => {
                    let (kept, loose) = (1 - is_loose, is_loose);
                    lines.insert(
                        i,
                        Line {
                            identity,
                            kept,
                            loose,
                            earliest: time,
                            latest: time,
                        },
                    );
                }
            }
        }
    }
    std::hint::black_box(&lines);
    ((lines.len() as u64) << 40) + kept + loose
}

fn row(random: &mut Random, transmitters: u64) -> [u8; 32] {
    let mut cell = [0; 32];
    cell[..8].copy_from_slice(&random.next().to_be_bytes());
    cell[8] = 8;
    cell[9..11].copy_from_slice(&[0xD5, 9]);
    let id = (random.next() % transmitters) as u32;
    cell[11..15].copy_from_slice(&id.wrapping_mul(0x9E37_79B1).to_be_bytes());
    cell[16] = cell[9..16].iter().fold(0u8, |sum, b| sum.wrapping_add(*b));
    cell[30] = random.next().is_multiple_of(4) as u8;
    cell
}

/// Full blocks with rows of this many transmitters.
fn archive(blocks: usize, transmitters: u64) -> Vec<u8> {
    let mut random = Random::new();
    let mut buffer = Vec::new();
    for k in 0..blocks {
        let mut block = [0u8; BLOCK];
        block[..4].copy_from_slice(&(k as u32).to_be_bytes());
        block[4] = 15;
        for i in 0..15 {
            block[24 + 32 * i..56 + 32 * i].copy_from_slice(&row(&mut random, transmitters));
        }
        block[511] = crate::archive::crc_by_eight(&block[..511]);
        buffer.extend(block);
    }
    buffer
}

pub fn bench() {
    const BLOCKS: usize = 2000;
    for transmitters in [8, 200] {
        let buffer = archive(BLOCKS, transmitters);
        assert_eq!(proved(&buffer), by_hand(&buffer), "both say the same");
        assert_eq!(in_pieces(&buffer), by_hand(&buffer), "in pieces too");
        let of = |f: fn(&[u8]) -> u64| {
            time(BLOCKS, || {
                assert!(std::hint::black_box(f(&buffer)) < NUMBER)
            })
        };
        print(
            &format!("archive added to a report, a full block, {transmitters} transmitters"),
            of(proved),
            of(by_hand),
        );
        print(
            &format!("the same in two pieces, {transmitters} transmitters"),
            of(in_pieces),
            of(by_hand),
        );
    }
}
