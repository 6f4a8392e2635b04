//! Salvage of a damaged archive and removal of sensors, compared with Rust of the same loops, with the same test of a block and the same CRC.
use crate::archive::{
    crc_by_eight, is_zero, open, proved_open, rows_of, telegram, BLOCK, NUMBER, ROWS,
};
use crate::{report, time, Random};
use collect_rust::hash::hash;
use std::hint::black_box;

// A slice passes as a pointer and a length. Nothing checks this line against the Rattle source.
extern "C" {
    fn repack_bench_salvage(
        buffer: *const u8,
        len: usize,
        out: *mut u8,
        out_len: usize,
        positions: *mut u64,
        count: usize,
    ) -> u64;
    fn repack_bench_remove(
        buffer: *mut u8,
        len: usize,
        identities: *const u32,
        count: usize,
    ) -> u64;
}

const BLOCKS: usize = 64;

fn proved(buffer: &[u8], out: &mut [u8], positions: &mut [u64]) -> u64 {
    let (at, len) = (positions.as_mut_ptr(), positions.len());
    unsafe {
        repack_bench_salvage(
            buffer.as_ptr(),
            buffer.len(),
            out.as_mut_ptr(),
            out.len(),
            at,
            len,
        )
    }
}

fn proved_remove(buffer: &mut [u8], identities: &[u32]) -> u64 {
    unsafe {
        repack_bench_remove(
            buffer.as_mut_ptr(),
            buffer.len(),
            identities.as_ptr(),
            identities.len(),
        )
    }
}

// ---- by hand

fn put_block(block: &mut [u8], k: usize, cells: &[u8]) {
    let end = 24 + cells.len();
    block[..4].copy_from_slice(&(k as u32).to_be_bytes());
    block[4] = (cells.len() / 32) as u8;
    block[5..24].fill(0);
    block[24..end].copy_from_slice(cells);
    block[end..511].fill(0);
    block[511] = crc_by_eight(&block[..511]);
}

fn is_dropped(block: &[u8]) -> bool {
    rows_of(block) == 0 && !is_zero(block)
}

/// How many rows remain; 0 for a refusal.
fn salvage(buffer: &[u8], out: &mut [u8], positions: &mut [u64]) -> u64 {
    let blocks = buffer.len() / BLOCK;
    if !buffer.len().is_multiple_of(BLOCK) || blocks > 1 << 32 || out.len() < buffer.len() {
        return 0;
    }
    if positions.len() < blocks
        && positions.len() < buffer.chunks_exact(BLOCK).filter(|b| is_dropped(b)).count()
    {
        return 0;
    }
    let (mut pending, mut used, mut next, mut gone) = ([0u8; 960], 0, 0, 0);
    for (k, block) in buffer.chunks_exact(BLOCK).enumerate() {
        let n = rows_of(block);
        if n == 0 && !is_zero(block) {
            positions[gone] = k as u64;
            gone += 1;
        }
        pending[32 * used..32 * (used + n)].copy_from_slice(&block[24..24 + 32 * n]);
        used += n;
        if used >= ROWS {
            put_block(
                &mut out[BLOCK * next..BLOCK * (next + 1)],
                next,
                &pending[..480],
            );
            pending.copy_within(480..960, 0);
            used -= ROWS;
            next += 1;
        }
    }
    let mut at = BLOCK * next;
    if used > 0 {
        put_block(&mut out[at..at + BLOCK], next, &pending[..32 * used]);
        at += BLOCK;
    }
    out[at..buffer.len()].fill(0);
    (ROWS * next + used) as u64
}

/// How many blocks are freed; 2^64 - 1 for a refusal.
fn remove(buffer: &mut [u8], identities: &[u32]) -> u64 {
    let rows = open(buffer);
    if rows >= NUMBER || identities.len() > 32 {
        return u64::MAX;
    }
    remove_from(buffer, rows as usize, identities)
}

/// The same for an archive of `rows` rows, in place from left to right.
fn remove_from(buffer: &mut [u8], rows: usize, identities: &[u32]) -> u64 {
    let blocks = rows.div_ceil(ROWS);
    let (mut pending, mut used, mut next) = ([0u8; 960], 0, 0);
    for k in 0..blocks {
        let block = &buffer[BLOCK * k..BLOCK * (k + 1)];
        for cell in block[24..504].chunks_exact(32).take(block[4].into()) {
            let end = 9 + usize::from(cell[8]);
            let identity = u32::from_be_bytes(cell[end - 6..end - 2].try_into().unwrap());
            if !identities.contains(&identity) {
                pending[32 * used..32 * (used + 1)].copy_from_slice(cell);
                used += 1;
            }
        }
        if used >= ROWS {
            put_block(
                &mut buffer[BLOCK * next..BLOCK * (next + 1)],
                next,
                &pending[..480],
            );
            pending.copy_within(480..960, 0);
            used -= ROWS;
            next += 1;
        }
    }
    if used > 0 {
        put_block(
            &mut buffer[BLOCK * next..BLOCK * (next + 1)],
            next,
            &pending[..32 * used],
        );
        next += 1;
    }
    buffer[BLOCK * next..BLOCK * blocks].fill(0);
    (blocks - next) as u64
}

// ---- the runs

/// Blocks with these counts of rows in turn, one of them damaged.
fn damaged(random: &mut Random, counts: &[usize]) -> Vec<u8> {
    let mut buffer = vec![0; BLOCK * BLOCKS];
    for (k, block) in buffer.chunks_exact_mut(BLOCK).enumerate() {
        let mut cells = vec![0; 32 * counts[k % counts.len()]];
        for (i, cell) in cells.chunks_exact_mut(32).enumerate() {
            let bytes = telegram(random);
            cell[..8].copy_from_slice(&random.next().to_be_bytes());
            cell[8] = bytes.len() as u8;
            cell[9..9 + bytes.len()].copy_from_slice(&bytes);
            cell[30] = (i % 2) as u8;
        }
        put_block(block, k, &cells);
    }
    buffer[BLOCK * 5 + 100] ^= 1;
    buffer
}

pub fn bench() {
    salvages();
    removals();
}

fn salvages() {
    let mut random = Random::new();
    for (what, counts) in [
        ("full blocks", &[ROWS][..]),
        ("15, 14, 3 and 1 rows", &[15, 14, 3, 1]),
    ] {
        let buffer = damaged(&mut random, counts);
        for (walks, len) in [("one walk", BLOCKS), ("two walks", 1)] {
            let (mut out, mut list) = (vec![1; buffer.len()], vec![0; len]);
            let (mut out2, mut list2) = (out.clone(), list.clone());
            assert_eq!(
                proved(&buffer, &mut out, &mut list),
                salvage(&buffer, &mut out2, &mut list2)
            );
            assert_eq!((&out, &list), (&out2, &list2));
            let first = time(BLOCKS, || {
                black_box(proved(black_box(&buffer), &mut out, &mut list));
            });
            let second = time(BLOCKS, || {
                black_box(salvage(black_box(&buffer), &mut out2, &mut list2));
            });
            report(&format!("salvage, a block, {what}, {walks}"), first, second);
        }
    }
}

/// A full archive whose rows are of 16 transmitters in turn.
fn of_sixteen(random: &mut Random) -> Vec<u8> {
    let mut buffer = vec![0; BLOCK * BLOCKS];
    for (k, block) in buffer.chunks_exact_mut(BLOCK).enumerate() {
        let mut cells = vec![0; 480];
        for (i, cell) in cells.chunks_exact_mut(32).enumerate() {
            let mut bytes = telegram(random);
            let n = bytes.len();
            bytes[n - 6..n - 2].copy_from_slice(&(((ROWS * k + i) % 16) as u32).to_be_bytes());
            bytes[n - 1] = hash(&bytes[..n - 1]);
            cell[8] = n as u8;
            cell[9..9 + n].copy_from_slice(&bytes);
        }
        put_block(block, k, &cells);
    }
    buffer
}

/// No row is removed, an eighth, and half of them, by lists of 8 and of 32. The time of copying the archive for each round is subtracted; for the
/// rows without `open`, the time of that call too.
fn removals() {
    let buffer = of_sixteen(&mut Random::new());
    let rows = ROWS * BLOCKS;
    let lists: [(&str, Vec<u32>); 4] = [
        ("none of 8 leave", (100..108).collect()),
        ("2 of 8 leave", (14..22).collect()),
        ("8 of 8 leave", (8..16).collect()),
        ("8 of 32 leave", (8..40).collect()),
    ];
    let mut held = buffer.clone();
    let copying = time(BLOCKS, || {
        black_box(&mut held).copy_from_slice(black_box(&buffer))
    });
    let opening = time(BLOCKS, || {
        black_box(proved_open(black_box(&buffer)));
    });
    for (what, list) in lists {
        let mut other = buffer.clone();
        held.copy_from_slice(&buffer);
        assert_eq!(proved_remove(&mut held, &list), remove(&mut other, &list));
        assert!(held == other, "both left the same archive");
        let mut run = |function: &dyn Fn(&mut [u8]) -> u64| {
            time(BLOCKS, || {
                held.copy_from_slice(&buffer);
                black_box(function(black_box(&mut held)));
            }) - copying
        };
        let first = run(&|b| proved_remove(b, &list));
        let whole = run(&|b| remove(b, &list));
        let walk = run(&|b| remove_from(b, rows, &list));
        report(&format!("removal, a block, {what}"), first, whole);
        report(
            &format!("removal without open, a block, {what}"),
            first - opening,
            walk,
        );
    }
}
