//! Archives: opening, appending at the cursor and the CRC over a block, compared with Rust of the same job with the same CRC by eight bytes; and a
//! buffer of more addresses than memory, which is refused by its length alone.
use crate::{report, time, Random};
use collect_rust::hash::{crc, hash};
use std::ffi::c_void;
use std::hint::black_box;

// A slice passes as a pointer and a length. Nothing checks these lines against the Rattle source.
extern "C" {
    fn archive_bench_crc(bytes: *const u8, len: usize) -> u8;
    fn archive_bench_open(buffer: *const u8, len: usize) -> u64;
    fn archive_bench_append_at(
        buffer: *mut u8,
        len: usize,
        n: u64,
        bytes: *const u8,
        bytes_len: usize,
        time: u64,
        loose: u8,
    ) -> u64;
    fn mmap(
        at: *mut c_void,
        len: usize,
        access: i32,
        flags: i32,
        file: i32,
        offset: i64,
    ) -> *mut c_void;
}

pub const BLOCK: usize = 512;
pub const ROWS: usize = 15;
/// The number of an answer is in the highest byte.
pub const NUMBER: u64 = 1 << 56;

fn proved_crc(bytes: &[u8]) -> u8 {
    unsafe { archive_bench_crc(bytes.as_ptr(), bytes.len()) }
}

pub fn proved_open(buffer: &[u8]) -> u64 {
    unsafe { archive_bench_open(buffer.as_ptr(), buffer.len()) }
}

fn proved_append(buffer: &mut [u8], n: usize, bytes: &[u8], time: u64, loose: bool) -> u64 {
    let (at, len) = (buffer.as_mut_ptr(), buffer.len());
    unsafe {
        archive_bench_append_at(
            at,
            len,
            n as u64,
            bytes.as_ptr(),
            bytes.len(),
            time,
            u8::from(loose),
        )
    }
}

// ---- by hand

const fn tables() -> [[u8; 256]; 8] {
    let mut tables = [[0; 256]; 8];
    let mut j = 0;
    while j < 8 {
        let mut b = 0;
        while b < 256 {
            let mut x = if j == 0 { b as u8 } else { tables[j - 1][b] };
            let mut bit = 0;
            while bit < 8 {
                x = if x & 0x80 != 0 { (x << 1) ^ 7 } else { x << 1 };
                bit += 1;
            }
            tables[j][b] = x;
            b += 1;
        }
        j += 1;
    }
    tables
}

static TABLES: [[u8; 256]; 8] = tables();

pub fn crc_by_eight(bytes: &[u8]) -> u8 {
    let t = &TABLES;
    let mut parts = bytes.chunks_exact(8);
    let mut crc = 0u8;
    for b in &mut parts {
        let i = |k: usize| usize::from(b[k]);
        crc = t[7][usize::from(crc ^ b[0])]
            ^ t[6][i(1)]
            ^ t[5][i(2)]
            ^ t[4][i(3)]
            ^ t[3][i(4)]
            ^ t[2][i(5)]
            ^ t[1][i(6)]
            ^ t[0][i(7)];
    }
    for b in parts.remainder() {
        crc = t[0][usize::from(crc ^ b)];
    }
    crc
}

pub fn is_zero(bytes: &[u8]) -> bool {
    bytes.iter().fold(0, |all, b| all | b) == 0
}

fn is_valid(bytes: &[u8]) -> bool {
    let n = bytes.len();
    if !(8..=21).contains(&n) || bytes[n - 1] != hash(&bytes[..n - 1]) {
        return false;
    }
    bytes[0] != 0xA6 || (n >= 13 && bytes[1] != 0xA6)
}

pub fn rows_of(block: &[u8]) -> usize {
    let n = usize::from(block[4]);
    if n == 0 || n > ROWS || !is_zero(&block[5..24]) || !is_zero(&block[24 + 32 * n..511]) {
        return 0;
    }
    for cell in block[24..24 + 32 * n].chunks_exact(32) {
        let len = usize::from(cell[8]);
        if len > 21
            || !is_zero(&cell[9 + len..30])
            || cell[30] > 1
            || cell[31] != 0
            || !is_valid(&cell[9..9 + len])
        {
            return 0;
        }
    }
    if crc_by_eight(&block[..511]) == block[511] {
        n
    } else {
        0
    }
}

pub fn open(buffer: &[u8]) -> u64 {
    if !buffer.len().is_multiple_of(BLOCK) || buffer.len() / BLOCK > 1 << 32 {
        return 16 * NUMBER;
    }
    let (mut rows, mut short, mut ended) = (0, false, false);
    for (k, block) in buffer.chunks_exact(BLOCK).enumerate() {
        if is_zero(block) {
            ended = true;
            continue;
        }
        let n = rows_of(block);
        let number = u32::from_be_bytes(block[..4].try_into().unwrap()) as usize;
        if short && !ended {
            return 12 * NUMBER + k as u64 - 1;
        }
        if ended || n == 0 || number != k {
            return 12 * NUMBER + k as u64;
        }
        rows += n;
        short = n < ROWS;
    }
    rows as u64
}

fn append_at(buffer: &mut [u8], n: usize, bytes: &[u8], time: u64, loose: bool) -> u64 {
    let (k, used) = (n / ROWS, n % ROWS);
    if !buffer.len().is_multiple_of(BLOCK) || buffer.len() / BLOCK > 1 << 32 {
        return 16 * NUMBER;
    }
    let Some(block) = buffer.chunks_exact_mut(BLOCK).nth(k) else {
        return 6 * NUMBER;
    };
    let number = u32::from_be_bytes(block[..4].try_into().unwrap()) as usize;
    let next = if used == 0 {
        is_zero(&block[..5])
    } else {
        number == k && usize::from(block[4]) == used
    };
    if !next {
        return 12 * NUMBER + k as u64;
    }
    if !is_valid(bytes) {
        return NUMBER;
    }
    block[..4].copy_from_slice(&(k as u32).to_be_bytes());
    block[4] = used as u8 + 1;
    block[5..24].fill(0);
    let cell = &mut block[24 + 32 * used..56 + 32 * used];
    cell[..8].copy_from_slice(&time.to_be_bytes());
    cell[8] = bytes.len() as u8;
    cell[9..9 + bytes.len()].copy_from_slice(bytes);
    cell[9 + bytes.len()..].fill(0);
    cell[30] = u8::from(loose);
    block[511] = crc_by_eight(&block[..511]);
    0
}

// ---- the runs

/// A valid subtelegram of 8 to 21 bytes, half of them with the CRC.
pub fn telegram(random: &mut Random) -> Vec<u8> {
    let n = 8 + (random.next() % 14) as usize;
    let mut bytes: Vec<u8> = (0..n).map(|_| random.next() as u8).collect();
    bytes[0] = 0xD2;
    bytes[n - 1] = hash(&bytes[..n - 1]);
    bytes
}

fn fill(
    buffer: &mut [u8],
    rows: &[Vec<u8>],
    append: fn(&mut [u8], usize, &[u8], u64, bool) -> u64,
) {
    for (n, row) in rows.iter().enumerate() {
        assert_eq!(append(buffer, n, row, n as u64 * 17, n % 5 == 0), 0);
    }
}

pub fn bench() {
    let mut random = Random::new();
    crcs(&mut random);
    let blocks = 64;
    let rows: Vec<Vec<u8>> = (0..ROWS * blocks).map(|_| telegram(&mut random)).collect();
    let mut buffer = vec![0; BLOCK * blocks];
    let mut other = buffer.clone();
    fill(&mut buffer, &rows, proved_append);
    fill(&mut other, &rows, append_at);
    assert!(buffer == other, "both wrote the same archive");
    for at in 0..4 * BLOCK {
        buffer[at] ^= 1;
        assert_eq!(proved_open(&buffer), open(&buffer), "byte {at}");
        buffer[at] ^= 1;
    }
    assert_eq!(proved_open(&buffer), rows.len() as u64);
    let run = |function: fn(&[u8]) -> u64, buffer: &[u8]| {
        time(blocks, || {
            black_box(function(black_box(buffer)));
        })
    };
    report(
        "archive opened, a full block",
        run(proved_open, &buffer),
        run(open, &buffer),
    );
    let zeros = vec![0; BLOCK * blocks];
    report(
        "archive opened, a block behind the end",
        run(proved_open, &zeros),
        run(open, &zeros),
    );
    let appends = |function: fn(&mut [u8], usize, &[u8], u64, bool) -> u64| {
        let mut buffer = vec![0; BLOCK * blocks];
        time(rows.len(), || {
            for block in buffer.chunks_exact_mut(BLOCK) {
                block[..5].fill(0);
            }
            fill(black_box(&mut buffer), &rows, function);
        })
    };
    report(
        "a row appended at the cursor",
        appends(proved_append),
        appends(append_at),
    );
    reserved();
}

fn crcs(random: &mut Random) {
    let bytes: Vec<u8> = (0..2048).map(|_| random.next() as u8).collect();
    for n in 0..bytes.len() {
        assert_eq!(proved_crc(&bytes[..n]), crc(&bytes[..n]), "{n} bytes");
        assert_eq!(crc_by_eight(&bytes[..n]), crc(&bytes[..n]), "{n} bytes");
    }
    let calls = 1_000;
    let run = |function: fn(&[u8]) -> u8| {
        time(calls, || {
            for _ in 0..calls {
                black_box(function(black_box(&bytes[..511])));
            }
        })
    };
    report(
        "CRC by eight over 511 bytes",
        run(proved_crc),
        run(crc_by_eight),
    );
}

/// 2^41 + 512 bytes of addresses without access: 16 by the length alone, because a read of any byte would end the run with a signal.
fn reserved() {
    const BYTES: usize = (1 << 41) + BLOCK;
    let (private, anonymous, no_reserve) = (2, 0x20, 0x4000);
    let at = unsafe {
        mmap(
            std::ptr::null_mut(),
            BYTES,
            0,
            private | anonymous | no_reserve,
            -1,
            0,
        )
    };
    if at as isize == -1 {
        println!("a buffer over 2^32 blocks: NOT RUN, the addresses are not granted");
        return;
    }
    assert_eq!(unsafe { archive_bench_open(at.cast(), BYTES) }, 16 * NUMBER);
    println!("a buffer over 2^32 blocks: refused with 16, and no byte of it was looked at");
}
