//! Several rows put into one block: the result is that of `archive_put_row` one after the other, or a refusal and an unchanged block.
use mooringeye::raw;

const BLOCK: usize = 512;

fn sum_of(bytes: &[u8]) -> u8 {
    bytes.iter().fold(0, |s, b| s.wrapping_add(*b))
}

/// A telegram of this many bytes that the check accepts, with its CRC or its sum.
fn telegram(length: usize, crc: bool) -> Vec<u8> {
    let mut bytes: Vec<u8> = (0..length as u8).map(|i| 0xD2 ^ (17 * i)).collect();
    bytes[length - 2] = if crc { 0x80 } else { 0 };
    let body = &bytes[..length - 1];
    let hash = if crc { raw::crc8(body) } else { sum_of(body) };
    bytes[length - 1] = hash;
    bytes
}

/// A record: the byte for LOOSE, the length, and the bytes with 0xEE after them.
fn record(loose: u8, length: u8, bytes: &[u8]) -> Vec<u8> {
    let mut record = vec![0xEE; raw::ROW];
    (record[0], record[1]) = (loose, length);
    record[2..2 + bytes.len()].copy_from_slice(bytes);
    record
}

/// Row i of an archive: its time, its telegram, and the byte for LOOSE.
fn row(i: usize) -> (u64, Vec<u8>, u8) {
    (u64::MAX - 1_000_003 * i as u64, telegram(8 + i % 14, i.is_multiple_of(3)), [0, 1, 0, 255, 2][i % 5])
}

/// The times and the records of rows `n` to `n + count - 1`.
fn rows(n: usize, count: usize) -> (Vec<u64>, Vec<u8>) {
    let all = (n..n + count).map(row);
    all.map(|(time, bytes, loose)| (time, record(loose, bytes.len() as u8, &bytes))).fold(
        Default::default(),
        |(mut times, mut records), (time, r)| {
            times.push(time);
            records.extend(r);
            (times, records)
        },
    )
}

/// Puts these rows into a block one by one.
fn one_by_one(block: &mut [u8], n: usize, count: usize) {
    for i in n..n + count {
        let (time, bytes, loose) = row(i);
        let mut position = 7;
        assert_eq!((raw::archive_put_row(block, i, &bytes, time, loose != 0, &mut position), position), (0, 7));
    }
}

/// The block where row `n` goes, of an archive of `n` rows.
fn block_before(n: usize) -> Vec<u8> {
    let mut block = vec![0; BLOCK];
    one_by_one(&mut block, n - n % 15, n % 15);
    block
}

/// The answer and the position; 7 if no position goes with it.
fn put(block: &mut [u8], n: usize, times: &[u64], records: &[u8]) -> (u8, usize) {
    let mut position = 7;
    (raw::archive_put_rows(block, n, times, records, &mut position), position)
}

#[test]
fn together_is_one_by_one() {
    for n in (0..45).chain((15 << 32) - 15..15 << 32) {
        for count in 0..=15 - n % 15 {
            let mut block = block_before(n);
            let mut same = block.clone();
            one_by_one(&mut same, n, count);
            let (times, records) = rows(n, count);
            assert_eq!(put(&mut block, n, &times, &records), (0, 7));
            assert_eq!(block, same, "{count} rows from row {n} on");
        }
    }
}

#[test]
fn blocks_make_an_archive() {
    let mut archive = vec![0; 4 * BLOCK];
    let mut n = 0;
    for count in [1, 14, 15, 7, 0, 3, 5, 2] {
        let (times, records) = rows(n, count);
        assert_eq!(put(&mut archive[n / 15 * BLOCK..][..BLOCK], n, &times, &records), (0, 7));
        n += count;
        let (mut found, mut position) = (7, 7);
        assert_eq!((raw::archive_verify(&archive, &mut found, &mut position), found), (0, n));
    }
    for i in 0..n {
        let (mut read, mut time) = ([0; raw::ROW], 0);
        assert_eq!(raw::archive_row(&archive, i, &mut read, &mut time), 0);
        let (then, bytes, loose) = row(i);
        assert_eq!((time, read[0] != 0, &read[2..2 + usize::from(read[1])]), (then, loose != 0, &bytes[..]));
    }
}

/// Checks that a call is refused with these numbers, and leaves the block unchanged.
fn refused(block: &[u8], n: usize, times: &[u64], records: &[u8], answer: (u8, usize)) {
    let mut after = block.to_vec();
    assert_eq!(put(&mut after, n, times, records), answer, "row {n}, {} times, {} bytes", times.len(), records.len());
    assert_eq!(after, block);
}

#[test]
fn sizes() {
    let (times, records) = rows(17, 3);
    // It comes before other refusals: a block that does not match, a row that the check refuses, and too many rows.
    for (block, n) in [(block_before(17), 17), (vec![0xEE; BLOCK], 16), (block_before(17), 29)] {
        for size in [0, 1, 511, 513, 1024] {
            let mut other = block.clone();
            other.resize(size, 0);
            refused(&other, n, &times, &records, (16, 7));
        }
        for size in (0..100).filter(|size| *size != raw::ROW * 3) {
            refused(&block, n, &times, &[&records[..], &records].concat()[..size], (16, 7));
        }
        for count in [0, 1, 2] {
            refused(&block, n, &times[..count], &records, (16, 7));
        }
        for far in [15 << 32, (15 << 32) + 17, usize::MAX] {
            refused(&block, far, &times, &records, (16, 7));
        }
    }
}

#[test]
fn blocks_that_do_not_match() {
    let (times, mut records) = rows(17, 3);
    for broken in [false, true] {
        for n in (0..60).filter(|n| *n != 17) {
            refused(&block_before(17), n, &times, &records, (12, n / 15));
            refused(&block_before(17), n, &[], &[], (12, n / 15));
        }
        for at in 0..5 {
            let mut block = block_before(17);
            block[at] ^= 0x40;
            refused(&block, 17, &times, &records, (12, 1));
        }
        records[1] = if broken { 7 } else { 22 };
    }
    // Only the first five bytes are read.
    let mut block = block_before(17);
    block[5..].fill(0xEE);
    assert_eq!(put(&mut block.clone(), 17, &times[1..], &records[raw::ROW..]), (0, 7));
    assert_eq!(put(&mut block, 17, &[], &[]), (0, 7));
    assert_eq!(block[5..], [0xEE; BLOCK - 5]);
}

#[test]
fn rows_that_the_check_refuses() {
    let mut nested = telegram(21, false);
    (nested[0], nested[1]) = (0xA6, 0xA6);
    nested[20] = sum_of(&nested[..20]);
    let mut sum = telegram(9, false);
    sum[8] ^= 1;
    let mut crc = telegram(9, true);
    crc[8] ^= 1;
    let wrong = [
        (1, record(0, 0, &[])),
        (1, record(1, 7, &telegram(8, false))),
        (1, record(0, 22, &telegram(21, false))),
        (1, record(1, 255, &telegram(21, false))),
        (2, record(0, 9, &sum)),
        (3, record(2, 21, &nested)),
        (13, record(0, 9, &crc)),
    ];
    // With room for all of them, and with room for none.
    for (n, count) in [(15, 15), (15, 16), (29, 1), (29, 40)] {
        let block = block_before(n);
        let (times, records) = rows(n, count);
        for place in 0..count {
            for (number, other) in &wrong {
                let mut records = records.clone();
                for later in (place..count).step_by(3) {
                    records[later * raw::ROW..][..raw::ROW].copy_from_slice(if later == place { other } else { &wrong[4].1 });
                }
                refused(&block, n, &times, &records, (*number, place));
            }
        }
    }
}

#[test]
fn no_room() {
    for n in 0..30 {
        let (times, records) = rows(n, 300);
        for count in [16 - n % 15, 17, 300] {
            refused(&block_before(n), n, &times[..count], &records[..count * raw::ROW], (6, 7));
        }
    }
}
