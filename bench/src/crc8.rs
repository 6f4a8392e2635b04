//! CRC-8 over 512 bytes: the proved loop compared with the same table-driven loop in Rust.
use crate::{report, time, Random};
use collect_rust::hash::crc;
use std::hint::black_box;

// A slice passes as a pointer and a length. `tests/library` compares this line with the header.
extern "C" {
    fn mooringeye_crc8(bytes: *const u8, len: usize) -> u8;
}

const LENGTH: usize = 512;

fn proved(bytes: &[u8]) -> u8 {
    unsafe { mooringeye_crc8(bytes.as_ptr(), bytes.len()) }
}

pub fn bench() {
    let mut random = Random::new();
    let bytes: Vec<u8> = (0..4 * LENGTH).map(|_| random.next() as u8).collect();
    for n in 0..bytes.len() {
        assert_eq!(proved(&bytes[..n]), crc(&bytes[..n]), "{n} bytes");
    }
    let block = &bytes[..LENGTH];
    let calls = 1_000;
    let run = |function: fn(&[u8]) -> u8| {
        time(calls, || {
            for _ in 0..calls {
                black_box(function(black_box(block)));
            }
        })
    };
    report("CRC-8 over 512 bytes", run(proved), run(crc));
}
