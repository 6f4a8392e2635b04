//! Receptions in bursts: the proved call, which tests its state once and copies it in and out once, compared with a hand-written loop over a slice of
//! the same records, which writes the same replies and does not test its state. Both start each burst from the same state.
use crate::collector::{cells, CELL};
use crate::{report, time};
use collect_rust::collector::{repeat, Answer, Collector};
use std::hint::black_box;

// A slice passes as a pointer and a length. Nothing checks this line against the Rattle source.
extern "C" {
    fn bench_burst(setting: u8, cells: *const u8, len: usize, size: usize, rounds: u64) -> u64;
    fn bench_take(cells: *const u8, len: usize) -> u64;
    fn bench_admit(cells: *const u8, len: usize) -> u64;
}

pub const MOST: usize = 256;

struct Record {
    bytes: [u8; 21],
    len: u8,
    time: u64,
}

#[derive(Clone)]
struct Reply {
    answer: u64,
    sent: [u8; 21],
    len: usize,
}

fn proved(cells: &[u8], size: usize, rounds: usize) -> u64 {
    unsafe { bench_burst(1, cells.as_ptr(), cells.len(), size, rounds as u64) }
}

fn records(cells: &[u8]) -> Vec<Record> {
    cells
        .chunks_exact(CELL)
        .map(|cell| Record {
            time: u64::from_be_bytes(cell[..8].try_into().unwrap()),
            len: cell[8],
            bytes: cell[9..30].try_into().unwrap(),
        })
        .collect()
}

/// What a repeater sends for a valid telegram, zero filled, and its length.
fn sent_for(setting: u8, bytes: &[u8], sent: &mut [u8; 21]) -> usize {
    let n = bytes.len();
    sent[..n].copy_from_slice(bytes);
    if repeat(setting, &mut sent[..n]) {
        return n;
    }
    *sent = [0; 21];
    0
}

#[inline(never)]
fn walk(collector: &mut Collector, setting: u8, records: &[Record], replies: &mut [Reply]) {
    for (record, reply) in records.iter().zip(replies) {
        let mut sent = [0; 21];
        let bytes = record.bytes.get(..usize::from(record.len)).unwrap_or(&[]);
        let (answer, len) = match collector.take(record.time, bytes) {
            Answer::Kept => {
                let len = sent_for(setting, bytes, &mut sent);
                (1 + len as u64 * 65_536, len)
            }
            Answer::Copy => (1 << 32, 0),
            Answer::Loose => (1 << 48, 0),
            Answer::Refused(_) => (0, 0),
        };
        *reply = Reply { answer, sent, len };
    }
}

/// Bursts of the first `size` of the second 256 receptions, each from the state after the first 256. Returns a number made of the totals and of one
/// reply of each.
pub fn by_hand(cells: &[u8], size: usize, rounds: usize) -> u64 {
    let all = records(&cells[..2 * MOST * CELL]);
    let none = Reply {
        answer: 1 << 48,
        sent: [0; 21],
        len: 0,
    };
    let mut replies = vec![none; MOST];
    let mut start = Collector::new();
    walk(&mut start, black_box(1), &all[..MOST], &mut replies.clone());
    let mut figure = 0u64;
    for i in 0..rounds {
        let mut collector = black_box(&start).clone();
        walk(
            &mut collector,
            black_box(1),
            black_box(&all[MOST..MOST + size]),
            &mut replies[..size],
        );
        let reply = &black_box(&replies)[i % MOST];
        black_box((&reply.sent, reply.len));
        figure = figure
            .wrapping_add(collector.totals.kept)
            .wrapping_add(reply.answer);
    }
    figure
}

/// Nanoseconds of a burst of `size` receptions, from the state after 256 receptions, without what is done once before all bursts.
pub fn burst_time(burst: fn(&[u8], usize, usize) -> u64, cells: &[u8], size: usize) -> f64 {
    const BURSTS: usize = 16;
    let whole = |rounds: usize| {
        time(BURSTS, || {
            black_box(burst(black_box(cells), size, rounds));
        })
    };
    whole(BURSTS) - whole(0)
}

fn run(calls: unsafe extern "C" fn(*const u8, usize) -> u64, cells: &[u8]) -> f64 {
    time(cells.len() / CELL, || {
        black_box(unsafe { calls(cells.as_ptr(), cells.len()) });
    })
}

/// The proved call is reached through lists held by value, which are copied. So the time of an empty burst is subtracted, and the call's own part of
/// it, the test and the copies of the state, is added again: that is the difference between `take` and `admit`.
pub fn bench() {
    for open in [4, 16, 64] {
        let cells = &cells(open)[..2 * MOST * CELL];
        for size in [MOST, 8, 1] {
            assert_eq!(
                proved(cells, size, 2 * MOST),
                by_hand(cells, size, 2 * MOST),
                "{open} open, {size}"
            );
        }
        let take = run(bench_take, cells);
        let once = take - run(bench_admit, cells);
        let lists = burst_time(proved, cells, 0) - once;
        let each = |size: usize| (burst_time(proved, cells, size) - lists) / size as f64;
        let by_hand = burst_time(by_hand, cells, MOST) / MOST as f64;
        report(
            &format!("a reception in a burst of 256, {open} open, half of them copies"),
            each(MOST),
            by_hand,
        );
        println!(
            "  with the copies of lists held by value {:.0} ns",
            each(MOST) + lists / MOST as f64
        );
        println!(
            "  in a burst of 8 {:.0} ns, of 1 {:.0} ns, by `take` {take:.0} ns",
            each(8),
            each(1)
        );
    }
}
