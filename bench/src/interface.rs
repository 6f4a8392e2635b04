//! The collector as a C program calls it, on five arrays that are changed in place and whose state is tested at each call: one reception at a time,
//! and bursts of 256. It is compared with the hand-written one, in place, which does not test its state.
use crate::bursts::{burst_time, MOST};
use crate::collector::{cells, receptions, test_time, CELL, RECEPTIONS};
use crate::{bursts, collector, report, time};
use std::hint::black_box;

// A slice passes as a pointer and a length. `tests/library` compares these lines with the header.
extern "C" {
    fn mooringeye_collector_take(
        times: *mut u64,
        lengths: *mut u8,
        bytes: *mut u8,
        copies: *mut u16,
        numbers: *mut u64,
        received: *const u8,
        received_len: usize,
        time: u64,
    ) -> u16;
    fn mooringeye_collector_take_tested(
        times: *mut u64,
        lengths: *mut u8,
        bytes: *mut u8,
        copies: *mut u16,
        numbers: *mut u64,
        received: *const u8,
        received_len: usize,
        time: u64,
    ) -> u16;
    fn mooringeye_collector_burst(
        times: *mut u64,
        lengths: *mut u8,
        bytes: *mut u8,
        copies: *mut u16,
        numbers: *mut u64,
        setting: u8,
        moments: *const u64,
        moments_len: usize,
        records: *const u8,
        records_len: usize,
        replies: *mut u8,
        replies_len: usize,
    ) -> u8;
}

const FRAME: usize = 22;
const REPLY: usize = 24;

/// `mooringeye_collector` of the header.
#[derive(Clone)]
struct Collector {
    times: [u64; 64],
    numbers: [u64; 8],
    copies: [u16; 64],
    lengths: [u8; 64],
    bytes: [u8; 64 * 21],
}

/// Receptions as a burst takes them.
struct Records {
    moments: Vec<u64>,
    frames: Vec<u8>,
}

impl Collector {
    /// All zero is a fresh collector.
    fn fresh() -> Collector {
        Collector {
            times: [0; 64],
            numbers: [0; 8],
            copies: [0; 64],
            lengths: [0; 64],
            bytes: [0; 64 * 21],
        }
    }

    fn take(&mut self, time: u64, bytes: &[u8]) -> u16 {
        unsafe {
            mooringeye_collector_take(
                self.times.as_mut_ptr(),
                self.lengths.as_mut_ptr(),
                self.bytes.as_mut_ptr(),
                self.copies.as_mut_ptr(),
                self.numbers.as_mut_ptr(),
                bytes.as_ptr(),
                bytes.len(),
                time,
            )
        }
    }

    /// Like `take`, where the caller says that the state is accepted.
    fn take_tested(&mut self, time: u64, bytes: &[u8]) -> u16 {
        unsafe {
            mooringeye_collector_take_tested(
                self.times.as_mut_ptr(),
                self.lengths.as_mut_ptr(),
                self.bytes.as_mut_ptr(),
                self.copies.as_mut_ptr(),
                self.numbers.as_mut_ptr(),
                bytes.as_ptr(),
                bytes.len(),
                time,
            )
        }
    }

    /// The first `n` receptions at setting 1.
    fn burst(&mut self, records: &Records, n: usize, replies: &mut [u8]) -> u8 {
        unsafe {
            mooringeye_collector_burst(
                self.times.as_mut_ptr(),
                self.lengths.as_mut_ptr(),
                self.bytes.as_mut_ptr(),
                self.copies.as_mut_ptr(),
                self.numbers.as_mut_ptr(),
                black_box(1),
                records.moments.as_ptr(),
                n,
                records.frames.as_ptr(),
                FRAME * n,
                replies.as_mut_ptr(),
                replies.len(),
            )
        }
    }
}

/// What a kind counts in the number that is compared, if it is not refused.
fn weight(kind: u8) -> u64 {
    [1, 1 << 32, 1 << 48][usize::from(kind)]
}

fn takes(cells: &[u8]) -> u64 {
    figure(cells, Collector::take)
}

fn takes_tested(cells: &[u8]) -> u64 {
    figure(cells, Collector::take_tested)
}

#[inline(always)]
fn figure(cells: &[u8], take: impl Fn(&mut Collector, u64, &[u8]) -> u16) -> u64 {
    let mut collector = Collector::fresh();
    let mut figure = 0u64;
    for (time, bytes) in receptions(cells) {
        let [kind, number] = take(&mut collector, time, bytes).to_be_bytes();
        if number == 0 {
            figure = figure.wrapping_add(weight(kind));
        }
    }
    figure
}

fn records(cells: &[u8]) -> Records {
    let (moments, frames): (Vec<u64>, Vec<[u8; FRAME]>) = receptions(cells)
        .map(|(time, bytes)| {
            let mut frame = [0; FRAME];
            frame[0] = bytes.len() as u8;
            frame[1..1 + bytes.len()].copy_from_slice(bytes);
            (time, frame)
        })
        .unzip();
    Records {
        moments,
        frames: frames.concat(),
    }
}

/// Like `bursts::by_hand`.
fn in_bursts(cells: &[u8], size: usize, rounds: usize) -> u64 {
    let mut replies = vec![0; REPLY * MOST];
    replies.chunks_mut(REPLY).for_each(|r| r[0] = 2); // LOOSE, as there
    let mut start = Collector::fresh();
    start.burst(&records(&cells[..MOST * CELL]), MOST, &mut replies.clone());
    let next = records(&cells[MOST * CELL..2 * MOST * CELL]);
    let mut figure = 0u64;
    for i in 0..rounds {
        let mut collector = black_box(&start).clone();
        collector.burst(black_box(&next), size, &mut replies[..REPLY * size]);
        let reply = &black_box(&replies)[i % MOST * REPLY..][..REPLY];
        figure = figure
            .wrapping_add(collector.numbers[3])
            .wrapping_add(weight(reply[0]))
            .wrapping_add(u64::from(reply[2]) * 65_536);
    }
    figure
}

pub fn bench() {
    for open in [4, 16, 64] {
        let cells = cells(open);
        assert_eq!(takes(&cells), collector::by_hand_in_place(&cells));
        let run = |takes: fn(&[u8]) -> u64| {
            time(RECEPTIONS, || {
                black_box(takes(black_box(&cells)));
            })
        };
        let (proved, by_hand) = (run(takes), run(collector::by_hand_in_place));
        report(
            &format!("a reception through the C interface, {open} open, half of them copies"),
            proved,
            by_hand,
        );
        assert_eq!(takes_tested(&cells), collector::by_hand_in_place(&cells));
        report(
            "  told that the state is accepted",
            run(takes_tested),
            by_hand,
        );
        let test = test_time(&cells[..2 * open * CELL]);
        report(
            &format!("  without the test of the state, {test:.0} ns"),
            proved - test,
            by_hand,
        );
        let cells = &cells[..2 * MOST * CELL];
        let rounds = 2 * MOST;
        assert_eq!(
            in_bursts(cells, MOST, rounds),
            bursts::by_hand(cells, MOST, rounds)
        );
        report(
            "  in a burst of 256",
            burst_time(in_bursts, cells, MOST) / MOST as f64,
            burst_time(bursts::by_hand, cells, MOST) / MOST as f64,
        );
    }
}
