//! Receptions are taken one after the other and classified; nothing is sent. The proved collector, by value with the test of its state at each call
//! (`take`), and in place without it (`admit`), is compared with a hand-written one of the same job each time.
use crate::{report, time, Random};
use collect_rust::collector::{Answer, Collector};
use collect_rust::hash::{hash, sum};
use std::hint::black_box;

// A slice passes as a pointer and a length. Nothing checks this line against the Rattle source.
extern "C" {
    fn bench_take(cells: *const u8, len: usize) -> u64;
    fn bench_admit(cells: *const u8, len: usize) -> u64;
    fn bench_test(cells: *const u8, len: usize, rounds: u64) -> u64;
}

pub const CELL: usize = 32;
pub const RECEPTIONS: usize = 4_000;

fn proved(cells: &[u8]) -> u64 {
    unsafe { bench_take(cells.as_ptr(), cells.len()) }
}

fn proved_in_place(cells: &[u8]) -> u64 {
    unsafe { bench_admit(cells.as_ptr(), cells.len()) }
}

/// Tests the state after these receptions, `rounds` times.
fn tests(cells: &[u8], rounds: u64) -> u64 {
    unsafe { bench_test(cells.as_ptr(), cells.len(), rounds) }
}

/// The receptions of these cells, each with its time.
pub fn receptions(cells: &[u8]) -> impl Iterator<Item = (u64, &[u8])> {
    cells.chunks_exact(CELL).map(|cell| {
        let time = u64::from_be_bytes(cell[..8].try_into().unwrap());
        (time, &cell[9..9 + usize::from(cell[8]).min(21)])
    })
}

fn weight(answer: Answer) -> u64 {
    match answer {
        Answer::Kept => 1,
        Answer::Copy => 1 << 32,
        Answer::Loose => 1 << 48,
        Answer::Refused(_) => 0,
    }
}

pub fn by_hand_in_place(cells: &[u8]) -> u64 {
    let mut collector = Collector::new();
    let mut figure = 0u64;
    for (time, bytes) in receptions(cells) {
        figure = figure.wrapping_add(weight(collector.take(time, bytes)));
    }
    figure
}

fn by_hand(cells: &[u8]) -> u64 {
    let mut collector = Collector::new();
    let mut figure = 0u64;
    for (time, bytes) in receptions(cells) {
        let (next, answer) = black_box(collector).taken(time, bytes);
        collector = next;
        figure = figure.wrapping_add(weight(answer));
    }
    figure
}

/// The state after these receptions, tested `rounds` times, every second time without the last entry.
fn tests_by_hand(cells: &[u8], rounds: u64) -> u64 {
    let mut collector = Collector::new();
    for (time, bytes) in receptions(cells) {
        collector.take(time, bytes);
    }
    (0..rounds)
        .map(|_| u64::from(black_box(&collector).is_acceptable()))
        .sum()
}

/// Different telegrams, so far apart that `open` of them are open at any time; every second one is received again through a repeater.
pub fn cells(open: usize) -> Vec<u8> {
    let mut random = Random::new();
    let mut cells = Vec::new();
    let mut last = Vec::new();
    for i in 0..RECEPTIONS {
        let time = (i / 2 * 101 / open) as u64;
        let mut s = if i % 2 == 0 {
            telegram(random.next())
        } else {
            last.clone()
        };
        if i % 4 == 3 {
            let n = s.len();
            s[n - 2] = 1;
            s[n - 1] = hash(&s[..n - 1]);
        }
        put(&mut cells, time, &s);
        last = s;
    }
    cells
}

/// 21 telegrams, each opened three times, so 63 are open.
fn openings() -> Vec<u8> {
    let mut random = Random::new();
    let telegrams: Vec<Vec<u8>> = (0..21).map(|_| telegram(random.next())).collect();
    let mut cells = Vec::new();
    for time in [0, 41, 82] {
        for s in &telegrams {
            put(&mut cells, time, s);
        }
    }
    cells
}

fn put(cells: &mut Vec<u8>, time: u64, s: &[u8]) {
    cells.extend_from_slice(&time.to_be_bytes());
    cells.push(s.len() as u8);
    let mut bytes = [0; 23];
    bytes[..s.len()].copy_from_slice(s);
    cells.extend_from_slice(&bytes);
}

fn telegram(r: u64) -> Vec<u8> {
    let mut s = vec![0xA5];
    s.extend_from_slice(&r.to_be_bytes());
    s.push(0);
    s.push(sum(&s));
    s
}

pub fn bench() {
    for open in [4, 16, 64] {
        let cells = cells(open);
        let wanted = by_hand(&cells);
        for take in [proved, proved_in_place, by_hand_in_place] {
            assert_eq!(take(&cells), wanted, "{open} open");
        }
        let run = |take: fn(&[u8]) -> u64| {
            time(RECEPTIONS, || {
                black_box(take(black_box(&cells)));
            })
        };
        report(
            &format!("a reception, {open} open, half of them copies, in place"),
            run(proved_in_place),
            run(by_hand_in_place),
        );
        report("  by value, its state tested", run(proved), run(by_hand));
        report_test(
            "  of which the test of the state",
            &cells[..2 * open * CELL],
        );
    }
    let cells = openings();
    assert_eq!(proved(&cells), by_hand(&cells));
    report_test(
        "the test of a state with 21 telegrams opened three times each",
        &cells,
    );
}

/// Reports the test of the state after these receptions.
fn report_test(what: &str, cells: &[u8]) {
    report(what, test_time(cells), time_of(tests_by_hand, cells));
}

/// Nanoseconds of the proved test of that state.
pub fn test_time(cells: &[u8]) -> f64 {
    time_of(tests, cells)
}

fn time_of(tests: fn(&[u8], u64) -> u64, cells: &[u8]) -> f64 {
    assert_eq!(tests(cells, 2), 2);
    time(RECEPTIONS, || {
        black_box(tests(black_box(cells), black_box(RECEPTIONS as u64)));
    })
}
