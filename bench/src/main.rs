//! The proved code compared with hand-written Rust of the same job: the same input, in one run; the answers are compared before the times are taken.
use std::time::Instant;

mod archive;
mod bursts;
mod collector;
mod crc8;
mod erp2;
mod interface;
mod repack;
mod reports;
mod site;
mod slots;

fn main() {
    crc8::bench();
    slots::bench();
    site::bench();
    collector::bench();
    bursts::bench();
    interface::bench();
    erp2::bench();
    repack::bench();
    archive::bench();
    reports::bench();
}

/// Nanoseconds per call: the best of many rounds of `calls` calls.
fn time(calls: usize, mut round: impl FnMut()) -> f64 {
    (0..200)
        .map(|_| {
            let start = Instant::now();
            round();
            start.elapsed().as_secs_f64() * 1e9 / calls as f64
        })
        .fold(f64::MAX, f64::min)
}

fn report(what: &str, proved: f64, by_hand: f64) {
    println!(
        "{what}: proved {proved:.0} ns, by hand {by_hand:.0} ns, ratio {:.2}",
        proved / by_hand
    );
}

/// Numbers from a small generator (xorshift), the same in every run.
struct Random(u64);

impl Random {
    fn new() -> Random {
        Random(0x9E37_79B9_7F4A_7C15)
    }

    fn next(&mut self) -> u64 {
        self.0 ^= self.0 << 13;
        self.0 ^= self.0 >> 7;
        self.0 ^= self.0 << 17;
        self.0
    }
}
