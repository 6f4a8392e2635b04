//! Slot plans (document 01, "Slot plan").

use crate::subtelegram::{Refusal, NO_PLAN, OUT_OF_RANGE};
use std::fmt::Write;

/// First and last slot of each transmission, by the level that is sent.
fn ranges(level: u8) -> Vec<(u64, u64)> {
    match level {
        0 => vec![(0, 0), (1, 9), (20, 39)],
        1 => vec![(10, 19), (20, 29)],
        _ => vec![(0, 9), (20, 29)],
    }
}

/// Every choice of one slot from each range, listed by first, then second, then third slot.
pub fn candidates(ranges: &[(u64, u64)]) -> Vec<Vec<u64>> {
    let mut plans: Vec<Vec<u64>> = vec![vec![]];
    for &(first, last) in ranges {
        let mut longer = Vec::new();
        for plan in &plans {
            for slot in first..=last {
                let mut next = plan.clone();
                next.push(slot);
                longer.push(next);
            }
        }
        plans = longer;
    }
    plans
}

/// No start before the previous end, and the last end at or before 40,000 microseconds.
fn lawful(plan: &[u64], duration: u64) -> bool {
    let ordered = plan
        .windows(2)
        .all(|pair| 1000 * pair[1] >= 1000 * pair[0] + duration);
    let last_end = 1000 * plan[plan.len() - 1] + duration;
    ordered && last_end <= 40_000
}

pub fn lawful_plans(level: u8, duration: u64) -> Vec<Vec<u64>> {
    let mut plans = candidates(&ranges(level));
    plans.retain(|plan| lawful(plan, duration));
    plans
}

/// The plan of a draw; if several refusals fit: 10, then 9. Without a third transmission the third
/// slot is 255.
pub fn plan(level: u8, duration: u32, draw: u64) -> Result<[u64; 3], Refusal> {
    if level > 2 || !(1..=65_535).contains(&duration) {
        return Err(OUT_OF_RANGE);
    }
    let plans = lawful_plans(level, u64::from(duration));
    if plans.is_empty() {
        return Err(NO_PLAN);
    }
    let chosen = &plans[(draw % plans.len() as u64) as usize];
    Ok([chosen[0], chosen[1], chosen.get(2).copied().unwrap_or(255)])
}

const DRAWS: [u64; 7] = [0, 1, 2, 3, 7, 12_345_678_901_234_567_890, u64::MAX];

const REFUSED: [(u8, u32, u64); 4] = [(3, 1000, 0), (0, 0, 0), (0, 65_536, 0), (255, u32::MAX, 5)];

fn durations() -> Vec<u32> {
    let mut all = vec![1, 2, 999, 1000, 1001, 1999, 2000, 2001];
    all.extend((3000..=21_000).step_by(250));
    all.extend([
        8999, 9001, 14_999, 15_001, 19_999, 20_001, 20_002, 40_000, 65_535,
    ]);
    all
}

fn line(out: &mut String, level: u8, duration: u32, draw: u64) {
    let (number, [first, second, third]) = match plan(level, duration, draw) {
        Ok(slots) => (0, slots),
        Err(number) => (number, [0, 0, 0]),
    };
    writeln!(
        out,
        "{level} {duration} {draw} {number} {first} {second} {third}"
    )
    .unwrap();
}

pub fn stdout() -> String {
    let mut out = String::new();
    for level in 0..=2 {
        for duration in durations() {
            let count = lawful_plans(level, u64::from(duration)).len();
            writeln!(out, "{level} {duration} {count}").unwrap();
            for draw in DRAWS {
                line(&mut out, level, duration, draw);
            }
        }
    }
    for (level, duration, draw) in REFUSED {
        line(&mut out, level, duration, draw);
    }
    out
}
