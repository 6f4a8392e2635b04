//! Slot plans: the proved search compared with a hand-written one, on the same draws, under the standard rule and under each named rule.
use crate::{report, time, Random};
use std::hint::black_box;

// Number, first, second and third slot, a byte each from the highest. `tests/library` compares these lines with the header.
extern "C" {
    fn mooringeye_plan(level: u8, duration: u32, draw: u64) -> u32;
    fn mooringeye_plan_by(rule: u8, level: u8, transmissions: u8, duration: u32, draw: u64) -> u32;
}

const DRAWS: usize = 4_096;

/// The ranges of each transmission, empty if the first is above the last; the pause before the second; the last end.
#[derive(Clone, Copy)]
struct Rule {
    ranges: [(u32, u32); 3],
    pause: u32,
    end: u32,
}

const NONE: (u32, u32) = (1, 0);

/// The standard ranges, by the level that is sent, then by transmission.
const STANDARD: [[(u32, u32); 3]; 3] = [
    [(0, 0), (1, 9), (20, 39)],
    [(10, 19), (20, 29), NONE],
    [(0, 9), (20, 29), NONE],
];

const COMPRESSED: [(u32, u32); 3] = [(0, 1), (4, 12), (14, 22)];

/// How many third slots may follow a second one, and the first of them.
fn thirds(rule: &Rule, duration: u32, second: u32) -> (u64, u32) {
    let (low, high) = rule.ranges[2];
    let ended = 1_000 * second + duration;
    if high < low {
        return (u64::from(ended <= rule.end), 255);
    }
    if rule.end < duration {
        return (0, 0);
    }
    let low = low.max(ended.div_ceil(1_000));
    let high = high.min((rule.end - duration) / 1_000);
    (u64::from((high + 1).saturating_sub(low)), low)
}

/// Visits the pairs of a first and a second slot in order, with the thirds of each, until `visit` answers.
fn pairs(
    rule: &Rule,
    duration: u32,
    mut visit: impl FnMut(u32, u32, u64, u32) -> Option<u32>,
) -> Option<u32> {
    let [first, second, _] = rule.ranges;
    for a in first.0..first.1 + 1 {
        for b in second.0..second.1 + 1 {
            if 1_000 * a + duration + rule.pause <= 1_000 * b {
                let (n, low) = thirds(rule, duration, b);
                if let Some(answer) = visit(a, b, n, low) {
                    return Some(answer);
                }
            }
        }
    }
    None
}

/// The same job by hand: count the plans, then walk to the drawn one.
fn choose(rule: &Rule, duration: u32, draw: u64) -> u32 {
    let mut count = 0;
    pairs(rule, duration, |_, _, n, _| {
        count += n;
        None
    });
    if count == 0 {
        return 9 << 24;
    }
    let mut left = draw % count;
    pairs(rule, duration, |a, b, n, low| {
        if left < n {
            return Some(a << 16 | b << 8 | (low + left as u32));
        }
        left -= n;
        None
    })
    .unwrap()
}

fn by_hand(level: u8, duration: u32, draw: u64) -> u32 {
    if level > 2 || !(1..=65_535).contains(&duration) {
        return 10 << 24;
    }
    let ranges = STANDARD[level as usize];
    choose(
        &Rule {
            ranges,
            pause: 0,
            end: 40_000,
        },
        duration,
        draw,
    )
}

/// A rule at a level, for a number of transmissions.
fn rule_by_hand(rule: u8, level: u8, transmissions: u8) -> Option<Rule> {
    let (ranges, pause, end) = match (rule, level, transmissions) {
        (0, 0, 3) => (STANDARD[0], 0, 40_000),
        (0 | 2, 1, 2) => (STANDARD[1], 0, 40_000),
        (0 | 2, 2, 2) => (STANDARD[2], 0, 40_000),
        (1, 0 | 1, 3) => (COMPRESSED, 0, 50_000),
        (1, 2, 2) => ([NONE; 3], 0, 50_000),
        (2, 0, 2) => ([(0, 0), (0, 39), NONE], 12_000, 40_000),
        (2, 0, 3) => ([(0, 0), (0, 39), (0, 39)], 12_000, 40_000),
        _ => return None,
    };
    Some(Rule { ranges, pause, end })
}

fn named_by_hand(rule: u8, level: u8, transmissions: u8, duration: u32, draw: u64) -> u32 {
    if !(1..=65_535).contains(&duration) {
        return 10 << 24;
    }
    match rule_by_hand(rule, level, transmissions) {
        Some(rule) => choose(&rule, duration, draw),
        None => 10 << 24,
    }
}

fn proved(level: u8, duration: u32, draw: u64) -> u32 {
    unsafe { mooringeye_plan(level, duration, draw) }
}

fn named_proved(rule: u8, level: u8, transmissions: u8, duration: u32, draw: u64) -> u32 {
    unsafe { mooringeye_plan_by(rule, level, transmissions, duration, draw) }
}

const DURATIONS: [u32; 17] = [
    0, 1, 999, 1_000, 1_001, 9_000, 9_001, 11_000, 11_001, 14_000, 14_001, 15_000, 15_001, 20_000,
    20_001, 65_535, 65_536,
];

/// The rows of the table: a rule, a level and a number of transmissions.
const ROWS: [(u8, u8, u8); 10] = [
    (0, 0, 3),
    (0, 1, 2),
    (0, 2, 2),
    (1, 0, 3),
    (1, 1, 3),
    (1, 2, 2),
    (2, 0, 2),
    (2, 0, 3),
    (2, 1, 2),
    (2, 2, 2),
];

/// Checks that the proved functions and those by hand give the same answers.
fn compare(draws: &[u64]) {
    for level in 0..=3 {
        for duration in DURATIONS {
            for &draw in draws {
                let (p, h) = (
                    proved(level, duration, draw),
                    by_hand(level, duration, draw),
                );
                assert_eq!(p, h, "level {level}, duration {duration}, draw {draw}");
                for (rule, n) in [
                    (0, 2),
                    (0, 3),
                    (1, 2),
                    (1, 3),
                    (2, 2),
                    (2, 3),
                    (2, 4),
                    (3, 3),
                ] {
                    let (p, h) = (
                        named_proved(rule, level, n, duration, draw),
                        named_by_hand(rule, level, n, duration, draw),
                    );
                    assert_eq!(p, h, "rule {rule}, level {level}, {n} transmissions, duration {duration}, draw {draw}");
                }
            }
        }
    }
}

/// Nanoseconds per plan at 1,000 microseconds.
fn timed(draws: &[u64], plan: impl Fn(u32, u64) -> u32) -> f64 {
    time(DRAWS, || {
        for &draw in draws {
            black_box(plan(black_box(1_000), black_box(draw)));
        }
    })
}

pub fn bench() {
    let mut random = Random::new();
    let draws: Vec<u64> = (0..DRAWS).map(|_| random.next()).collect();
    compare(&draws[..256]);
    for level in 0..3 {
        let run = |plan: fn(u8, u32, u64) -> u32| {
            timed(&draws, |duration, draw| {
                plan(black_box(level), duration, draw)
            })
        };
        report(
            &format!("slot plan, level {level}, d = 1,000"),
            run(proved),
            run(by_hand),
        );
    }
    for (rule, level, n) in ROWS {
        let run = |plan: fn(u8, u8, u8, u32, u64) -> u32| {
            timed(&draws, |duration, draw| {
                plan(
                    black_box(rule),
                    black_box(level),
                    black_box(n),
                    duration,
                    draw,
                )
            })
        };
        report(
            &format!("slot plan, rule {rule}, level {level}, {n} sent, d = 1,000"),
            run(named_proved),
            run(named_by_hand),
        );
    }
}
