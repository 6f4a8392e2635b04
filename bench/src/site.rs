//! The check of a site: the proved one compared with a hand-written one that does the same comparisons, on the same bytes.
use crate::{report, time};
use std::hint::black_box;

// Number x 65,536 + repeater x 256 + other. `tests/library` compares this line with the header.
extern "C" {
    fn mooringeye_site(repeaters: *const u8, length: usize) -> u32;
}

#[derive(Clone, Copy)]
struct Repeater {
    rule: u8,
    level: u8,
    duration: u32,
    slots: [u8; 3],
}

const STANDARD: [[(u8, u8); 3]; 3] = [
    [(0, 0), (1, 9), (20, 39)],
    [(10, 19), (20, 29), (1, 0)],
    [(0, 9), (20, 29), (1, 0)],
];

/// Whether a plan is lawful under its rule.
fn is_lawful(r: &Repeater) -> bool {
    let n = if r.slots[2] == 255 { 2 } else { 3 };
    let (ranges, pause, end) = match (r.rule, r.level, n) {
        (0, 0, 3) => (STANDARD[0], 0, 40_000),
        (0 | 2, 1, 2) => (STANDARD[1], 0, 40_000),
        (0 | 2, 2, 2) => (STANDARD[2], 0, 40_000),
        (1, 0 | 1, 3) => ([(0, 1), (4, 12), (14, 22)], 0, 50_000),
        (2, 0, _) => ([(0, 0), (0, 39), (0, 39)], 12_000, 40_000),
        _ => return false,
    };
    let start = |i: usize| 1_000 * u32::from(r.slots[i]);
    (0..n).all(|i| ranges[i].0 <= r.slots[i] && r.slots[i] <= ranges[i].1)
        && start(0) + r.duration + pause <= start(1)
        && (n == 2 || start(1) + r.duration <= start(2))
        && start(n - 1) + r.duration <= end
}

fn overlap(a: &Repeater, b: &Repeater) -> bool {
    let sent = |r: &Repeater| if r.slots[2] == 255 { 2 } else { 3 };
    a.slots[..sent(a)].iter().any(|&n| {
        b.slots[..sent(b)].iter().any(|&m| {
            let (n, m) = (1_000 * u32::from(n), 1_000 * u32::from(m));
            n < m + b.duration && m < n + a.duration
        })
    })
}

fn by_hand(bytes: &[u8]) -> u32 {
    if !bytes.len().is_multiple_of(9) || bytes.len() > 288 {
        return 10 << 16;
    }
    let mut all = [Repeater {
        rule: 0,
        level: 0,
        duration: 0,
        slots: [0; 3],
    }; 32];
    let count = bytes.len() / 9;
    for (r, b) in all.iter_mut().zip(bytes.chunks_exact(9)) {
        let duration = u32::from_be_bytes([b[2], b[3], b[4], b[5]]);
        *r = Repeater {
            rule: b[0],
            level: b[1],
            duration,
            slots: [b[6], b[7], b[8]],
        };
    }
    let site = &all[..count];
    if !site
        .iter()
        .all(|r| r.rule <= 2 && r.level <= 2 && (1..=65_535).contains(&r.duration))
    {
        return 10 << 16;
    }
    if let Some(i) = site.iter().position(|r| !is_lawful(r)) {
        return 18 << 16 | (i as u32) << 8;
    }
    for i in 0..count {
        for j in i + 1..count {
            if overlap(&site[i], &site[j]) {
                return 19 << 16 | (i as u32) << 8 | j as u32;
            }
        }
    }
    0
}

fn proved(bytes: &[u8]) -> u32 {
    unsafe { mooringeye_site(bytes.as_ptr(), bytes.len()) }
}

fn bytes(rule: u8, level: u8, slots: [u8; 3]) -> Vec<u8> {
    let mut b = vec![rule, level, 0, 0, 3, 232];
    b.extend(slots);
    b
}

pub fn bench() {
    let mut twelve = [bytes(1, 0, [0, 4, 14]), bytes(1, 0, [1, 5, 15])].concat();
    for (n, first) in [2, 3, 6, 7, 8, 9].into_iter().enumerate() {
        twelve.extend(bytes(0, 2, [first, 20 + n as u8, 255]));
    }
    for n in 0..4 {
        twelve.extend(bytes(0, 1, [10 + n, 26 + n, 255]));
    }
    let mut last = bytes(0, 1, [10, 20, 255]);
    for _ in 0..30 {
        last.extend(bytes(0, 1, [11, 21, 255]));
    }
    last.extend(bytes(0, 1, [10, 22, 255]));
    for (name, site, answer) in [
        ("12 that fit", twelve, 0),
        ("32, the last clashes with the first", last, 19 << 16 | 31),
    ] {
        assert_eq!((proved(&site), by_hand(&site)), (answer, answer), "{name}");
        let run = |check: fn(&[u8]) -> u32| {
            time(1_000, || {
                for _ in 0..1_000 {
                    black_box(check(black_box(&site)));
                }
            })
        };
        report(&format!("site, {name}"), run(proved), run(by_hand));
    }
}
