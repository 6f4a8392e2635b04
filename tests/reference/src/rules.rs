//! Slot plans under three timing rules (document 02, A10): all plans are listed.

use crate::slots::candidates;
use crate::subtelegram::{Refusal, NO_PLAN, OUT_OF_RANGE};
use std::fmt::Write;

/// A rule at the level that is sent, for a number of transmissions that may be requested.
#[derive(Clone)]
pub struct Row {
    pub rule: u8,
    pub level: u8,
    pub number: u8,
    /// First and last slot of each transmission; none if the level is not used.
    ranges: Vec<(u64, u64)>,
    /// The shortest pause after the first and after the second transmission, in microseconds.
    pauses: [u64; 2],
    /// When the last transmission must have ended, in microseconds.
    last_end: u64,
}

fn row(rule: u8, level: u8, ranges: &[(u64, u64)], pause: u64, last_end: u64) -> Row {
    Row {
        rule,
        level,
        number: ranges.len() as u8,
        ranges: ranges.to_vec(),
        pauses: [pause, 0],
        last_end,
    }
}

/// The standard rule (0), the compressed one (1) and the one with a pause (2).
pub fn table() -> Vec<Row> {
    let compressed = [(0, 1), (4, 12), (14, 22)];
    let unused = Row {
        number: 2,
        ..row(1, 2, &[], 0, 50_000)
    };
    vec![
        row(0, 0, &[(0, 0), (1, 9), (20, 39)], 0, 40_000),
        row(0, 1, &[(10, 19), (20, 29)], 0, 40_000),
        row(0, 2, &[(0, 9), (20, 29)], 0, 40_000),
        row(1, 0, &compressed, 0, 50_000),
        row(1, 1, &compressed, 0, 50_000),
        unused,
        row(2, 0, &[(0, 0), (0, 39)], 12_000, 40_000),
        row(2, 0, &[(0, 0), (0, 39), (0, 39)], 12_000, 40_000),
        row(2, 1, &[(10, 19), (20, 29)], 0, 40_000),
        row(2, 2, &[(0, 9), (20, 29)], 0, 40_000),
    ]
}

impl Row {
    /// No start before the previous end and the pause, and the last end in time.
    fn is_lawful(&self, plan: &[u64], duration: u64) -> bool {
        let ordered = plan
            .windows(2)
            .zip(self.pauses)
            .all(|(pair, pause)| 1000 * pair[1] >= 1000 * pair[0] + duration + pause);
        let last_end = 1000 * plan[plan.len() - 1] + duration;
        ordered && last_end <= self.last_end
    }

    /// Whether these slots are a lawful plan: one in each range, and lawful.
    pub fn has(&self, plan: &[u64], duration: u64) -> bool {
        let in_range = |(slot, range): (&u64, &(u64, u64))| (range.0..=range.1).contains(slot);
        !plan.is_empty()
            && plan.len() == self.ranges.len()
            && plan.iter().zip(&self.ranges).all(in_range)
            && self.is_lawful(plan, duration)
    }

    /// Every lawful plan, by first, then second, then third slot.
    pub fn plans(&self, duration: u64) -> Vec<Vec<u64>> {
        if self.ranges.is_empty() {
            return vec![];
        }
        let mut plans = candidates(&self.ranges);
        plans.retain(|plan| self.is_lawful(plan, duration));
        plans
    }
}

/// What a caller requests: rule, level, number of transmissions, duration and draw.
type Call = (u8, u8, u8, u32, u64);

fn find(table: &[Row], rule: u8, level: u8, number: u8) -> Option<&Row> {
    table
        .iter()
        .find(|row| (row.rule, row.level, row.number) == (rule, level, number))
}

/// The plan of a draw; if several refusals fit: 10, then 9. Without a third transmission the third
/// slot is 255.
fn plan(table: &[Row], (rule, level, number, duration, draw): Call) -> Result<[u64; 3], Refusal> {
    if !(1..=65_535).contains(&duration) {
        return Err(OUT_OF_RANGE);
    }
    let row = find(table, rule, level, number).ok_or(OUT_OF_RANGE)?;
    let plans = row.plans(u64::from(duration));
    if plans.is_empty() {
        return Err(NO_PLAN);
    }
    let chosen = &plans[(draw % plans.len() as u64) as usize];
    Ok([chosen[0], chosen[1], chosen.get(2).copied().unwrap_or(255)])
}

const DURATIONS: [u32; 39] = [
    1, 2, 999, 1000, 1001, 1999, 2000, 2001, 2999, 3000, 3001, 4000, 5000, 6000, 7000, 8000, 8999,
    9000, 9001, 10_000, 10_999, 11_000, 11_001, 12_000, 13_000, 13_001, 13_999, 14_000, 14_001,
    15_000, 15_001, 16_000, 19_999, 20_000, 20_001, 28_000, 40_000, 50_000, 65_535,
];

const DRAWS: [u64; 9] = [
    0,
    1,
    2,
    161,
    162,
    350,
    351,
    12_345_678_901_234_567_890,
    u64::MAX,
];

/// Calls that are refused.
const REFUSED: [Call; 23] = [
    (3, 0, 3, 1000, 0),
    (255, 0, 3, 1000, 0),
    (0, 3, 3, 1000, 0),
    (0, 0, 2, 1000, 0),
    (0, 0, 4, 1000, 0),
    (0, 1, 3, 1000, 0),
    (0, 2, 3, 1000, 0),
    (0, 1, 1, 1000, 0),
    (1, 0, 2, 1000, 0),
    (1, 1, 2, 1000, 0),
    (1, 2, 3, 1000, 0),
    (1, 2, 0, 1000, 0),
    (1, 2, 2, 1000, 5),
    (1, 2, 2, 0, 5),
    (2, 0, 1, 1000, 0),
    (2, 0, 4, 1000, 0),
    (2, 0, 0, 1000, 0),
    (2, 1, 3, 1000, 0),
    (2, 2, 3, 1000, 0),
    (2, 0, 2, 0, 0),
    (2, 0, 3, 65_536, 0),
    (2, 0, 255, 1000, 0),
    (255, 255, 255, u32::MAX, u64::MAX),
];

fn line(out: &mut String, table: &[Row], call: Call) {
    let (rule, level, number, duration, draw) = call;
    let (answer, [first, second, third]) = match plan(table, call) {
        Ok(slots) => (0, slots),
        Err(answer) => (answer, [0, 0, 0]),
    };
    writeln!(
        out,
        "{rule} {level} {number} {duration} {draw} {answer} {first} {second} {third}"
    )
    .unwrap();
}

/// What is printed for the rows if `table` decides.
fn shown(table: &[Row]) -> String {
    let mut out = String::new();
    for asked in self::table() {
        let (rule, level, number) = (asked.rule, asked.level, asked.number);
        let row = find(table, rule, level, number);
        for duration in DURATIONS {
            let count = row.map_or(0, |row| row.plans(u64::from(duration)).len());
            writeln!(out, "{rule} {level} {number} {duration} {count}").unwrap();
            for draw in DRAWS {
                line(&mut out, table, (rule, level, number, duration, draw));
            }
        }
    }
    for call in REFUSED {
        line(&mut out, table, call);
    }
    out
}

pub fn stdout() -> String {
    shown(&table())
}

#[cfg(test)]
mod tests {
    use super::*;

    #[test]
    fn numbers_of_plans() {
        let table = table();
        let counts: Vec<usize> = table.iter().map(|row| row.plans(1000).len()).collect();
        assert_eq!(counts, [180, 100, 100, 162, 162, 0, 27, 351, 100, 100]);
        assert_eq!(stdout().lines().count(), 3923);
    }

    #[test]
    fn the_standard_rule_is_document_01s() {
        for row in &table()[..3] {
            for duration in DURATIONS.map(u64::from) {
                let plans = crate::slots::lawful_plans(row.level, duration);
                assert_eq!(row.plans(duration), plans);
            }
        }
    }

    /// The longest duration of each row that has a plan; none for compressed level 2.
    #[test]
    fn longest_durations() {
        let longest = [
            9000, 15_000, 20_000, 11_000, 11_000, 0, 14_000, 9000, 15_000, 20_000,
        ];
        for (row, duration) in table().iter().zip(longest) {
            assert_eq!(row.plans(duration).is_empty(), duration == 0);
            assert!(row.plans(duration + 1).is_empty());
        }
    }

    /// The plans that a row has are those that are listed.
    #[test]
    fn had_are_listed() {
        let any = [(0, 41); 3];
        for row in table() {
            for duration in [1, 1000, 1001, 9000, 14_000] {
                let mut had = candidates(&any[..usize::from(row.number)]);
                had.retain(|plan| row.has(plan, duration));
                assert_eq!(had, row.plans(duration));
            }
        }
    }

    /// Each wrong table changes what is printed.
    #[test]
    fn faults_are_seen() {
        type Fault = (&'static str, fn(&mut Vec<Row>));
        let faults: [Fault; 14] = [
            ("compressed from slot 1", |t| t[3].ranges[0].0 = 1),
            ("compressed second from 3", |t| t[3].ranges[1].0 = 3),
            ("compressed third to 23", |t| t[4].ranges[2].1 = 23),
            ("compressed by 30,000", |t| t[3].last_end = 30_000),
            ("compressed level 2 used", |t| {
                t[5].ranges = vec![(0, 1), (4, 12)]
            }),
            ("pause of 11,999", |t| t[6].pauses[0] = 11_999),
            ("pause of 12,001", |t| t[6].pauses[0] = 12_001),
            ("pause at level 1", |t| t[8].pauses[0] = 12_000),
            ("pause before the third too", |t| t[7].pauses[1] = 12_000),
            ("pause rule by 40,001", |t| t[7].last_end = 40_001),
            ("pause rule to slot 38", |t| t[7].ranges[2].1 = 38),
            ("pause rule from slot 1 too", |t| t[6].ranges[0] = (0, 1)),
            ("only three with a pause", |t| {
                t.remove(6);
            }),
            ("two at standard level 0", |t| {
                t.push(row(0, 0, &[(0, 0), (1, 9)], 0, 40_000))
            }),
        ];
        for (fault, spoil) in faults {
            let mut wrong = table();
            spoil(&mut wrong);
            assert_ne!(shown(&wrong), stdout(), "{fault}");
        }
    }
}
