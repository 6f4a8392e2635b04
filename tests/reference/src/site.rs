//! The slot plans of a whole site (document 02, A14): records for a test of the check, and their
//! answers. The layout of a record is in README.md.

use crate::hex::hex;
use crate::random::Random;
use crate::rules::{table, Row};
use crate::subtelegram::{Refusal, OUT_OF_RANGE};
use std::fmt::Write;

const UNLAWFUL: Refusal = 18;
const OVERLAP: Refusal = 19;
const MOST: usize = 32;
const NONE: u8 = 255;

#[derive(Clone, Copy, Debug, PartialEq)]
struct Repeater {
    rule: u8,
    level: u8,
    duration: u32,
    slots: [u8; 3],
}

/// The number, and the repeaters that it names.
type Answer = (Refusal, usize, usize);

/// When a repeater is on the air, in microseconds: from a start up to, but not including, an end.
type Interval = (u64, u64);

impl Repeater {
    fn is_in_range(&self) -> bool {
        self.rule <= 2 && self.level <= 2 && (1..=65_535).contains(&self.duration)
    }

    /// The slots in which it sends; 255 as third means none.
    fn sends_in(&self) -> Vec<u64> {
        let number = if self.slots[2] == NONE { 2 } else { 3 };
        self.slots[..number].iter().map(|&n| u64::from(n)).collect()
    }

    fn is_lawful(&self, table: &[Row]) -> bool {
        let slots = self.sends_in();
        table.iter().any(|row| {
            (row.rule, row.level) == (self.rule, self.level)
                && usize::from(row.number) == slots.len()
                && row.has(&slots, u64::from(self.duration))
        })
    }

    fn intervals(&self) -> Vec<Interval> {
        let duration = u64::from(self.duration);
        self.sends_in()
            .iter()
            .map(|n| (1000 * n, 1000 * n + duration))
            .collect()
    }

    fn overlaps(&self, other: &Repeater) -> bool {
        let others = other.intervals();
        self.intervals()
            .iter()
            .any(|a| others.iter().any(|b| a.0 < b.1 && b.0 < a.1))
    }
}

fn check(site: &[Repeater], table: &[Row]) -> Answer {
    if site.len() > MOST || !site.iter().all(Repeater::is_in_range) {
        return (OUT_OF_RANGE, 0, 0);
    }
    if let Some(i) = site.iter().position(|r| !r.is_lawful(table)) {
        return (UNLAWFUL, i, 0);
    }
    for i in 0..site.len() {
        for j in i + 1..site.len() {
            if site[i].overlaps(&site[j]) {
                return (OVERLAP, i, j);
            }
        }
    }
    (0, 0, 0)
}

// The sites of the list.

fn sent(rule: u8, level: u8, duration: u32, slots: [u8; 3]) -> Repeater {
    Repeater {
        rule,
        level,
        duration,
        slots,
    }
}

/// Sends at level 1 under the standard rule.
fn level_1(duration: u32, first: u8, second: u8) -> Repeater {
    sent(0, 1, duration, [first, second, NONE])
}

/// Sends for 1,000 microseconds at level 1, at the same position of both ranges.
fn beside(n: u8) -> Repeater {
    level_1(1000, 10 + n, 20 + n)
}

/// Twelve that fit, at 1,000 microseconds: two compressed, ten standard. Thirteen never fit.
fn twelve() -> Vec<Repeater> {
    let mut site = vec![sent(1, 0, 1000, [0, 4, 14]), sent(1, 0, 1000, [1, 5, 15])];
    for (second, first) in (20..).zip([2, 3, 6, 7, 8, 9]) {
        site.push(sent(0, 2, 1000, [first, second, NONE]));
    }
    for (second, first) in (26..).zip([10, 11, 12, 13]) {
        site.push(level_1(1000, first, second));
    }
    site
}

/// Each site, and the same site reversed.
fn both_ways(sites: &mut Vec<Vec<Repeater>>, site: &[Repeater]) {
    sites.push(site.to_vec());
    sites.push(site.iter().rev().copied().collect());
}

fn touching(sites: &mut Vec<Vec<Repeater>>) {
    for duration in [1999, 2000, 2001] {
        both_ways(
            sites,
            &[level_1(duration, 10, 20), level_1(duration, 12, 22)],
        );
    }
    // a long one reaches into the next slot of a short one, and not the other way
    both_ways(sites, &[level_1(1500, 10, 20), level_1(500, 11, 21)]);
    both_ways(sites, &[level_1(500, 10, 20), level_1(1500, 11, 21)]);
    // third against second, and first against third
    let original = sent(0, 0, 1000, [0, 5, 25]);
    let compressed = sent(1, 1, 1000, [1, 6, 16]);
    both_ways(sites, &[original, level_1(1000, 15, 25)]);
    both_ways(sites, &[compressed, level_1(1000, 16, 26)]);
    both_ways(sites, &[sent(2, 0, 1000, [0, 16, NONE]), compressed]);
    both_ways(sites, &[original, compressed]);
}

fn many(sites: &mut Vec<Vec<Repeater>>) {
    sites.push(vec![]);
    for n in [1, 31, 32, 33, 34] {
        sites.push(vec![beside(0); n]);
    }
    let mut unlawful_first = vec![beside(0); 33];
    unlawful_first[0].slots = [9, 20, NONE];
    sites.push(unlawful_first.clone());
    unlawful_first.truncate(32);
    sites.push(unlawful_first);
    sites.push(twelve());
    for extra in [beside(9), sent(1, 0, 1000, [1, 12, 22])] {
        let mut site = twelve();
        site.push(extra);
        sites.push(site);
    }
}

fn out_of_range(sites: &mut Vec<Vec<Repeater>>) {
    let wrong: [fn(&mut Repeater); 8] = [
        |r| r.duration = 0,
        |r| r.duration = 65_536,
        |r| r.duration = u32::MAX,
        |r| r.duration = 65_535,
        |r| r.level = 3,
        |r| r.level = 255,
        |r| r.rule = 3,
        |r| r.rule = 255,
    ];
    for spoil in wrong {
        for place in 0..3 {
            let mut site = vec![beside(0), level_1(1000, 9, 20), beside(1)];
            spoil(&mut site[place]);
            sites.push(site);
        }
    }
}

fn unlawful(sites: &mut Vec<Vec<Repeater>>) {
    for rule in 0..3 {
        for level in 0..3 {
            for third in [14, 20, 30, 39, NONE] {
                for [first, second] in [[0, 4], [0, 20], [10, 20], [0, 13]] {
                    let other = sent(rule, level, 1000, [first, second, third]);
                    sites.push(vec![beside(9), other]);
                }
            }
        }
    }
    for wrong in [40, 60, 200, 254, 255] {
        for place in 0..3 {
            let mut site = vec![beside(5), sent(0, 0, 1000, [0, 1, 20]), beside(6)];
            site[1].slots[place] = wrong;
            sites.push(site);
        }
    }
    // a plan that overlaps with itself, after a pair that overlaps
    let own = sent(0, 0, 1001, [0, 1, 20]);
    sites.push(vec![beside(0), beside(0), own]);
    sites.push(vec![own, beside(0), beside(0)]);
    sites.push(vec![beside(0), own, own]);
}

fn pairs(sites: &mut Vec<Vec<Repeater>>) {
    for places in [
        [0, 1, 1, 0],
        [0, 1, 0, 0],
        [0, 1, 1, 2],
        [0, 1, 2, 1],
        [0, 1, 2, 2],
        [0, 0, 1, 1],
        [0, 1, 2, 3],
    ] {
        sites.push(places.iter().map(|&n| beside(n)).collect());
    }
}

fn listed() -> Vec<Vec<Repeater>> {
    let mut sites = vec![];
    touching(&mut sites);
    many(&mut sites);
    out_of_range(&mut sites);
    unlawful(&mut sites);
    pairs(&mut sites);
    sites
}

// Random sites.

const DURATIONS: [u32; 9] = [1, 250, 999, 1000, 1001, 1500, 2000, 2001, 3000];

/// A repeater with a lawful plan.
fn drawn(random: &mut Random, table: &[Row]) -> Repeater {
    loop {
        let row = &table[random.below(table.len())];
        let duration = random.pick(&DURATIONS);
        let plans = row.plans(u64::from(duration));
        if plans.is_empty() {
            continue;
        }
        let plan = &plans[random.below(plans.len())];
        let slot = |n: usize| plan.get(n).map_or(NONE, |&slot| slot as u8);
        return sent(row.rule, row.level, duration, [slot(0), slot(1), slot(2)]);
    }
}

/// One field is changed, to a value that may still be lawful or is out of range.
fn spoil(random: &mut Random, repeater: &mut Repeater) {
    match random.below(6) {
        0 => repeater.rule = random.pick(&[0, 1, 2, 2, 3]),
        1 => repeater.level = random.pick(&[0, 1, 2, 2, 3]),
        2 => repeater.duration = random.pick(&[0, 1, 2000, 9000, 20_000, 65_535, 65_536]),
        n => repeater.slots[n - 3] = random.pick(&[0, 1, 5, 12, 20, 25, 29, 39, 40, 254, 255]),
    }
}

/// Filled one after the other, as long as it is accepted.
fn filled(random: &mut Random, table: &[Row]) -> Vec<Repeater> {
    let mut site = vec![];
    for _ in 0..random.range(1, 40) {
        site.push(drawn(random, table));
        if check(&site, table).0 != 0 {
            site.pop();
        }
    }
    site
}

fn random_site(random: &mut Random, table: &[Row]) -> Vec<Repeater> {
    let kind = random.below(4);
    let mut site = match kind {
        0 => {
            let n = random.range(1, 6);
            (0..n).map(|_| drawn(random, table)).collect()
        }
        1 => {
            let n = random.range(28, 34);
            (0..n).map(|_| drawn(random, table)).collect()
        }
        _ => filled(random, table),
    };
    if kind != 3 {
        let n = site.len();
        for _ in 0..random.pick(&[0, 0, 1, 2]) {
            let place = random.below(n);
            spoil(random, &mut site[place]);
        }
        if random.chance(20) && n < 32 {
            let again = site[random.below(n)];
            site.push(again);
        }
    }
    site
}

fn sites() -> Vec<Vec<Repeater>> {
    let table = table();
    let mut random = Random::new(14);
    let mut sites = listed();
    sites.extend((0..1500).map(|_| random_site(&mut random, &table)));
    sites
}

// Records and answers.

fn record(site: &[Repeater]) -> [u8; 320] {
    let mut record = [0; 320];
    record[0] = site.len() as u8;
    for (repeater, bytes) in site.iter().zip(record[8..].chunks_mut(9)) {
        bytes[0] = repeater.rule;
        bytes[1] = repeater.level;
        bytes[2..6].copy_from_slice(&repeater.duration.to_be_bytes());
        bytes[6..9].copy_from_slice(&repeater.slots);
    }
    record
}

pub fn stdin() -> String {
    let records = sites();
    let lines: Vec<String> = records.iter().map(|site| hex(&record(site))).collect();
    lines.join("\n") + "\n"
}

fn shown(sites: &[Vec<Repeater>], check: impl Fn(&[Repeater]) -> Answer) -> String {
    let mut out = String::new();
    for site in sites {
        let (number, repeater, other) = check(site);
        writeln!(out, "SITE {number} {repeater} {other}").unwrap();
    }
    out
}

pub fn stdout() -> String {
    let table = table();
    shown(&sites(), |site| check(site, &table))
}

#[cfg(test)]
mod tests {
    use super::*;

    fn answer(site: &[Repeater]) -> Answer {
        check(site, &table())
    }

    #[test]
    fn touching_ends_are_fine() {
        let two = |duration| [level_1(duration, 10, 20), level_1(duration, 12, 22)];
        assert_eq!(answer(&two(2000)), (0, 0, 0));
        assert_eq!(answer(&two(2001)), (19, 0, 1));
    }

    #[test]
    fn twelve_fit() {
        assert_eq!(answer(&twelve()), (0, 0, 0));
        assert_eq!(answer(&[]), (0, 0, 0));
        assert_eq!(answer(&[beside(0); 32]), (19, 0, 1));
        assert_eq!(answer(&[beside(0); 33]), (10, 0, 0));
    }

    /// Every answer occurs often, and names many repeaters.
    #[test]
    fn everything_occurs() {
        let table = table();
        let answers: Vec<Answer> = sites().iter().map(|site| check(site, &table)).collect();
        for number in [0, 10, 18, 19] {
            let of: Vec<&Answer> = answers.iter().filter(|a| a.0 == number).collect();
            assert!(of.len() > 100, "{number} {}", of.len());
        }
        for place in 0..6 {
            assert!(answers.contains(&(18, place, 0)), "18 {place}");
            assert!(answers.iter().any(|a| a.0 == 19 && a.1 == place));
            assert!(answers.iter().any(|a| a.0 == 19 && a.2 == place + 1));
        }
    }

    /// The check with a fault.
    fn faulty(site: &[Repeater], table: &[Row], fault: &str) -> Answer {
        let is_lawful = |r: &Repeater| match fault {
            "no rule looked at" => Repeater { rule: 0, ..*r }.is_lawful(table),
            "one level for all" => {
                let level = site[0].level;
                Repeater { level, ..*r }.is_lawful(table)
            }
            _ => r.is_lawful(table),
        };
        let in_range = site.iter().all(|r| match fault {
            "duration 65,536" => (1..=65_536).contains(&r.duration) && r.rule <= 2 && r.level <= 2,
            _ => r.is_in_range(),
        });
        let most = if fault == "33 taken" { 33 } else { MOST };
        let refused = site.len() > most || !in_range;
        let mut places = site.iter().enumerate().filter(|(_, r)| !is_lawful(r));
        let unlawful = match fault {
            "last unlawful" => places.next_back(),
            _ => places.next(),
        };
        match (refused, unlawful) {
            (true, Some((i, _))) if fault == "18 before 10" => return (UNLAWFUL, i, 0),
            (true, _) => return (OUT_OF_RANGE, 0, 0),
            (_, Some((i, _))) => return (UNLAWFUL, i, 0),
            _ => (),
        }
        let mut pairs: Vec<(usize, usize)> = (0..site.len())
            .flat_map(|i| (i + 1..site.len()).map(move |j| (i, j)))
            .collect();
        if fault == "smallest second first" {
            pairs.sort_by_key(|&(i, j)| (j, i));
        }
        let clash = |&(i, j): &(usize, usize)| clashes(&site[i], &site[j], fault);
        match pairs.iter().copied().find(clash) {
            Some((i, j)) if fault == "pair turned round" => (OVERLAP, j, i),
            Some((i, j)) => (OVERLAP, i, j),
            None => (0, 0, 0),
        }
    }

    fn clashes(a: &Repeater, b: &Repeater, fault: &str) -> bool {
        let slots = |r: &Repeater| match fault {
            "third left out" => r.sends_in()[..2].to_vec(),
            "255 is a slot" => r.slots.iter().map(|&n| u64::from(n)).collect(),
            _ => r.sends_in(),
        };
        slots(a).iter().any(|n| {
            slots(b).iter().any(|m| {
                let (start, begin) = (1000 * n, 1000 * m);
                let (d, e) = match fault {
                    "the other's duration" => (b.duration, a.duration),
                    _ => (a.duration, b.duration),
                };
                let (end, stop) = (start + u64::from(d), begin + u64::from(e));
                match fault {
                    "touching ends refused" => start <= stop && begin <= end,
                    "equal slots alone" => n == m,
                    _ => start < stop && begin < end,
                }
            })
        })
    }

    /// Each wrong check changes what is printed.
    #[test]
    fn faults_are_seen() {
        let (sites, table) = (sites(), table());
        assert_eq!(shown(&sites, |site| faulty(site, &table, "")), stdout());
        for fault in [
            "no rule looked at",
            "one level for all",
            "duration 65,536",
            "33 taken",
            "last unlawful",
            "18 before 10",
            "smallest second first",
            "pair turned round",
            "third left out",
            "255 is a slot",
            "the other's duration",
            "touching ends refused",
            "equal slots alone",
        ] {
            let wrong = shown(&sites, |site| faulty(site, &table, fault));
            assert_ne!(wrong, stdout(), "{fault}");
        }
    }
}
