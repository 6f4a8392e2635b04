//! `mooringeye plan` and `mooringeye site`: slot plans for people.
use crate::args::{parsed, Args};
use crate::failure::Failure;
use crate::streams::{each_line, Output};
use crate::text;
use mooringeye::{Assignment, Refusal, Rule, Site, SlotPlan};

fn rule(name: &str) -> Option<Rule> {
    match name {
        "standard" => Some(Rule::Standard),
        "compressed" => Some(Rule::Compressed),
        "paused" => Some(Rule::Paused),
        _ => None,
    }
}

/// A number for the library; a number that is too large for its type is out of range for the library too.
fn small<T: TryFrom<u64>>(text: &str) -> Option<T> {
    text::number(text).and_then(|n| T::try_from(n).ok())
}

/// How many transmissions a rule has at a level.
fn own_count(rule: Rule, level: u8) -> u8 {
    match (rule, level) {
        (_, 0) | (Rule::Compressed, 1) => 3,
        _ => 2,
    }
}

pub fn plan(args: &Args) -> Result<(), Failure> {
    let [named, level, duration] = args.exactly()?;
    let rule = parsed(named, "RULE", "standard, compressed or paused", rule)?;
    let level = parsed(level, "LEVEL", "0, 1 or 2", small::<u8>)?;
    let duration = parsed(duration, "DURATION", "a number of microseconds, 1 to 65535", small::<u32>)?;
    let count = args.value("count", "2 or 3", small::<u8>)?.unwrap_or_else(|| own_count(rule, level));
    let draw = args.value("draw", "a number below 2^64", text::number)?.unwrap_or(0);
    let what = format!("{} level {level}, {count} transmissions of {duration} us", named.display());
    let plan = SlotPlan::draw(rule, level, count, duration, draw).map_err(|why| Failure::refused(what, why))?;
    let mut printed = String::new();
    for slot in [Some(plan.first), Some(plan.second), plan.third].into_iter().flatten() {
        let start = 1_000 * u32::from(slot);
        printed += &format!("slot {slot:2}: {start:5} to {:5} us\n", start + duration);
    }
    Output::standard()?.write(printed.as_bytes())
}

fn assignment(line: &str) -> Option<Assignment> {
    let words: Vec<&str> = line.split_ascii_whitespace().collect();
    let (named, numbers) = words.split_first()?;
    let [level, duration, slots @ ..] = numbers else { return None };
    let slots: Vec<u8> = slots.iter().map(|slot| small(slot)).collect::<Option<_>>()?;
    let plan = match slots[..] {
        [first, second] => SlotPlan { first, second, third: None },
        [first, second, third] => SlotPlan { first, second, third: Some(third) },
        _ => return None,
    };
    Some(Assignment { rule: rule(named)?, level: small(level)?, duration: small(duration)?, plan })
}

pub fn site(args: &Args) -> Result<(), Failure> {
    args.no_rest()?;
    let mut repeaters = Vec::new();
    let mut lines = Vec::new();
    each_line(|number, line| {
        if !(line.trim().is_empty() || line.starts_with('#')) {
            let wrong = || Failure::Failed(format!("line {number} of standard input is not RULE LEVEL DURATION FIRST SECOND [THIRD]"));
            repeaters.push(assignment(line).ok_or_else(wrong)?);
            lines.push(number);
        }
        Ok(())
    })?;
    let named = |i: usize| format!("repeater {i} (line {})", lines[i]);
    match Site::check(&repeaters) {
        Site::Accepted => Output::standard()?.write(format!("accepted: {} repeaters\n", repeaters.len()).as_bytes()),
        Site::OutOfRange => Err(Failure::refused(format!("{} repeaters", repeaters.len()), Refusal::Argument)),
        Site::Unlawful(i) => Err(Failure::refused(named(i), Refusal::Unlawful)),
        Site::Overlap(i, j) => Err(Failure::refused(format!("{} and {}", named(i), named(j)), Refusal::Overlap)),
    }
}

#[cfg(test)]
mod tests {
    use super::*;

    #[test]
    fn assignments() {
        let a = assignment("standard 1 1999 10 20").unwrap();
        assert_eq!((a.rule, a.level, a.duration, a.plan), (Rule::Standard, 1, 1_999, SlotPlan { first: 10, second: 20, third: None }));
        for line in ["", "standard", "standard 1", "standard 1 1", "standard 1 1 1", "other 1 1 1 1", "standard 1 1 1 256", "standard 1 1 1 1 1 1"] {
            assert!(assignment(line).is_none(), "{line}");
        }
    }
}
