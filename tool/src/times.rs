//! Times for people: ms since 1970 as dates in UTC, as ISO 8601 writes them.
use crate::args::Args;
use crate::failure::Failure;
use crate::text;

pub const DAY: u64 = 24 * 60 * 60 * 1000;
/// What `--from` and `--to` are.
const KIND: &str = "ms since 1970, a day as 2026-11-16, or a time as 2026-11-16T08:00:00Z or 2026-11-16T09:00:00+01:00";

/// A day of the calendar.
#[derive(Clone, Copy, Debug, PartialEq, Eq)]
pub struct Date {
    pub year: u64,
    pub month: u64,
    pub day: u64,
}

impl Date {
    /// The day of a time.
    pub fn of(time: u64) -> Date {
        // Cycles of 400 years with 146,097 days each, counted from 0000-03-01, so a leap day is the last day of its year.
        let day = time / DAY + 719_468;
        let (era, day) = (day / 146_097, day % 146_097);
        let year = (day - day / 1_460 + day / 36_524 - day / 146_096) / 365;
        let day = day - (365 * year + year / 4 - year / 100);
        let from_march = (5 * day + 2) / 153;
        let is_after_december = from_march >= 10;
        let month = if is_after_december { from_march - 9 } else { from_march + 3 };
        Date { year: 400 * era + year + u64::from(is_after_december), month, day: day - (153 * from_march + 2) / 5 + 1 }
    }

    /// Its first ms; none before 1970, and for a day that its month does not have.
    fn start(&self) -> Option<u64> {
        let (year, from_march) = if self.month > 2 { (self.year, self.month - 3) } else { (self.year.checked_sub(1)?, self.month + 9) };
        let days = 365 * year + year / 4 - year / 100 + year / 400 + (153 * from_march + 2) / 5 + self.day.checked_sub(1)?;
        let start = days.checked_sub(719_468)? * DAY;
        (Date::of(start) == *self).then_some(start)
    }
}

/// The week of a time as ISO 8601 counts them: `2026-W47`.
pub fn week(time: u64) -> String {
    // The Thursday of a week decides its year. Day 0 was a Thursday.
    let day = time / DAY;
    let thursday = (day + 3) / 7 * 7;
    let year = Date::of(thursday * DAY).year;
    let first = Date { year, month: 1, day: 1 }.start().map_or(0, |start| start / DAY);
    format!("{year:04}-W{:02}", (thursday - first) / 7 + 1)
}

/// `2026-11-16T08:00:00.000Z`; the ms if the year has more than four digits.
pub fn iso(time: u64) -> String {
    let Date { year, month, day } = Date::of(time);
    if year > 9_999 {
        return time.to_string();
    }
    let (ms, seconds) = (time % 1_000, time % DAY / 1_000);
    let (hour, minute, second) = (seconds / 3_600, seconds / 60 % 60, seconds % 60);
    format!("{year:04}-{month:02}-{day:02}T{hour:02}:{minute:02}:{second:02}.{ms:03}Z")
}

/// Numbers with these widths, with these characters between them and nothing after.
fn parts<const N: usize>(text: &str, widths: [usize; N], between: &[char]) -> Option<[u64; N]> {
    let mut rest = text;
    let mut numbers = [0; N];
    for (i, width) in widths.into_iter().enumerate() {
        if i > 0 {
            rest = rest.strip_prefix(between[i - 1])?;
        }
        let digits = rest.get(..width).filter(|d| d.bytes().all(|c| c.is_ascii_digit()))?;
        (numbers[i], rest) = (digits.parse().ok()?, &rest[width..]);
    }
    rest.is_empty().then_some(numbers)
}

/// The first ms of a day.
fn day(text: &str) -> Option<u64> {
    let [year, month, day] = parts(text, [4, 2, 2], &['-', '-'])?;
    if !(1..=12).contains(&month) {
        return None;
    }
    Date { year, month, day }.start()
}

/// How far a clock is ahead of UTC, in ms, from `Z`, `+01:00` or `-05:00` at the end of a text; and the text before it.
fn zone(text: &str) -> Option<(&str, i64)> {
    if let Some(before) = text.strip_suffix('Z') {
        return Some((before, 0));
    }
    let at = text.rfind(['+', '-'])?;
    let [hours, minutes] = parts(&text[at + 1..], [2, 2], &[':'])?;
    let ahead = (hours * 60 + minutes) as i64 * 60_000;
    (hours < 24 && minutes < 60).then_some((&text[..at], if text[at..].starts_with('-') { -ahead } else { ahead }))
}

/// A time of a day, to the minute, the second or the ms.
fn clock(text: &str) -> Option<u64> {
    let marks = [':', ':', '.'];
    let [hour, minute, second, ms] = parts(text, [2, 2, 2, 3], &marks)
        .or_else(|| parts(text, [2, 2, 2], &marks).map(|[h, m, s]| [h, m, s, 0]))
        .or_else(|| parts(text, [2, 2], &marks).map(|[h, m]| [h, m, 0, 0]))?;
    (hour < 24 && minute < 60 && second < 60).then_some(((hour * 60 + minute) * 60 + second) * 1_000 + ms)
}

/// A time as a person writes it; for a day, its first ms or its last one.
fn time(text: &str, of_day: u64) -> Option<u64> {
    match text.split_once('T') {
        Some((date, rest)) => {
            let (of_clock, ahead) = zone(rest)?;
            (day(date)? + clock(of_clock)?).checked_add_signed(-ahead)
        }
        None => text::number(text).or_else(|| Some(day(text)? + of_day)),
    }
}

/// The first and the last time that `--from` and `--to` name.
pub fn span(args: &Args) -> Result<(u64, u64), Failure> {
    let from = args.value("from", KIND, |text| time(text, 0))?;
    let to = args.value("to", KIND, |text| time(text, DAY - 1))?;
    match (from, to) {
        (Some(from), Some(to)) if from > to => Err(Failure::Usage(format!("--from {} is after --to {}.", iso(from), iso(to)))),
        _ => Ok((from.unwrap_or(0), to.unwrap_or(u64::MAX))),
    }
}

/// Whether `--times` asks for ISO times.
pub fn is_iso(args: &Args) -> Result<bool, Failure> {
    let named = |name: &str| ["ms", "iso"].iter().position(|n| *n == name).map(|at| at == 1);
    Ok(args.value("times", "ms or iso", named)?.unwrap_or(false))
}

#[cfg(test)]
mod tests {
    use super::*;

    #[test]
    fn every_day() {
        let mut start = 0;
        for year in 1970..=2_500_u64 {
            let is_leap = year % 4 == 0 && (year % 100 != 0 || year % 400 == 0);
            for (month, days) in (1..).zip([31, if is_leap { 29 } else { 28 }, 31, 30, 31, 30, 31, 31, 30, 31, 30, 31]) {
                for day in 1..=days {
                    let date = Date { year, month, day };
                    assert_eq!([Date::of(start), Date::of(start + DAY - 1)], [date, date]);
                    assert_eq!(date.start(), Some(start));
                    assert_eq!(time(&iso(start + 12_345_678), 0), Some(start + 12_345_678));
                    start += DAY;
                }
                assert_eq!(Date { year, month, day: days + 1 }.start(), None);
            }
        }
    }

    #[test]
    fn texts() {
        assert_eq!(iso(1_794_816_000_007), "2026-11-16T08:00:00.007Z");
        assert_eq!([iso(u64::MAX), iso(0)], ["18446744073709551615", "1970-01-01T00:00:00.000Z"]);
        for text in ["1794816000000", "2026-11-16T08:00Z", "2026-11-16T08:00:00Z", "2026-11-16T08:00:00.000Z"] {
            assert_eq!(time(text, 0), Some(1_794_816_000_000), "{text}");
        }
        for text in ["2026-11-16T09:00:00+01:00", "2026-11-16T03:00-05:00", "2026-11-17T07:59:00.000+23:59", "2026-11-16T08:00:00-00:00"] {
            assert_eq!(time(text, 0), Some(1_794_816_000_000), "{text}");
        }
        for text in ["1970-01-01T00:00+00:01", "2026-11-16T09:00+1:00", "2026-11-16T09:00+24:00", "2026-11-16T09:00+01:60", "2026-11-16+01:00"] {
            assert_eq!(time(text, 0), None, "{text}");
        }
        assert_eq!([time("2026-11-16", 0), time("2026-11-16", DAY - 1)], [Some(1_794_787_200_000), Some(1_794_873_599_999)]);
        for text in
            ["", "2026-11", "2026-13-01", "2026-02-29", "1969-12-31", "2026-11-16T08:00:00", "2026-11-16T24:00Z", "2026-11-16TZ", "2026-1-1", "é"]
        {
            assert_eq!(time(text, 0), None, "{text}");
        }
    }

    #[test]
    fn weeks() {
        // 2026 began on a Thursday and has 53 weeks.
        let of = |text: &str| week(day(text).unwrap());
        assert_eq!(
            ["2026-01-01", "2026-01-04", "2026-01-05", "2026-12-31", "2027-01-03", "2027-01-04"].map(of),
            ["2026-W01", "2026-W01", "2026-W02", "2026-W53", "2026-W53", "2027-W01"]
        );
        assert_eq!(of("1970-01-01"), "1970-W01");
        assert_eq!(of("2024-12-30"), "2025-W01");
    }
}
