//! Rows in PostgreSQL's COPY BINARY format, and the months of their times.
use crate::times::Date;
use mooringeye::Row;
use std::fmt::{self, Display};

/// Signature, flags, and no extension.
pub const HEADER: &[u8; 19] = b"PGCOPY\n\xFF\r\n\0\0\0\0\0\0\0\0\0";
/// A row of -1 columns ends the rows.
pub const TRAILER: &[u8; 2] = b"\xFF\xFF";
/// The columns: row (bigint), at (timestamptz), time (numeric), loose (boolean), txid and telegram (bytea).
const COLUMNS: u16 = 6;

/// The time from which PostgreSQL counts, 2000-01-01, in ms of Unix time.
const EPOCH: i128 = 946_684_800_000;
/// The first microsecond that a timestamptz cannot hold.
const END: i128 = 9_223_371_331_200_000_000;
const INFINITY: i64 = i64::MAX;

pub fn put_row(out: &mut Vec<u8>, number: u64, row: &Row) {
    out.extend_from_slice(&COLUMNS.to_be_bytes());
    put(out, &number.to_be_bytes());
    put(out, &timestamp(row.time).to_be_bytes());
    put_numeric(out, row.time);
    put(out, &[row.loose.into()]);
    put(out, &row.telegram.txid());
    put(out, row.telegram.as_bytes());
}

/// A value with its length before it.
fn put(out: &mut Vec<u8>, value: &[u8]) {
    out.extend_from_slice(&(value.len() as u32).to_be_bytes());
    out.extend_from_slice(value);
}

/// Microseconds since 2000-01-01; infinity for a time that is too late.
fn timestamp(time: u64) -> i64 {
    match 1_000 * (i128::from(time) - EPOCH) {
        late if late >= END => INFINITY,
        micros => micros as i64,
    }
}

/// A whole number as a numeric: the number of its digits to the base 10,000, the power of the first, no sign, no digits after the point, and the
/// digits.
fn put_numeric(out: &mut Vec<u8>, mut value: u64) {
    let mut digits = [0; 5]; // 2^64 is below 10,000^5
    let mut start = digits.len();
    while value > 0 {
        start -= 1;
        digits[start] = (value % 10_000) as u16;
        value /= 10_000;
    }
    let digits = &digits[start..];
    let count = digits.len() as u16;
    out.extend_from_slice(&(8 + 2 * u32::from(count)).to_be_bytes());
    for word in [count, count.saturating_sub(1), 0, 0].iter().chain(digits) {
        out.extend_from_slice(&word.to_be_bytes());
    }
}

/// A month of the calendar, by Unix time in UTC.
#[derive(Clone, Copy, Debug, PartialEq, Eq, PartialOrd, Ord)]
pub struct Month {
    year: u64,
    month: u64,
}

impl Month {
    pub fn of(time: u64) -> Month {
        let Date { year, month, .. } = Date::of(time);
        Month { year, month }
    }
}

/// `2026-11`, and `later` for a year of more than four digits.
impl Display for Month {
    fn fmt(&self, f: &mut fmt::Formatter) -> fmt::Result {
        if self.year > 9_999 {
            return f.write_str("later");
        }
        write!(f, "{:04}-{:02}", self.year, self.month)
    }
}

#[cfg(test)]
mod tests {
    use super::*;
    use crate::times::DAY;

    #[test]
    fn every_month() {
        let mut day = 0;
        for year in 1970..=10_000_u64 {
            let is_leap = year % 4 == 0 && (year % 100 != 0 || year % 400 == 0);
            for (month, days) in (1..).zip([31, if is_leap { 29 } else { 28 }, 31, 30, 31, 30, 31, 31, 30, 31, 30, 31]) {
                assert_eq!(Month::of(DAY * day), Month { year, month });
                day += days;
                assert_eq!(Month::of(DAY * day - 1), Month { year, month });
            }
        }
        assert_eq!([0, 1_794_873_600_000, 253_402_300_799_999].map(|t| Month::of(t).to_string()), ["1970-01", "2026-11", "9999-12"]);
        assert_eq!([253_402_300_800_000, u64::MAX].map(|t| Month::of(t).to_string()), ["later", "later"]);
    }

    #[test]
    fn times() {
        assert_eq!([0, EPOCH as u64, EPOCH as u64 + 1].map(timestamp), [-946_684_800_000_000, 0, 1_000]);
        let last = (END / 1_000 + EPOCH - 1) as u64;
        assert_eq!([last, last + 1, u64::MAX].map(timestamp), [(END - 1_000) as i64, INFINITY, INFINITY]);
    }

    #[test]
    fn numbers() {
        let words = |value| {
            let mut out = Vec::new();
            put_numeric(&mut out, value);
            assert_eq!(out[..4], (out.len() as u32 - 4).to_be_bytes());
            out[4..].chunks(2).map(|w| u16::from_be_bytes([w[0], w[1]])).collect::<Vec<_>>()
        };
        assert_eq!(words(0), [0, 0, 0, 0]);
        assert_eq!(words(7), [1, 0, 0, 0, 7]);
        assert_eq!(words(10_000), [2, 1, 0, 0, 1, 0]);
        assert_eq!(words(u64::MAX), [5, 4, 0, 0, 1844, 6744, 737, 955, 1615]);
    }
}
