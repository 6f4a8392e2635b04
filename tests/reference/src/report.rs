//! The yearly sheet (document 02, A12): rows are kept in groups by transmitter, and a sheet that is
//! handed in is judged by what archives could give.

use crate::archive::{identity, read, Row};
use crate::subtelegram::{Refusal, NOT_ACCEPTED, OUT_OF_RANGE};
use std::collections::BTreeMap;

pub const TRANSMITTERS: Refusal = 17;

pub const ARCHIVES: u64 = 64;
pub const LINES: usize = 256;
/// The largest number of rows in one archive: 2^32 blocks of 15.
pub const ROWS: u128 = 15 << 32;

/// The line of one transmitter.
#[derive(Debug, Clone, Copy, PartialEq, Default)]
pub struct Line {
    pub identity: u64,
    pub kept: u64,
    pub loose: u64,
    pub earliest: u64,
    pub latest: u64,
}

#[derive(Debug, Clone, PartialEq, Default)]
pub struct Sheet {
    pub archives: u64,
    pub lines: Vec<Line>,
    pub kept: u64,
    pub loose: u64,
}

fn rows(line: &Line) -> u128 {
    u128::from(line.kept) + u128::from(line.loose)
}

/// Whether rows can give exactly this line: if there are two or more, at least one at the earliest
/// and one at the latest time.
fn could_be(line: &Line) -> bool {
    let times = line.earliest <= line.latest;
    let one = line.earliest == line.latest;
    line.identity < 1 << 32 && times && (rows(line) > 1 || (rows(line) == 1 && one))
}

/// Whether some archives give this sheet.
pub fn is_given(sheet: &Sheet) -> bool {
    let sum = |field: fn(&Line) -> u64| -> u128 {
        sheet.lines.iter().map(|l| u128::from(field(l))).sum()
    };
    let total = u128::from(sheet.kept) + u128::from(sheet.loose);
    sheet.archives <= ARCHIVES
        && sheet.lines.len() <= LINES
        && sheet.lines.iter().all(could_be)
        && sheet.lines.is_sorted_by(|a, b| a.identity < b.identity)
        && sum(|l| l.kept) == u128::from(sheet.kept)
        && sum(|l| l.loose) == u128::from(sheet.loose)
        && total <= ROWS * u128::from(sheet.archives)
}

/// The lines of a sheet with these rows added, grouped by transmitter.
fn grouped(lines: &[Line], rows: &[Row]) -> Vec<Line> {
    let mut groups: BTreeMap<u64, Vec<Line>> = BTreeMap::new();
    for line in lines {
        groups.entry(line.identity).or_default().push(*line);
    }
    for row in rows {
        let identity = u64::from(identity(row));
        groups.entry(identity).or_default().push(Line {
            identity,
            kept: u64::from(!row.loose),
            loose: u64::from(row.loose),
            earliest: row.time,
            latest: row.time,
        });
    }
    let line = |(identity, group): (u64, Vec<Line>)| Line {
        identity,
        kept: group.iter().map(|l| l.kept).sum(),
        loose: group.iter().map(|l| l.loose).sum(),
        earliest: group.iter().map(|l| l.earliest).min().unwrap(),
        latest: group.iter().map(|l| l.latest).max().unwrap(),
    };
    groups.into_iter().map(line).collect()
}

/// Adds one more archive; a refused one adds nothing.
pub fn add(sheet: &mut Sheet, room: &[u8]) -> Result<(), (Refusal, usize)> {
    if !is_given(sheet) {
        return Err((NOT_ACCEPTED, 0));
    }
    let rows = read(room)?;
    if sheet.archives == ARCHIVES {
        return Err((OUT_OF_RANGE, 0));
    }
    let lines = grouped(&sheet.lines, &rows);
    if lines.len() > LINES {
        return Err((TRANSMITTERS, 0));
    }
    sheet.archives += 1;
    sheet.kept = lines.iter().map(|l| l.kept).sum();
    sheet.loose = lines.iter().map(|l| l.loose).sum();
    sheet.lines = lines;
    Ok(())
}

pub fn line(sheet: &Sheet, i: u64) -> Result<Line, Refusal> {
    if !is_given(sheet) {
        return Err(NOT_ACCEPTED);
    }
    let line = usize::try_from(i).ok().and_then(|i| sheet.lines.get(i));
    line.copied().ok_or(OUT_OF_RANGE)
}

/// "In whole thousandths rounded down."
pub fn share(sheet: &Sheet, received: u64) -> Result<u64, Refusal> {
    if !is_given(sheet) {
        return Err(NOT_ACCEPTED);
    }
    let rows = sheet.kept + sheet.loose;
    if received == 0 || received < rows {
        return Err(OUT_OF_RANGE);
    }
    Ok((1000 * u128::from(rows) / u128::from(received)) as u64)
}
