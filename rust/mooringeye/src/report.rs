//! Reports over archives.
use crate::raw;
use crate::refusal::{done, done_at, Refusal, Refused};
use std::fmt;

/// What one transmitter has in a report.
///
/// ```
/// let line = mooringeye::Line { identity: 0x0102_0304, kept: 3, loose: 0, earliest: 1_000, latest: 5_000 };
/// assert_eq!(line.identity.to_be_bytes(), [1, 2, 3, 4]);
/// ```
#[derive(Clone, Copy, Debug, PartialEq, Eq, Hash)]
pub struct Line {
    /// The transmitter: its TXID, the first byte the highest.
    pub identity: u32,
    /// Its KEPT rows.
    pub kept: u64,
    /// Its LOOSE rows.
    pub loose: u64,
    /// The earliest time of its rows.
    pub earliest: u64,
    /// The latest.
    pub latest: u64,
}

/// The yearly report: up to 64 archives, at most 256 transmitters.
///
/// ```
/// use mooringeye::{Archive, Report, Row, Telegram};
///
/// # fn main() -> Result<(), Box<dyn std::error::Error>> {
/// let mut buffer = [0; 512];
/// let telegram = Telegram::new(&[0xD5, 0x09, 1, 2, 3, 4, 0, 0xE8])?;
/// Archive::open(&mut buffer)?.append(&Row { telegram, time: 1_000, loose: false })?;
///
/// let mut report = Report::new();
/// report.add(&buffer)?;
/// report.add(&buffer)?;
/// assert_eq!((report.archives(), report.kept(), report.loose()), (2, 2, 0));
/// assert_eq!(report.lines().next().unwrap().identity, 0x0102_0304);
/// assert_eq!(report.share(3)?, 666);
/// # Ok(())
/// # }
/// ```
#[derive(Clone, PartialEq, Eq)]
pub struct Report {
    pub(crate) numbers: [u64; raw::REPORT_NUMBERS],
    pub(crate) lines: Box<[u64; raw::REPORT_LINES]>,
}

impl Report {
    /// The most archives of a report, and the most transmitters.
    pub const MAX_ARCHIVES: usize = 64;
    /// The most transmitters of a report.
    pub const MAX_LINES: usize = 256;

    /// A report of no archive.
    pub fn new() -> Report {
        let mut report = Report { numbers: [0; raw::REPORT_NUMBERS], lines: Box::new([0; raw::REPORT_LINES]) };
        raw::report_empty(&mut report.numbers, &mut report.lines);
        report
    }

    /// Adds the rows of an archive. Refused, and nothing added: [`Refusal::Size`], [`Refusal::Mismatch`] with the position, [`Refusal::Argument`] for
    /// a 65th archive, [`Refusal::Transmitters`].
    pub fn add(&mut self, archive: &[u8]) -> Result<(), Refused> {
        let mut position = 0;
        done_at(raw::report_add(&mut self.numbers, &mut self.lines, archive, &mut position), position)
    }

    /// How many archives were added.
    pub fn archives(&self) -> u64 {
        self.numbers[0]
    }

    /// All KEPT rows.
    pub fn kept(&self) -> u64 {
        self.numbers[2]
    }

    /// All LOOSE rows.
    pub fn loose(&self) -> u64 {
        self.numbers[3]
    }

    /// Line `index`, from 0, in order of identity.
    pub fn line(&self, index: usize) -> Option<Line> {
        let mut line = [0; raw::LINE_NUMBERS];
        match done(raw::report_line(&self.numbers, &self.lines, index, &mut line)) {
            Ok(()) => {
                let [identity, kept, loose, earliest, latest] = line;
                Some(Line { identity: identity as u32, kept, loose, earliest, latest })
            }
            Err(_) => None,
        }
    }

    /// Its lines, in order of identity.
    pub fn lines(&self) -> impl Iterator<Item = Line> + '_ {
        (0..Report::MAX_LINES).map_while(|i| self.line(i))
    }

    /// The share of its rows in a received figure, in whole thousandths rounded down. Refused: [`Refusal::Argument`] for a figure of 0 or less than
    /// the rows.
    pub fn share(&self, received: u64) -> Result<u64, Refusal> {
        let mut thousandths = 0;
        done(raw::report_share(&self.numbers, &self.lines, received, &mut thousandths))?;
        Ok(thousandths)
    }
}

impl Default for Report {
    fn default() -> Report {
        Report::new()
    }
}

impl fmt::Debug for Report {
    fn fmt(&self, f: &mut fmt::Formatter<'_>) -> fmt::Result {
        f.debug_struct("Report")
            .field("archives", &self.archives())
            .field("kept", &self.kept())
            .field("loose", &self.loose())
            .field("lines", &self.lines().collect::<Vec<_>>())
            .finish()
    }
}

#[cfg(test)]
mod tests {
    use super::*;
    use crate::{Archive, Fields, Row, Telegram};

    fn archive_of(transmitters: std::ops::Range<u32>) -> Vec<u8> {
        let mut buffer = vec![0; 512 * transmitters.len().div_ceil(15)];
        let mut archive = Archive::open(&mut buffer).unwrap();
        for x in transmitters {
            let fields = Fields { rorg: 0xF6, data: vec![0x50], destid: None, txid: x.to_be_bytes(), status: 0x30 };
            let telegram = Telegram::build(&fields).unwrap();
            archive.append(&Row { telegram, time: u64::from(x), loose: x % 2 == 1 }).unwrap();
        }
        buffer
    }

    #[test]
    fn most_transmitters_and_archives() {
        let mut report = Report::new();
        report.add(&archive_of(0..256)).unwrap();
        let before = report.clone();
        assert_eq!(report.add(&archive_of(255..257)).unwrap_err().why, Refusal::Transmitters);
        assert_eq!(report, before);
        assert_eq!(report.lines().map(|l| l.identity).collect::<Vec<_>>(), (0..256).collect::<Vec<_>>());
        for _ in 1..64 {
            report.add(&[]).unwrap();
        }
        assert_eq!(report.add(&[]).unwrap_err().why, Refusal::Argument);
        assert_eq!((report.archives(), report.kept(), report.loose()), (64, 128, 128));
        assert_eq!(report.line(256), None);
    }

    #[test]
    fn refusals() {
        let mut report = Report::new();
        assert_eq!(report.add(&[0; 100]).unwrap_err().why, Refusal::Size);
        let mut damaged = archive_of(0..20);
        damaged[512 + 40] ^= 1;
        assert_eq!(report.add(&damaged).unwrap_err(), Refused { why: Refusal::Mismatch, position: 1 });
        assert_eq!(report.share(0), Err(Refusal::Argument));
        assert_eq!(report.share(1), Ok(0));
    }
}
