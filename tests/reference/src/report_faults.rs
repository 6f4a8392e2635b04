//! Wrong sheets that the stored calls must show (document 02, A12).

use crate::archive::{self, read, Row};
use crate::report::{self, add, line, share, Line, Sheet};
use crate::report_calls::{calls, show, Rules, Sheets};
use crate::subtelegram::{Refusal, NOT_ACCEPTED, OUT_OF_RANGE};

#[derive(Clone, Copy, Debug)]
enum Fault {
    /// LOOSE rows left out of the share.
    LooseLeftOut,
    /// The share rounded to the nearest.
    Rounded,
    /// Refuses a number received that equals the number of rows.
    AsManyRefused,
    /// Takes a number received of 0 as a share of 0.
    NoneReceived,
    /// One row with two times accepted.
    TwoTimes,
    /// Accepts for fewer archives as many rows as 64 archives hold.
    RowsOf64,
    /// A 65th archive accepted.
    Archive65,
    /// Drops a 257th transmitter and takes the archive.
    Dropped,
    /// Tests 10 before the archive is read.
    CountFirst,
    /// Has the earliest time of the last archive only.
    LastEarliest,
    /// KEPT and LOOSE changed for each other.
    Exchanged,
    /// DESTID for TXID.
    Destid,
}

use Fault::*;

const FAULTS: [Fault; 12] = [
    LooseLeftOut,
    Rounded,
    AsManyRefused,
    NoneReceived,
    TwoTimes,
    RowsOf64,
    Archive65,
    Dropped,
    CountFirst,
    LastEarliest,
    Exchanged,
    Destid,
];

struct Wrong(Fault);

/// The identities of a sheet that uses DESTID for addressed rows.
fn by_destid(rows: &[Row]) -> Vec<u64> {
    let identity = |row: &Row| match row.bytes[0] {
        0xA6 => u32::from_be_bytes(row.bytes[3..7].try_into().unwrap()).into(),
        _ => archive::identity(row).into(),
    };
    rows.iter().map(identity).collect()
}

impl Sheets for Wrong {
    fn add(&self, sheet: &mut Sheet, room: &[u8]) -> Result<(), (Refusal, usize)> {
        let before = sheet.clone();
        match self.0 {
            Archive65 if sheet.archives == 64 => {
                sheet.archives = 63;
                let answer = add(sheet, room);
                sheet.archives = 65;
                return answer;
            }
            CountFirst if sheet.archives == 64 && report::is_given(sheet) => {
                return Err((OUT_OF_RANGE, 0));
            }
            TwoTimes | RowsOf64
                if line(sheet, 0) == Err(NOT_ACCEPTED)
                    && self.line(sheet, 0) != Err(NOT_ACCEPTED) =>
            {
                read(room)?;
                sheet.archives += 1;
                return Ok(());
            }
            _ => {}
        }
        let answer = add(sheet, room);
        match (self.0, answer) {
            (Dropped, Err((17, _))) => {
                sheet.archives += 1;
                return Ok(());
            }
            (LastEarliest, Ok(())) => {
                for new in &mut sheet.lines {
                    let old = before.lines.iter().find(|l| l.identity == new.identity);
                    if let Some(old) = old {
                        new.earliest = new.earliest.max(old.earliest);
                    }
                }
            }
            (Exchanged, Ok(())) => std::mem::swap(&mut sheet.kept, &mut sheet.loose),
            (Destid, Ok(())) => {
                let ids = by_destid(&read(room)?);
                sheet.lines.retain(|l| ids.contains(&l.identity));
            }
            _ => {}
        }
        answer
    }

    fn line(&self, sheet: &Sheet, i: u64) -> Result<Line, Refusal> {
        let answer = line(sheet, i);
        if answer != Err(NOT_ACCEPTED) {
            return answer;
        }
        let mut mended = sheet.clone();
        match self.0 {
            TwoTimes => {
                for l in &mut mended.lines {
                    l.latest = l.latest.min(l.earliest).max(l.earliest);
                }
            }
            RowsOf64 if sheet.archives <= 64 => mended.archives = 64,
            _ => return answer,
        }
        line(&mended, i).map(|_| sheet.lines[i as usize])
    }

    fn share(&self, sheet: &Sheet, received: u64) -> Result<u64, Refusal> {
        let rows = sheet.kept + sheet.loose;
        match self.0 {
            LooseLeftOut => share(sheet, received).map(|_| 1000 * sheet.kept / received),
            Rounded => share(sheet, received).map(|_| {
                ((1000 * u128::from(rows) + u128::from(received) / 2) / u128::from(received)) as u64
            }),
            AsManyRefused if received == rows && rows > 0 => Err(OUT_OF_RANGE),
            NoneReceived if received == 0 && report::is_given(sheet) => Ok(0),
            _ => share(sheet, received),
        }
    }
}

#[test]
fn each_fault_shows() {
    let calls = calls();
    let right = show(&calls, &Rules);
    for fault in FAULTS {
        assert_ne!(show(&calls, &Wrong(fault)), right, "{fault:?}");
    }
}
