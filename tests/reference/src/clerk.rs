//! The clerk (document 01, "One history, and the clerk who writes it down").

use crate::image;
use crate::subtelegram::{check, level, same, Refusal, CLOCK_BACK, FULL_COUNT, OUT_OF_RANGE};

/// RX maturity: a telegram kept at f is open at t while t - f is at most this.
pub const OPEN_FOR: u64 = 100;
/// TX maturity: a sender has finished this many ms after it began (document 02, A6).
pub const SENT_WITHIN: u64 = 40;
/// How many telegrams can be open at once.
pub const PLACES: usize = 64;
/// The number of copies of a telegram rises to this and stays there (document 02, A8).
pub const CEILING: u16 = 65_535;

#[derive(Debug, Clone, Copy, PartialEq)]
pub enum Answer {
    Kept,
    Copy,
    Loose,
    Refused(Refusal),
}

impl Answer {
    pub fn accepted(self) -> bool {
        !matches!(self, Answer::Refused(_))
    }
}

/// A reception with the answer it got.
#[derive(Debug, Clone)]
pub struct Noted {
    pub time: u64,
    pub bytes: Vec<u8>,
    pub answer: Answer,
    /// For a COPY, the index in `noted` of the opening that it belongs to.
    pub opening: Option<usize>,
}

#[derive(Debug, Clone, Copy, PartialEq, Default)]
pub struct Totals {
    pub received: u64,
    pub kept: u64,
    pub copies: u64,
    pub loose: u64,
    pub damaged: u64,
    pub late: u64,
}

impl Totals {
    /// The same with n fewer KEPT.
    pub fn without_kept(self, n: u64) -> Totals {
        Totals {
            received: self.received - n,
            kept: self.kept - n,
            ..self
        }
    }

    pub fn plus(self, other: Totals) -> Totals {
        Totals {
            received: self.received + other.received,
            kept: self.kept + other.kept,
            copies: self.copies + other.copies,
            loose: self.loose + other.loose,
            damaged: self.damaged + other.damaged,
            late: self.late + other.late,
        }
    }

    pub fn text(&self) -> String {
        format!(
            "{} {} {} {} {} {}",
            self.received, self.kept, self.copies, self.loose, self.damaged, self.late
        )
    }
}

/// The clerk keeps every reception with its answer. The two lists of positions only say where in
/// `noted` the accepted ones and the KEPT ones are; nothing is ever removed from them.
///
/// An accepted reception (KEPT, COPY, LOOSE) has no accepted one before it with a greater time,
/// else it would have got 7. So accepted times never fall, and two shortcuts give what a search in
/// all receptions gives. The greatest accepted time is that of the last accepted one. And in a
/// search back over the KEPT ones, the first with t - f above 100 ends the search, because all
/// before it are as old or older.
#[derive(Clone)]
pub struct Clerk {
    pub noted: Vec<Noted>,
    accepted: Vec<usize>,
    kept: Vec<usize>,
    /// For a clerk that continues from an image: its totals without the entries, its latest time,
    /// and the copies of each entry. The entries are the first in `noted`.
    earlier: Totals,
    earlier_latest: u64,
    earlier_copies: Vec<u16>,
}

impl Clerk {
    pub fn new() -> Clerk {
        Clerk {
            noted: Vec::new(),
            accepted: Vec::new(),
            kept: Vec::new(),
            earlier: Totals::default(),
            earlier_latest: 0,
            earlier_copies: Vec::new(),
        }
    }

    /// Continues from an image that was accepted and belongs to no history: its entries are the
    /// receptions that were answered KEPT, and the rest is in its numbers.
    pub fn going_on(image: image::Reloaded) -> Clerk {
        let mut clerk = Clerk::new();
        for (at, entry) in image.entries.into_iter().enumerate() {
            clerk.accepted.push(at);
            clerk.kept.push(at);
            clerk.earlier_copies.push(entry.copies);
            clerk.noted.push(Noted {
                time: entry.time,
                bytes: entry.bytes,
                answer: Answer::Kept,
                opening: None,
            });
        }
        clerk.earlier = image.totals.without_kept(clerk.noted.len() as u64);
        clerk.earlier_latest = image.latest;
        clerk
    }

    /// Takes one reception, and returns the answer.
    pub fn take(&mut self, time: u64, bytes: &[u8]) -> Answer {
        let (answer, opening) = self.answer(time, bytes);
        if answer.accepted() {
            self.accepted.push(self.noted.len());
        }
        if answer == Answer::Kept {
            self.kept.push(self.noted.len());
        }
        self.noted.push(Noted {
            time,
            bytes: bytes.to_vec(),
            answer,
            opening,
        });
        answer
    }

    /// The first answer that fits; and for a COPY the opening that it belongs to.
    fn answer(&self, time: u64, bytes: &[u8]) -> (Answer, Option<usize>) {
        if self.counted_full() {
            return (Answer::Refused(FULL_COUNT), None);
        }
        if let Err(number) = check(bytes) {
            return (Answer::Refused(number), None);
        }
        if self.latest() > time {
            return (Answer::Refused(CLOCK_BACK), None);
        }
        let open = self.open_at(time);
        // "the latest open same telegram"; "every COPY .. belongs to the latest opening"
        let latest = open.iter().find(|&&at| same(&self.noted[at].bytes, bytes));
        if let Some(&at) = latest {
            if !is_second_event(self.noted[at].time, time, bytes) {
                return (Answer::Copy, Some(at));
            }
        }
        if open.len() >= PLACES {
            return (Answer::Loose, None);
        }
        (Answer::Kept, None)
    }

    /// Whether 2^64 - 1 have another answer than 8. If there are fewer receptions in all, it need
    /// not count.
    fn counted_full(&self) -> bool {
        let left = u64::MAX - self.earlier.received;
        self.noted.len() as u64 >= left && self.totals().received == u64::MAX
    }

    /// The indices of the KEPT ones with time - f <= 100, the latest first. No accepted reception
    /// is later than this time.
    fn open_at(&self, time: u64) -> Vec<usize> {
        let latest_first = self.kept.iter().rev().copied();
        latest_first
            .take_while(|&at| time - self.noted[at].time <= OPEN_FOR)
            .collect()
    }

    /// The greatest time that he answered KEPT, COPY or LOOSE, 0 if none.
    pub fn latest(&self) -> u64 {
        let noted = self.accepted.last().map_or(0, |&at| self.noted[at].time);
        noted.max(self.earlier_latest)
    }

    /// The indices of the KEPT ones with latest - f <= 100, in the order handed over.
    fn places(&self) -> Vec<usize> {
        let mut places = self.open_at(self.latest());
        places.reverse();
        places
    }

    /// "the number of his own COPY answers for that opening, to the same ceiling" (document 02,
    /// A8); for a clerk that continues from an image, some are counted already.
    fn copies_of(&self, opening: usize) -> u16 {
        let earlier = self.earlier_copies.get(opening).copied().unwrap_or(0);
        let answers = self.noted[opening..].iter();
        let own = answers.filter(|noted| noted.opening == Some(opening));
        let all = usize::from(earlier) + own.count();
        all.min(usize::from(CEILING)) as u16
    }

    /// The copies of the telegram with this index, in opening order and from 0 (document 02, A8).
    pub fn copies(&self, place: u64) -> Result<u16, Refusal> {
        let places = self.places();
        let place = usize::try_from(place).map_err(|_| OUT_OF_RANGE)?;
        let opening = places.get(place).ok_or(OUT_OF_RANGE)?;
        Ok(self.copies_of(*opening))
    }

    /// The open telegrams at the latest time, in opening order, each with its copies.
    pub fn entries(&self) -> Vec<image::Entry> {
        let entry = |at: usize| image::Entry {
            time: self.noted[at].time,
            bytes: self.noted[at].bytes.clone(),
            copies: self.copies_of(at),
        };
        self.places().into_iter().map(entry).collect()
    }

    /// The totals count the clerk's own answers.
    pub fn totals(&self) -> Totals {
        self.earlier.plus(totals_of(&self.noted))
    }

    /// The clerk's image, with zero in the setting's place (document 02, A7).
    pub fn image(&self) -> Vec<u8> {
        image::write(self.latest(), &self.totals(), 0, &self.entries())
    }
}

/// "a valid level 0 reception more than 40 ms after the opening" (document 02, A6).
pub fn is_second_event(opened: u64, time: u64, bytes: &[u8]) -> bool {
    level(bytes) == 0 && time - opened > SENT_WITHIN
}

pub fn totals_of(noted: &[Noted]) -> Totals {
    let mut totals = Totals::default();
    for one in noted {
        match one.answer {
            Answer::Kept => totals.kept += 1,
            Answer::Copy => totals.copies += 1,
            Answer::Loose => totals.loose += 1,
            Answer::Refused(FULL_COUNT) => continue,
            Answer::Refused(CLOCK_BACK) => totals.late += 1,
            Answer::Refused(_) => totals.damaged += 1,
        }
        totals.received += 1;
    }
    totals
}
