//! The collector: receptions go in, and each is answered KEPT, COPY or LOOSE.
use crate::lines::{newlines, Format, Lines, Taken};
use crate::raw;
use crate::refusal::{done, Refusal};
use crate::telegram::{frame, Telegram};
use std::fmt;

/// What a reception is.
///
/// ```
/// assert_eq!(mooringeye::Answer::Kept.to_string(), "KEPT");
/// ```
#[derive(Clone, Copy, Debug, PartialEq, Eq, Hash)]
pub enum Answer {
    /// A telegram of its own: it was not open, or it is an original more than 40 ms after its latest opening.
    Kept,
    /// A telegram that is open, heard again.
    Copy,
    /// Heard while 64 others are open.
    Loose,
}

/// The word that `collect` prints.
impl fmt::Display for Answer {
    fn fmt(&self, f: &mut fmt::Formatter<'_>) -> fmt::Result {
        f.write_str(match self {
            Answer::Kept => "KEPT",
            Answer::Copy => "COPY",
            Answer::Loose => "LOOSE",
        })
    }
}

/// How many receptions there were, and what they were.
///
/// ```
/// use mooringeye::{Collector, Totals};
///
/// let mut collector = Collector::new();
/// assert_eq!(collector.totals(), Totals::default());
/// collector.take(&[1, 2, 3], 1_000).unwrap_err();
/// assert_eq!(collector.totals(), Totals { received: 1, damaged: 1, ..Totals::default() });
/// ```
#[derive(Clone, Copy, Debug, Default, PartialEq, Eq, Hash)]
pub struct Totals {
    /// All receptions that were counted: the sum of the others.
    pub received: u64,
    /// Those answered [`Answer::Kept`].
    pub kept: u64,
    /// Those answered [`Answer::Copy`].
    pub copies: u64,
    /// Those answered [`Answer::Loose`].
    pub loose: u64,
    /// Those that the check refused.
    pub damaged: u64,
    /// Those refused with [`Refusal::Late`].
    pub late: u64,
}

/// A reception of a burst.
///
/// ```
/// let reception = mooringeye::Reception { bytes: &[0xD5, 0x09, 1, 2, 3, 4, 0, 0xE8], time: 1_000 };
/// assert_eq!(mooringeye::check(reception.bytes), Ok(()));
/// ```
#[derive(Clone, Copy, Debug, PartialEq, Eq, Hash)]
pub struct Reception<'a> {
    /// What was received, of any length.
    pub bytes: &'a [u8],
    /// When its last byte was there, in milliseconds.
    pub time: u64,
}

/// The reply to a reception of a burst.
///
/// ```
/// use mooringeye::{Answer, Collector, Reception};
///
/// let reception = Reception { bytes: &[0xD5, 0x09, 1, 2, 3, 4, 0, 0xE8], time: 1_000 };
/// let replies = Collector::new().burst(1, &[reception]).unwrap();
/// assert_eq!(replies[0].answer, Ok(Answer::Kept));
/// assert_eq!(replies[0].sent.unwrap().to_string(), "D5090102030401E9");
/// ```
#[derive(Clone, Copy, Debug, PartialEq, Eq, Hash)]
pub struct Reply {
    /// What [`Collector::take`] answers.
    pub answer: Result<Answer, Refusal>,
    /// What a repeater at the burst's setting sends for it.
    pub sent: Option<Telegram>,
}

impl Reply {
    fn of(bytes: &[u8]) -> Reply {
        let mut sent = [0; raw::FRAME];
        sent.copy_from_slice(&bytes[2..]);
        Reply { answer: answer(bytes[0], bytes[1]), sent: Telegram::of_frame(sent) }
    }
}

/// A collector. It holds the open telegrams, the totals and nothing else, and is changed in place.
///
/// ```
/// use mooringeye::{Answer, Collector, Refusal};
///
/// # fn main() -> Result<(), Refusal> {
/// let press = [0xD5, 0x09, 1, 2, 3, 4, 0, 0xE8];
/// let mut collector = Collector::new();
/// assert_eq!(collector.take(&press, 1_000)?, Answer::Kept);
/// assert_eq!(collector.take(&press, 1_012)?, Answer::Copy);
/// assert_eq!(collector.take(&press, 999), Err(Refusal::Late));
/// assert_eq!(collector.copies(0), Some(1));
///
/// let image = collector.checkpoint();
/// let mut restored = Collector::restore(&image)?;
/// assert_eq!(restored.take(&press, 1_040)?, Answer::Copy);
/// assert_eq!(restored.totals().copies, 2);
/// # Ok(())
/// # }
/// ```
#[derive(Clone)]
#[repr(C)] // as the header has it
pub struct Collector {
    times: [u64; raw::CAPACITY],
    numbers: [u64; raw::COLLECTOR_NUMBERS],
    copies: [u16; raw::CAPACITY],
    lengths: [u8; raw::CAPACITY],
    bytes: [u8; raw::ENTRY_BYTES],
}

impl Collector {
    /// How many telegrams can be open.
    pub const CAPACITY: usize = raw::CAPACITY;
    /// The bytes of a checkpoint.
    pub const IMAGE: usize = raw::IMAGE;
    /// The most receptions of a burst.
    pub const MAX_BURST: usize = 256;
    /// The number of milliseconds after its opening in which a telegram is open.
    pub const OPEN_FOR: u64 = 100;

    /// A collector with nothing open and nothing counted.
    pub fn new() -> Collector {
        let mut collector = Collector {
            times: [0; raw::CAPACITY],
            numbers: [0; raw::COLLECTOR_NUMBERS],
            copies: [0; raw::CAPACITY],
            lengths: [0; raw::CAPACITY],
            bytes: [0; raw::ENTRY_BYTES],
        };
        raw::collector_fresh(&mut collector.arrays_mut());
        collector
    }

    /// Takes a reception, whose last byte was there at a time in milliseconds. What is sent on for one that is kept is [`Telegram::repeat`].
    ///
    /// Refused: [`Refusal::Full`], and nothing is counted; the check's own, which counts as damaged; [`Refusal::Late`].
    ///
    /// The state is not tested again: only calls of the library change it, so that it is always one that they accept.
    pub fn take(&mut self, bytes: &[u8], time: u64) -> Result<Answer, Refusal> {
        let [kind, number] = raw::collector_take_tested(&mut self.arrays_mut(), bytes, time).to_be_bytes();
        answer(kind, number)
    }

    /// Takes up to 256 receptions one by one, and answers what each is and what a repeater set to 0 (off), 1 or 2 sends for it. The state is tested
    /// once, and else it is [`Collector::take`] for each.
    ///
    /// Refused, and nothing taken: [`Refusal::Argument`] for more than 256 or another setting.
    ///
    /// ```
    /// use mooringeye::{Answer, Collector, Reception, Refusal};
    ///
    /// let press = [0xD5, 0x09, 1, 2, 3, 4, 0, 0xE8];
    /// let receptions = [1_000, 1_012, 1_011].map(|time| Reception { bytes: &press, time });
    /// let replies = Collector::new().burst(0, &receptions).unwrap();
    /// let answers: Vec<_> = replies.iter().map(|r| r.answer).collect();
    /// assert_eq!(answers, [Ok(Answer::Kept), Ok(Answer::Copy), Err(Refusal::Late)]);
    /// ```
    pub fn burst(&mut self, setting: u8, receptions: &[Reception<'_>]) -> Result<Vec<Reply>, Refusal> {
        let moments: Vec<u64> = receptions.iter().map(|r| r.time).collect();
        let records: Vec<u8> = receptions.iter().flat_map(|r| frame(r.bytes)).collect();
        let mut replies = vec![0; raw::REPLY * receptions.len()];
        self.burst_into(setting, &moments, &records, &mut replies)?;
        Ok(replies.chunks_exact(raw::REPLY).map(Reply::of).collect())
    }

    /// [`Collector::burst`] in buffers that the caller keeps. `records` has a frame of 22 bytes for each moment: the length of a reception and its first
    /// 21 bytes; bytes after them are not looked at. `replies` gets 24 bytes for each: 0, 1 or 2 for KEPT, COPY or LOOSE, the number of a refusal or 0, and a frame of what is
    /// sent, length 0 for nothing.
    ///
    /// Refused, and nothing taken: [`Refusal::WrongSize`] for records that are not as many as the moments, [`Refusal::ShortOutput`] for fewer replies, and as
    /// [`Collector::burst`].
    ///
    /// ```
    /// let record = [8, 0xD5, 0x09, 1, 2, 3, 4, 0, 0xE8, 0, 0, 0, 0, 0, 0, 0, 0, 0, 0, 0, 0, 0];
    /// let mut reply = [0; 24];
    /// mooringeye::Collector::new().burst_into(1, &[1_000], &record, &mut reply).unwrap();
    /// assert_eq!(reply[..11], [0, 0, 8, 0xD5, 0x09, 1, 2, 3, 4, 1, 0xE9]);
    /// ```
    pub fn burst_into(&mut self, setting: u8, moments: &[u64], records: &[u8], replies: &mut [u8]) -> Result<(), Refusal> {
        done(raw::collector_burst(&mut self.arrays_mut(), setting, moments, records, replies))
    }

    /// Takes whole lines from the start of a text, at most `most`: each is a time, a space and bytes in hexadecimal. What `collect` prints for them at the
    /// setting goes into the front of `out`, and the rows of what is KEPT or LOOSE, as [`raw::archive_put_rows`] takes them, into the fronts of `moments` and
    /// `rows`, which has 23 bytes for each moment. Answers how much of each there is.
    ///
    /// It stops after `most` lines, where no place for a row is left, where less than 92 bytes of `out` are left, or where no further line has ended.
    ///
    /// Refused, and nothing taken: [`Refusal::WrongSize`] for `rows` of another size, [`Refusal::Argument`] for a setting over 2.
    ///
    /// ```
    /// use mooringeye::Collector;
    ///
    /// let text = b"1000 D5090102030400E8\n1012 D5090102030401E9\n1102 D5";
    /// let (mut out, mut moments, mut rows) = ([0; 4_096], [0; 40], [0; 23 * 40]);
    /// let done = Collector::new().lines(1, text, 1_000, &mut out, &mut moments, &mut rows).unwrap();
    /// assert_eq!(&out[..done.written], b"1000 KEPT SEND D5090102030401E9\n1012 COPY\n");
    /// assert_eq!((done.lines, done.rows, moments[0]), (2, 1, 1_000));
    /// assert_eq!(&text[done.used..], b"1102 D5"); // this line has not ended
    /// ```
    pub fn lines(&mut self, setting: u8, input: &[u8], most: usize, out: &mut [u8], moments: &mut [u64], rows: &mut [u8]) -> Result<Lines, Refusal> {
        let mut told = [0; raw::LINES_DONE];
        let mut to = raw::RowsMut { text: out, moments, rows };
        done(raw::collector_lines(&mut self.arrays_mut(), setting, input, most, &mut to, &mut told))?;
        Ok(Lines::of(told))
    }

    /// Takes whole lines from the start of a text, at most `most`, with their rows in a format, the rows that an archive keeps, and what closes where `to`
    /// asks for it. `to` grows as it has to, so that it stops after `most` lines or where no further line has ended. Answers how much there is of each.
    ///
    /// Refused, and nothing taken: [`Refusal::Argument`] for a setting over 2.
    ///
    /// ```
    /// use mooringeye::{Collector, Format, Taken};
    ///
    /// let mut taken = Taken::new();
    /// let done = Collector::new().lines_as(1, Format::Json, b"1000 D5090102030400E8\n1012 D5", 1_000, &mut taken).unwrap();
    /// let row = r#"{"time":1000,"answer":"KEPT","telegram":"D5090102030400E8","send":"D5090102030401E9","txid":"01020304","rorg":"D5","level":0}"#;
    /// assert_eq!(std::str::from_utf8(taken.text()).unwrap(), format!("{row}\n"));
    /// assert_eq!((done.lines, done.used), (1, 22));
    /// ```
    pub fn lines_as(&mut self, setting: u8, format: Format, input: &[u8], most: usize, to: &mut Taken) -> Result<Lines, Refusal> {
        to.clear();
        // Lines are counted only if there may be far fewer than `most`.
        let lines = if most <= input.len() / 16 { most } else { most.min(newlines(input)) };
        let mut told = [0; raw::LINES_AS_DONE];
        let state = &mut self.arrays_mut();
        if format == Format::Text && !to.asks_closings() {
            // The same rows, with the faster call.
            let raw::RowsAsMut { text, moments, rows, .. } = to.lend(lines, raw::LONGEST_ROW);
            let mut four = [0; raw::LINES_DONE];
            done(raw::collector_lines(state, setting, input, most, &mut raw::RowsMut { text, moments, rows }, &mut four))?;
            told[..raw::LINES_DONE].copy_from_slice(&four);
        } else {
            let mut lent = to.lend(lines, raw::LONGEST_ROW_AS);
            done(raw::collector_lines_as(state, setting, format.number(), input, most, &mut lent, &mut told))?;
        }
        Ok(to.told(told))
    }

    /// How many telegrams are open.
    pub fn open(&self) -> usize {
        self.numbers[0] as usize
    }

    /// The latest time of a reception that was neither damaged nor late.
    pub fn latest(&self) -> u64 {
        self.numbers[1]
    }

    /// The totals.
    pub fn totals(&self) -> Totals {
        let [_, _, received, kept, copies, loose, damaged, late] = self.numbers;
        Totals { received, kept, copies, loose, damaged, late }
    }

    /// How often the open telegram with this index, from 0 in opening order, was heard again, up to 65,535; `None` after the last.
    pub fn copies(&self, entry: usize) -> Option<u16> {
        let mut heard = 0;
        done(raw::collector_copies(&self.arrays(), entry, &mut heard)).ok()?;
        Some(u16::try_from(heard).expect("the library counts up to 65,535"))
    }

    /// The image of this state, to be stored and restored byte for byte.
    pub fn checkpoint(&self) -> [u8; raw::IMAGE] {
        let mut image = [0; raw::IMAGE];
        done(raw::collector_checkpoint(&self.arrays(), &mut image)).expect("a collector's state is acceptable");
        image
    }

    /// The collector of an image. Refused: [`Refusal::NotAccepted`] for bytes that no checkpoint writes.
    ///
    /// ```
    /// use mooringeye::{Collector, Refusal};
    ///
    /// let mut image = Collector::new().checkpoint();
    /// assert_eq!(Collector::restore(&image).unwrap(), Collector::new());
    /// image[100] ^= 1;
    /// assert_eq!(Collector::restore(&image), Err(Refusal::NotAccepted));
    /// ```
    pub fn restore(image: &[u8]) -> Result<Collector, Refusal> {
        let mut collector = Collector::new();
        done(raw::collector_restore(&mut collector.arrays_mut(), image))?;
        Ok(collector)
    }

    fn arrays(&self) -> raw::Arrays<'_> {
        let Collector { times, numbers, copies, lengths, bytes } = self;
        raw::Arrays { times, lengths, bytes, copies, numbers }
    }

    fn arrays_mut(&mut self) -> raw::ArraysMut<'_> {
        let Collector { times, numbers, copies, lengths, bytes } = self;
        raw::ArraysMut { times, lengths, bytes, copies, numbers }
    }
}

fn answer(kind: u8, number: u8) -> Result<Answer, Refusal> {
    done(number)?;
    Ok(match kind {
        0 => Answer::Kept,
        1 => Answer::Copy,
        2 => Answer::Loose,
        _ => unreachable!("the library answers the kinds of its header"),
    })
}

impl Default for Collector {
    fn default() -> Collector {
        Collector::new()
    }
}

/// Equal where the checkpoints are: elements after the open telegrams are not part of a state.
impl PartialEq for Collector {
    fn eq(&self, other: &Collector) -> bool {
        self.checkpoint() == other.checkpoint()
    }
}

impl Eq for Collector {}

impl fmt::Debug for Collector {
    fn fmt(&self, f: &mut fmt::Formatter<'_>) -> fmt::Result {
        f.debug_struct("Collector")
            .field("open", &self.open())
            .field("latest", &self.latest())
            .field("totals", &self.totals())
            .finish_non_exhaustive()
    }
}

#[cfg(test)]
mod tests {
    use super::*;
    use crate::Fields;

    /// A telegram of this transmitter.
    fn telegram(x: u32) -> Telegram {
        Telegram::build(&Fields { rorg: 0xF6, data: vec![0x50], destid: None, txid: x.to_be_bytes(), status: 0x30 }).unwrap()
    }

    /// A collector that took this many telegrams, one a millisecond.
    fn heard(n: u32) -> Collector {
        let mut collector = Collector::new();
        for x in 0..n {
            collector.take(telegram(x).as_bytes(), u64::from(x)).unwrap();
        }
        collector
    }

    #[test]
    fn the_memory_is_that_of_the_header() {
        assert_eq!(std::mem::size_of::<Collector>(), 2_112);
        assert_eq!(std::mem::align_of::<Collector>(), 8);
    }

    #[test]
    fn fills_and_ages() {
        let mut collector = heard(65);
        assert_eq!((collector.open(), collector.totals().kept, collector.totals().loose), (64, 64, 1));
        assert_eq!(collector.take(telegram(24).as_bytes(), 64), Ok(Answer::Copy)); // 40 ms after its opening
        assert_eq!(collector.take(telegram(23).as_bytes(), 64), Ok(Answer::Loose)); // an original after 41 ms, and no room
        assert_eq!(collector.take(telegram(99).as_bytes(), 163), Ok(Answer::Kept));
        assert_eq!((collector.open(), collector.latest()), (2, 163));
    }

    #[test]
    fn counts_copies() {
        let mut collector = heard(3);
        for _ in 0..5 {
            assert_eq!(collector.take(telegram(1).as_bytes(), 20), Ok(Answer::Copy));
        }
        assert_eq!([0, 1, 2, 3, usize::MAX].map(|i| collector.copies(i)), [Some(0), Some(5), Some(0), None, None]);
    }

    #[test]
    fn refusals_are_counted() {
        let mut collector = heard(3);
        assert_eq!(collector.take(&[], 20), Err(Refusal::Length));
        assert_eq!(collector.take(&[0; 8], 0), Err(Refusal::Late));
        assert_eq!(collector.take(&[1; 8], 20), Err(Refusal::Sum));
        assert_eq!(collector.take(&vec![0; 1 << 20], 20), Err(Refusal::Length));
        let totals = Totals { received: 7, kept: 3, damaged: 3, late: 1, ..Totals::default() };
        assert_eq!(collector.totals(), totals);
    }

    #[test]
    fn bursts_are_receptions_one_by_one() {
        let telegrams: Vec<Telegram> = (0..200).map(|x| telegram(x % 70)).collect();
        let receptions: Vec<Reception> = telegrams.iter().zip(0..).map(|(t, i)| Reception { bytes: t.as_bytes(), time: i / 2 }).collect();
        let (mut one_by_one, mut at_once) = (Collector::new(), Collector::new());
        let replies = at_once.burst(2, &receptions).unwrap();
        for (reception, reply) in receptions.iter().zip(&replies) {
            let answer = one_by_one.take(reception.bytes, reception.time);
            let sent = if answer == Ok(Answer::Kept) { Telegram::new(reception.bytes).unwrap().repeat(2).unwrap() } else { None };
            assert_eq!(*reply, Reply { answer, sent });
        }
        assert_eq!(one_by_one, at_once);
    }

    #[test]
    fn refused_bursts_change_nothing() {
        let mut collector = heard(3);
        let before = collector.clone();
        let reception = Reception { bytes: &[9; 300], time: 50 };
        assert_eq!(collector.burst(3, &[]), Err(Refusal::Argument));
        assert_eq!(collector.burst(0, &[reception; 257]), Err(Refusal::Argument));
        assert_eq!(collector, before);
        assert_eq!(collector.burst(0, &[]), Ok(vec![]));
        let replies = collector.burst(0, &[reception; 256]).unwrap();
        assert!(replies.iter().all(|r| *r == Reply { answer: Err(Refusal::Length), sent: None }));
        assert_eq!(collector.totals().damaged, 256);
    }

    #[test]
    fn comes_back_from_its_image() {
        let collector = heard(70);
        let image = collector.checkpoint();
        assert_eq!(Collector::restore(&image).unwrap(), collector);
        assert_eq!(Collector::restore(&image).unwrap().checkpoint(), image);
        for wrong in [&[][..], &image[1..], &[0; 2_560], &[0; 2_561]] {
            assert_eq!(Collector::restore(wrong), Err(Refusal::NotAccepted));
        }
    }
}
