//! What the histories must show: everything that can occur, and the faults that a collector could
//! have. Each fault is put into a model of its own, and its lines must differ from those of the
//! clerk.

use crate::bursts;
use crate::clerk::{totals_of, Answer, Clerk, Noted, Totals};
use crate::history::{show, spoil, stdin, stdout, word, Call, Model, SHOWN};
use crate::image::{self, reload, IMAGE};
use crate::repeater::sent_for;
use crate::scenarios::{calls, histories, ROOMS};
use crate::subtelegram::{check, level, same, Refusal, CRC_WRONG, SUM_WRONG};
use crate::telegrams::at_level;
use std::collections::BTreeMap;
use std::sync::OnceLock;

/// The last byte of the setting's place.
const SETTING_AT: usize = 3 * 512 + 23;

/// The clerk word for word: every search goes over all receptions. One fault can be set.
#[derive(Default)]
pub struct PlainClerk {
    noted: Vec<Noted>,
    /// For a model that continues from an image: its totals without the entries, its latest time,
    /// and the copies of its entries.
    earlier: Totals,
    earlier_latest: u64,
    earlier_copies: Vec<u16>,
    fault: &'static str,
}

impl PlainClerk {
    /// Whether a reception is a copy; `openings` are the open ones of the same telegram, in order.
    fn is_copy(&self, openings: &[&Noted], time: u64, bytes: &[u8]) -> bool {
        let (Some(first), Some(latest)) = (openings.first(), openings.last()) else {
            return false;
        };
        let opening = match self.fault {
            "40 ms from the first opening" => first,
            _ => latest,
        };
        let heard_again = |n: &&Noted| n.answer == Answer::Copy && same(&n.bytes, bytes);
        let from = match self.fault {
            "a copy moves the 40 ms" => {
                let again = self.noted.iter().rfind(heard_again).map_or(0, |n| n.time);
                again.max(opening.time)
            }
            _ => opening.time,
        };
        let original = match self.fault {
            "40 ms for all levels" => true,
            "no 40 ms" => false,
            "level of the opening" => level(&opening.bytes) == 0,
            _ => level(bytes) == 0,
        };
        let sent_within = match self.fault {
            "39 ms" => 39,
            "41 ms" => 41,
            _ => 40,
        };
        !(original && time - from > sent_within)
    }

    fn is_open(&self, noted: &Noted, time: u64) -> bool {
        match self.fault {
            "99 ms" => time - noted.time < 100,
            "101 ms" => time - noted.time <= 101,
            _ => time - noted.time <= 100,
        }
    }

    fn is_same(&self, a: &[u8], b: &[u8]) -> bool {
        let n = a.len();
        match self.fault {
            "TXID alone" => a[n - 6..n - 2] == b[b.len() - 6..b.len() - 2],
            "level and HASH compared" => a == b,
            "STATUS left out" => n == b.len() && a[..n - 2] == b[..n - 2],
            "TXID left out" => n == b.len() && a[..n - 6] == b[..n - 6],
            "HASH compared" => same(a, b) && a[n - 1] == b[n - 1],
            _ => same(a, b),
        }
    }

    fn check(&self, bytes: &[u8]) -> Result<(), Refusal> {
        match (self.fault, check(bytes)) {
            ("2 for every hash", Err(CRC_WRONG)) => Err(SUM_WRONG),
            ("13 for every hash", Err(SUM_WRONG)) => Err(CRC_WRONG),
            (_, result) => result,
        }
    }

    fn answer(&self, time: u64, bytes: &[u8]) -> Answer {
        let answered = |answer: Answer| match (self.fault, answer) {
            ("copies move no clock", Answer::Copy) => false,
            ("loose moves no clock", Answer::Loose) => false,
            ("damage moves the clock", Answer::Refused(1..=3 | CRC_WRONG)) => true,
            _ => answer.accepted(),
        };
        if self.totals().received == u64::MAX && self.fault != "never full" {
            return Answer::Refused(8);
        }
        let late = self.earlier_latest > time
            || self
                .noted
                .iter()
                .any(|n| answered(n.answer) && n.time > time);
        if self.fault == "late before damage" && late {
            return Answer::Refused(7);
        }
        if let Err(number) = self.check(bytes) {
            return Answer::Refused(number);
        }
        if late {
            return Answer::Refused(7);
        }
        if self.fault == "equal times late"
            && self
                .noted
                .iter()
                .any(|n| answered(n.answer) && n.time >= time)
        {
            return Answer::Refused(7);
        }
        let opens = |n: &&Noted| match self.fault {
            "copies lengthen" => matches!(n.answer, Answer::Kept | Answer::Copy),
            "loose opens" => matches!(n.answer, Answer::Kept | Answer::Loose),
            _ => n.answer == Answer::Kept,
        };
        let earlier = |n: &&Noted| n.time <= time;
        let open: Vec<&Noted> = self
            .noted
            .iter()
            .filter(opens)
            .filter(earlier)
            .filter(|n| self.is_open(n, time))
            .collect();
        let openings: Vec<&Noted> = open
            .iter()
            .copied()
            .filter(|n| self.is_same(&n.bytes, bytes))
            .collect();
        let counts = |(at, n): &(usize, &&Noted)| match self.fault {
            "one place for all openings" => {
                n.answer == Answer::Kept && !open[..*at].iter().any(|o| same(&o.bytes, &n.bytes))
            }
            _ => n.answer == Answer::Kept,
        };
        let full = open.iter().enumerate().filter(counts).count()
            >= match self.fault {
                "63 places" => 63,
                "65 places" => 65,
                _ => 64,
            };
        if self.fault == "loose before copy" && full {
            return Answer::Loose;
        }
        if self.is_copy(&openings, time, bytes) {
            return Answer::Copy;
        }
        let again = self.fault == "second opening loose never" && !openings.is_empty();
        if full && !again {
            return Answer::Loose;
        }
        Answer::Kept
    }

    fn latest(&self) -> u64 {
        let accepted = self.noted.iter().filter(|n| n.answer.accepted());
        let latest = accepted.map(|n| n.time).max().unwrap_or(0);
        latest.max(self.earlier_latest)
    }

    /// The indices of the KEPT ones with latest - f <= 100, in the order handed over.
    fn places(&self) -> Vec<usize> {
        let latest = self.latest();
        let all = self.noted.iter().enumerate();
        let open = |(_, n): &(usize, &Noted)| n.answer == Answer::Kept && latest - n.time <= 100;
        all.filter(open).map(|(at, _)| at).take(75).collect()
    }

    /// Whether a reception with this answer counts for the opening that it belongs to.
    fn counts(&self, heard: &Noted) -> bool {
        match (self.fault, heard.answer) {
            ("counted for LOOSE", Answer::Loose) => true,
            ("late ones counted", Answer::Refused(7)) => true,
            ("no count at level 0", Answer::Copy) => level(&heard.bytes) > 0,
            ("no count at level 1", Answer::Copy) => level(&heard.bytes) != 1,
            (_, answer) => answer == Answer::Copy,
        }
    }

    /// Whether the reception at `at` belongs to the opening: it is the same telegram, which is open
    /// then, and no later opening is. Its own answer is not read.
    fn belongs(&self, at: usize, opening: usize) -> bool {
        let heard = &self.noted[at];
        let is_open = |n: &Noted| {
            n.answer == Answer::Kept && n.time <= heard.time && heard.time - n.time <= 100
        };
        let fits = |n: &Noted| match self.fault {
            "credited by TXID" => {
                let txid = |b: &[u8]| b[b.len() - 6..b.len() - 2].to_vec();
                is_open(n) && txid(&n.bytes) == txid(&heard.bytes)
            }
            "the latest of all credited" | "the first of all credited" => is_open(n),
            _ => is_open(n) && same(&n.bytes, &heard.bytes),
        };
        let others = match self.fault {
            "first opening credited" | "the first of all credited" => 0..opening,
            "all openings credited" => 0..0,
            _ => opening + 1..at,
        };
        fits(&self.noted[opening]) && !self.noted[others].iter().any(fits)
    }

    fn copies_of(&self, opening: usize) -> u16 {
        let earlier = self.earlier_copies.get(opening).copied().unwrap_or(0);
        let later = opening + 1..self.noted.len();
        let heard = later.filter(|&at| self.counts(&self.noted[at]) && self.belongs(at, opening));
        let one = usize::from(self.fault == "kept counts as one" && earlier == 0);
        let all = usize::from(earlier) + heard.count() + one;
        match self.fault {
            "wraps at 65,536" => all as u16,
            "wraps at 256" => usize::from(all as u8) as u16,
            "ceiling 255" => all.min(255) as u16,
            "ceiling 65,534" => all.min(65_534) as u16,
            _ => all.min(65_535) as u16,
        }
    }
}

impl Model for PlainClerk {
    fn start(&mut self, _setting: u8) {
        *self = PlainClerk {
            fault: self.fault,
            ..PlainClerk::default()
        };
    }

    fn take(&mut self, time: u64, bytes: &[u8]) -> Answer {
        let answer = self.answer(time, bytes);
        self.noted.push(Noted {
            time,
            bytes: bytes.to_vec(),
            answer,
            opening: None,
        });
        answer
    }

    fn sent(&self, setting: u8, answer: Answer, bytes: &[u8]) -> Vec<u8> {
        match answer {
            Answer::Copy if self.fault == "copies repeated" => {
                sent_for(setting, Answer::Kept, bytes)
            }
            _ => sent_for(setting, answer, bytes),
        }
    }

    fn totals(&self) -> Totals {
        let mut totals = self.earlier.plus(totals_of(&self.noted));
        if self.fault == "a wrong CRC is not damage" {
            let crc_wrong = |n: &&Noted| n.answer == Answer::Refused(CRC_WRONG);
            totals.damaged -= self.noted.iter().filter(crc_wrong).count() as u64;
        }
        totals
    }

    fn copies(&mut self, place: u64) -> (Refusal, u16) {
        let places = self.places();
        let opening = usize::try_from(place).ok().and_then(|at| places.get(at));
        opening.map_or((10, 0), |&at| (0, self.copies_of(at)))
    }

    fn image(&self) -> Vec<u8> {
        let entry = |at: usize| image::Entry {
            time: self.noted[at].time,
            bytes: self.noted[at].bytes.clone(),
            copies: self.copies_of(at),
        };
        let entries: Vec<image::Entry> = self.places().into_iter().map(entry).collect();
        image::write(self.latest(), &self.totals(), 0, &entries)
    }

    fn restore(&mut self, _image: &[u8], _number: u8) -> u8 {
        0
    }

    fn restore_given(&mut self, image: &[u8]) -> u8 {
        let Ok(state) = reload(image) else {
            return 11;
        };
        let entries = state.entries;
        self.earlier = state.totals.without_kept(entries.len() as u64);
        self.earlier_latest = state.latest;
        self.earlier_copies = entries.iter().map(|entry| entry.copies).collect();
        self.noted = entries
            .into_iter()
            .map(|entry| Noted {
                time: entry.time,
                bytes: entry.bytes,
                answer: Answer::Kept,
                opening: None,
            })
            .collect();
        0
    }
}

impl PlainClerk {
    pub fn new(fault: &'static str) -> PlainClerk {
        PlainClerk {
            fault,
            ..PlainClerk::default()
        }
    }
}

/// The stored histories, each with the lines that the clerk shows.
fn stored() -> &'static [(Vec<Call>, String)] {
    static STORED: OnceLock<Vec<(Vec<Call>, String)>> = OnceLock::new();
    STORED.get_or_init(|| {
        let shown = |history: Vec<Call>| {
            let lines = show(&history, &mut Clerk::new());
            (history, lines)
        };
        histories(calls()).into_iter().map(shown).collect()
    })
}

/// Whether a model shows what the clerk shows.
fn agrees(model: &mut impl Model) -> bool {
    stored()
        .iter()
        .all(|(history, lines)| show(history, model) == *lines)
}

/// Whether it gives the same answers as the clerk when the copies are asked for.
fn agrees_where_asked(model: &mut impl Model) -> bool {
    let asks = |lines: &str| -> Vec<String> {
        let asks = lines.lines().filter(|line| line.starts_with("A "));
        asks.map(str::to_string).collect()
    };
    stored()
        .iter()
        .all(|(history, lines)| asks(&show(history, model)) == asks(lines))
}

#[test]
fn the_stored_lines_are_those_of_the_histories() {
    let lines: String = stored().iter().map(|(_, lines)| lines.as_str()).collect();
    assert!(lines == stdout());
}

#[test]
fn the_short_look_back_is_the_long_one() {
    assert!(agrees(&mut PlainClerk::new("")));
}

/// Faults in which opening a COPY belongs to, and in what counts (document 02, A8): a question for
/// the copies shows each.
#[test]
fn faults_of_the_copies_are_seen() {
    for fault in [
        "first opening credited",
        "all openings credited",
        "the latest of all credited",
        "the first of all credited",
        "credited by TXID",
        "counted for LOOSE",
        "late ones counted",
        "no count at level 0",
        "no count at level 1",
        "kept counts as one",
        "wraps at 65,536",
        "wraps at 256",
        "ceiling 255",
        "ceiling 65,534",
    ] {
        assert!(!agrees_where_asked(&mut PlainClerk::new(fault)), "{fault}");
    }
}

#[test]
fn faults_are_seen() {
    for fault in [
        "99 ms",
        "101 ms",
        "TXID alone",
        "level and HASH compared",
        "HASH compared",
        "STATUS left out",
        "TXID left out",
        "copies move no clock",
        "loose moves no clock",
        "damage moves the clock",
        "late before damage",
        "equal times late",
        "copies lengthen",
        "loose opens",
        "63 places",
        "65 places",
        "loose before copy",
        "copies repeated",
        "40 ms for all levels",
        "no 40 ms",
        "39 ms",
        "41 ms",
        "40 ms from the first opening",
        "a copy moves the 40 ms",
        "level of the opening",
        "second opening loose never",
        "one place for all openings",
        "never full",
        "2 for every hash",
        "13 for every hash",
        "a wrong CRC is not damage",
    ] {
        assert!(!agrees(&mut PlainClerk::new(fault)), "{fault}");
    }
}

/// A collector that holds only the open telegrams, as an image does: at a cut it really restores from
/// the image. One fault can be set.
struct Window {
    state: image::Reloaded,
    /// The caller's setting at the start; and the one that a fault uses instead.
    setting: u8,
    other: Option<u8>,
    fault: &'static str,
}

impl Window {
    fn new(fault: &'static str) -> Window {
        Window {
            state: reload(&Clerk::new().image()).unwrap(),
            setting: 0,
            other: None,
            fault,
        }
    }
}

impl Model for Window {
    fn start(&mut self, setting: u8) {
        self.state = reload(&Clerk::new().image()).unwrap();
        self.setting = setting;
        self.other = None;
    }

    fn sent(&self, setting: u8, answer: Answer, bytes: &[u8]) -> Vec<u8> {
        sent_for(self.other.unwrap_or(setting), answer, bytes)
    }

    fn take(&mut self, time: u64, bytes: &[u8]) -> Answer {
        let fault = self.fault;
        let image::Reloaded {
            latest,
            totals,
            entries,
        } = &mut self.state;
        if totals.received == u64::MAX {
            return Answer::Refused(8);
        }
        totals.received += 1;
        if let Err(number) = check(bytes) {
            totals.damaged += 1;
            return Answer::Refused(number);
        }
        if time < *latest {
            totals.late += 1;
            return Answer::Refused(7);
        }
        *latest = time;
        let places_stay = fault == "parked by place";
        if !places_stay {
            let before: Vec<u16> = entries.iter().map(|e| e.copies).collect();
            entries.retain(|e| time - e.time <= 100);
            if fault == "copies stay when telegrams close" {
                let stayed = entries.iter_mut().zip(before);
                stayed.for_each(|(e, copies)| e.copies = copies);
            }
        }
        let open = entries.iter().filter(|e| time - e.time <= 100).count();
        let copied = entries
            .iter_mut()
            .filter(|e| time - e.time <= 100 && same(&e.bytes, bytes))
            .max_by_key(|e| e.time)
            .filter(|e| level(bytes) > 0 || time - e.time <= 40);
        if let Some(entry) = copied {
            totals.copies += 1;
            entry.copies = entry.copies.saturating_add(1);
            if fault == "last copy parked" {
                entry.bytes = bytes.to_vec();
            }
            return Answer::Copy;
        }
        if open == 64 {
            totals.loose += 1;
            return Answer::Loose;
        }
        totals.kept += 1;
        let opened = image::Entry {
            time,
            bytes: bytes.to_vec(),
            copies: 0,
        };
        match entries.iter().position(|e| time - e.time > 100) {
            Some(at) => entries[at] = opened,
            None => entries.push(opened),
        }
        Answer::Kept
    }

    fn totals(&self) -> Totals {
        self.state.totals
    }

    fn copies(&mut self, place: u64) -> (Refusal, u16) {
        let entries = &mut self.state.entries;
        let last = (entries.len() as u64).wrapping_sub(1);
        let place = match self.fault {
            "places from 1" => place.wrapping_sub(1),
            "the latest is place 0" => last.wrapping_sub(place),
            "one byte of the place" => place % 256,
            "four bytes of the place" => place % (1 << 32),
            "the last for all past it" => place.min(last),
            _ => place,
        };
        let asked = usize::try_from(place).ok();
        let Some(entry) = asked.and_then(|at| entries.get_mut(at)) else {
            return match self.fault {
                "no refusal" => (0, 0),
                "copies beside a refusal" => (10, entries.last().map_or(0, |e| e.copies)),
                "11 in place of 10" => (11, 0),
                _ => (10, 0),
            };
        };
        let copies = entry.copies;
        match self.fault {
            "the ask clears" => entry.copies = 0,
            "the ask counts" => entry.copies = copies.saturating_add(1),
            "the ask is received" => self.state.totals.received += 1,
            "the ask closes" => drop(entries.remove(place as usize)),
            _ => {}
        }
        (0, copies)
    }

    fn image(&self) -> Vec<u8> {
        let image::Reloaded {
            latest,
            totals,
            entries,
        } = &self.state;
        let open: Vec<image::Entry> = entries
            .iter()
            .filter(|e| latest - e.time <= 100)
            .map(|e| image::Entry {
                copies: match self.fault {
                    "zeros parked" => 0,
                    "bytes swapped" => e.copies.swap_bytes(),
                    "low byte parked" => e.copies & 0xFF,
                    _ => e.copies,
                },
                ..e.clone()
            })
            .collect();
        let parked = match self.fault {
            "setting parked" => self.setting,
            _ => 0,
        };
        image::write(*latest, totals, parked, &open)
    }

    fn restore(&mut self, image: &[u8], number: u8) -> u8 {
        if self.fault == "parked by place" || self.fault == "last copy parked" {
            return 0;
        }
        let Ok(mut state) = reload(image) else {
            return 11;
        };
        match self.fault {
            "setting of the cut" => self.other = Some(number),
            "latest lost" => state.latest = 0,
            "latest from entries" => state.latest = state.entries.last().map_or(0, |e| e.time),
            "last of 64 lost" if state.entries.len() == 64 => {
                state.entries.pop();
            }
            "fifth block lost" => state.entries.truncate(60),
            "fourth block lost" => {
                let end = state.entries.len().min(60);
                state.entries.drain(end.min(45)..end);
            }
            "opened anew" => {
                let latest = state.latest;
                state.entries.iter_mut().for_each(|e| e.time = latest);
            }
            "equal times reversed" => {
                state.entries.reverse();
                state.entries.sort_by_key(|e| e.time);
            }
            "level dropped" => {
                state
                    .entries
                    .iter_mut()
                    .for_each(|e| e.bytes = at_level(&e.bytes, 0));
            }
            "restore refused" => return 11,
            "lost at a cut" => state.entries.iter_mut().for_each(|e| e.copies = 0),
            "zeros parked" | "bytes swapped" => {
                // The cut itself keeps the copies: only the image has the fault.
                let kept = self.state.entries.iter().map(|e| e.copies);
                let entries = state.entries.iter_mut().zip(kept);
                entries.for_each(|(e, copies)| e.copies = copies);
            }
            _ => {}
        }
        self.state = state;
        0
    }

    fn restore_given(&mut self, image: &[u8]) -> u8 {
        match reload(image) {
            Ok(_) if self.fault == "older image refused" && image[SETTING_AT] > 0 => 11,
            Ok(state) if self.refuses_copies(&state) => 11,
            Ok(mut state) => {
                for entry in &mut state.entries {
                    entry.copies = match self.fault {
                        "copies of an image lost" => 0,
                        "bytes swapped on restore" => entry.copies.swap_bytes(),
                        _ => entry.copies,
                    };
                }
                self.state = state;
                if self.fault == "setting of the image" {
                    self.other = Some(image[SETTING_AT]);
                }
                0
            }
            Err(_) if self.fault == "3 accepted" && image.get(SETTING_AT) == Some(&3) => 0,
            Err(number) => {
                if self.fault == "copies of a refused image" && image.len() == IMAGE {
                    for (i, entry) in self.state.entries.iter_mut().enumerate() {
                        let at = i / 15 * 512 + 24 + i % 15 * 32 + 30;
                        entry.copies = u16::from_be_bytes([image[at], image[at + 1]]);
                    }
                }
                number
            }
        }
    }
}

impl Window {
    /// Refuses an accepted image because of the copies in it.
    fn refuses_copies(&self, state: &image::Reloaded) -> bool {
        let some = |f: fn(u64) -> bool| state.entries.iter().any(|e| f(u64::from(e.copies)));
        match self.fault {
            "copies refused" => some(|n| n > 0),
            "the ceiling refused" => some(|n| n == 65_535),
            "more copies than the total refused" => {
                let sum: u64 = state.entries.iter().map(|e| u64::from(e.copies)).sum();
                sum > state.totals.copies
            }
            _ => false,
        }
    }
}

/// Faults in keeping the copies and in the question for them (document 02, A8): some question shows
/// each.
#[test]
fn faults_of_the_ask_are_seen() {
    for fault in [
        "lost at a cut",
        "low byte parked",
        "copies stay when telegrams close",
        "copies of an image lost",
        "copies of a refused image",
        "bytes swapped on restore",
        "copies refused",
        "the ceiling refused",
        "more copies than the total refused",
        "places from 1",
        "the latest is place 0",
        "one byte of the place",
        "four bytes of the place",
        "the last for all past it",
        "no refusal",
        "copies beside a refusal",
        "11 in place of 10",
        "the ask clears",
        "the ask counts",
        "the ask is received",
        "the ask closes",
    ] {
        assert!(!agrees_where_asked(&mut Window::new(fault)), "{fault}");
    }
}

#[test]
fn a_cut_run_is_the_clerks() {
    assert!(agrees(&mut Window::new("")));
    for fault in [
        "setting of the cut",
        "setting parked",
        "setting of the image",
        "older image refused",
        "3 accepted",
        "latest lost",
        "latest from entries",
        "last of 64 lost",
        "fifth block lost",
        "fourth block lost",
        "opened anew",
        "equal times reversed",
        "level dropped",
        "restore refused",
        "parked by place",
        "last copy parked",
        "zeros parked",
        "bytes swapped",
    ] {
        assert!(!agrees(&mut Window::new(fault)), "{fault}");
    }
}

#[test]
fn everything_occurs() {
    let calls = calls();
    let mut seen: BTreeMap<String, usize> = BTreeMap::new();
    let mut count = |key: String| *seen.entry(key).or_default() += 1;
    let (mut clerk, mut present) = (Clerk::new(), 0);
    let (mut parked, mut rooms_first) = (0, Vec::new());
    for (i, call) in calls.iter().enumerate() {
        match call {
            Call::Start(setting) => {
                clerk = Clerk::new();
                present = *setting;
                parked = 0;
                count(format!("start {setting}"));
            }
            Call::Reception(time, bytes) => {
                let answer = clerk.take(*time, bytes);
                count(word(answer));
                if !sent_for(present, answer, bytes).is_empty() {
                    count(format!("sent at {present}"));
                }
                assert!(bytes.len() <= 28);
            }
            Call::Park(n) => {
                parked += 1;
                if parked <= SHOWN {
                    rooms_first.push(*n);
                }
                count(format!("park {n}"));
                count(format!("entries parked {}", clerk.entries().len()));
            }
            Call::Cut(any) => {
                let image = clerk.image();
                let reloaded = reload(&image).unwrap();
                assert_eq!(image[SETTING_AT], 0);
                assert_eq!(reloaded.totals, clerk.totals());
                assert_eq!(reloaded.latest, clerk.latest());
                count("cut".to_string());
                if *any != present {
                    count("cut with another number".to_string());
                }
                count(format!("entries cut {}", clerk.entries().len()));
                // Most cuts are followed by a reception, which meets the restored state.
                if matches!(calls.get(i + 1), Some(Call::Reception(..))) {
                    count("cut, then reception".to_string());
                }
            }
            Call::Spoiled(k) => {
                assert_eq!(reload(&spoil(clerk.image(), *k)), Err(11));
                count("spoiled".to_string());
            }
            Call::Given(image) => {
                let number = clerk.restore_given(image);
                count(format!("given, answered {number}"));
            }
            Call::Burst(burst) => {
                bursts::deliver(
                    &mut clerk,
                    burst,
                    &mut vec![bursts::untouched(); burst.places],
                );
            }
            Call::Ask(place) => match clerk.copies(*place) {
                Ok(copies) => {
                    count("asked".to_string());
                    count(format!("asked, copies {}", copies.min(10)));
                    if copies > 255 {
                        count("asked, copies over 255".to_string());
                    }
                    if copies == 65_535 {
                        count("asked, the ceiling".to_string());
                    }
                    if *place == 63 {
                        count("asked at 63".to_string());
                    }
                    if matches!(calls.get(i - 1), Some(Call::Cut(_))) {
                        count("asked after a cut".to_string());
                    }
                }
                Err(number) => count(format!("asked, answered {number}")),
            },
        }
    }
    assert!(rooms_first.iter().all(|&n| n >= IMAGE));
    println!("{seen:?}");
    let least = |key: &str, n: usize| {
        assert!(seen.get(key).copied().unwrap_or(0) >= n, "{key}: {seen:?}");
    };
    for key in ["KEPT", "COPY"] {
        least(key, 1000);
    }
    for key in ["LOOSE", "7"] {
        least(key, 250);
    }
    for key in ["1", "2", "3"] {
        least(key, 80);
    }
    least("13", 70);
    for key in [
        "sent at 1",
        "sent at 2",
        "cut",
        "spoiled",
        "cut, then reception",
        "cut with another number",
    ] {
        least(key, 150);
    }
    for room in ROOMS {
        least(&format!("park {room}"), 20);
    }
    least("given, answered 0", 30);
    least("given, answered 11", 60);
    least("8", 5);
    least("asked", 1500);
    least("asked, answered 10", 200);
    for copies in 0..=6 {
        least(&format!("asked, copies {copies}"), 5);
    }
    least("asked, copies over 255", 100);
    least("asked, the ceiling", 20);
    least("asked at 63", 5);
    least("asked after a cut", 100);
    least("entries cut 0", 1);
    least("entries cut 64", 10);
    least("entries parked 64", 10);
}

#[test]
fn shown_numbers() {
    let text = stdout();
    for line in text.lines() {
        if line.starts_with("C ") {
            assert!(line.starts_with("C 0 0 "));
        }
        if line.starts_with("X ") {
            assert!(line.starts_with("X 11 "));
        }
    }
    assert!(
        text.len() + stdin().len() < 4_000_000,
        "{} {}",
        text.len(),
        stdin().len()
    );
    let calls = calls();
    let histories = calls
        .iter()
        .filter(|call| matches!(call, Call::Start(_)))
        .count();
    let images = text.lines().filter(|line| line.starts_with("I ")).count();
    assert_eq!(images, 3 * histories);
}
