//! Bursts (document 02, A1 and A7): receptions as records in one list with a setting, and a second
//! list for the replies. What a burst is answered, and histories whose receptions are handed over
//! in bursts.

use crate::clerk::{Answer, Totals};
use crate::hex::hex_or_dash;
use crate::history::{word, Call, Model};
use crate::image;
use crate::random::Random;
use crate::repeater::is_setting;
use crate::subtelegram::{LONGEST, OUTPUT_SHORT, OUT_OF_RANGE};
use crate::telegrams::{at_level, plain, random_kind, valid};
use std::fmt::Write;

/// The largest number of receptions in a burst.
pub const MOST: usize = 256;

/// A record of a list: bytes, a length byte, and a time.
#[derive(Debug, Clone, PartialEq)]
pub struct Record {
    pub bytes: [u8; LONGEST],
    pub len: u8,
    pub time: u64,
}

impl Record {
    /// The record of a reception. If that is too long, the record has its first 21 bytes.
    pub fn of(time: u64, bytes: &[u8]) -> Record {
        let mut kept = bytes.to_vec();
        kept.resize(LONGEST, 0);
        Record {
            bytes: kept.try_into().unwrap(),
            len: bytes.len() as u8,
            time,
        }
    }

    /// The bytes that it hands over: as many as its length says. "A record whose length is over 21
    /// fails the check with 1", whatever its bytes are, so the bytes after 21 may be zero.
    pub fn handed(&self) -> Vec<u8> {
        let mut bytes = self.bytes.to_vec();
        bytes.resize(usize::from(self.len), 0);
        bytes
    }
}

/// The caller's setting, the records, and how many places the second list has.
#[derive(Debug, Clone, PartialEq)]
pub struct Burst {
    pub setting: u8,
    pub records: Vec<Record>,
    pub places: usize,
}

/// A place of the second list: an answer, and what is to be sent.
pub type Place = (Answer, Vec<u8>);

/// What every place holds before the call.
pub fn untouched() -> Place {
    (Answer::Loose, vec![0xEE; LONGEST])
}

/// "Refusals: 11, then 6 if the answer list is shorter, then 10 for more than 256"; "a burst gives
/// 10 for its setting also". No history leads to 11.
pub fn number(burst: &Burst) -> u8 {
    let n = burst.records.len();
    if burst.places < n {
        OUTPUT_SHORT
    } else if n > MOST || !is_setting(burst.setting) {
        OUT_OF_RANGE
    } else {
        0
    }
}

/// "The outcome must equal handing them over one by one, refused ones included." "A refused
/// burst stands for no reception."
pub fn deliver(model: &mut impl Model, burst: &Burst, places: &mut [Place]) -> u8 {
    let number = number(burst);
    if number == 0 {
        for (record, place) in burst.records.iter().zip(places) {
            let bytes = record.handed();
            let answer = model.take(record.time, &bytes);
            *place = (answer, model.sent(burst.setting, answer, &bytes));
        }
    }
    number
}

/// The records that follow that of the burst: each is that of a reception, with its length byte
/// unchanged.
pub fn parts(burst: &Burst) -> impl Iterator<Item = [u8; 64]> + '_ {
    burst.records.iter().map(|reception| {
        let mut record = [0; 64];
        record[0] = 2;
        record[1..9].copy_from_slice(&reception.time.to_be_bytes());
        record[9] = reception.len;
        record[10..10 + LONGEST].copy_from_slice(&reception.bytes);
        record
    })
}

/// The lines for a burst.
pub fn show(burst: &Burst, model: &mut impl Model) -> String {
    let mut places = vec![untouched(); burst.places];
    let number = model.burst(burst, &mut places);
    let mut out = format!("B {number} {}\n", model.totals().text());
    for (answer, sent) in places {
        writeln!(out, "b {} {}", word(answer), hex_or_dash(&sent)).unwrap();
    }
    out
}

// ---- histories

/// The sizes of a list.
const SIZES: [usize; 6] = [0, 1, 3, 17, MOST, MOST + 1];

/// The settings of bursts, one after the other.
const SETTINGS: [u8; 7] = [1, 0, 2, 3, 0, 1, 255];

/// Every size with as many places, one fewer and two more, and other calls between. Each refused
/// burst is handed over again one by one. The settings of short bursts rotate, also over 2.
pub fn sizes(setting: u8, random: &mut Random) -> Vec<Call> {
    let pool: Vec<Vec<u8>> = (0..90).map(|_| valid(random)).collect();
    let mut calls = vec![Call::Start(setting)];
    let (mut time, mut round) = (1_000, usize::from(setting));
    for (i, n) in SIZES.into_iter().enumerate() {
        for places in [n, n.wrapping_sub(1), n + 2] {
            if places > n + 2 {
                continue;
            }
            let records: Vec<Record> = (0..n)
                .map(|_| {
                    time += random.pick(&[0, 0, 1, 2, 7]);
                    some_record(random, &pool, time)
                })
                .collect();
            round += 1;
            let burst = Burst {
                setting: if n > 17 {
                    setting
                } else {
                    SETTINGS[round % SETTINGS.len()]
                },
                records,
                places,
            };
            let again = number(&burst) != 0 && n <= 17;
            let singly: Vec<Call> = burst.records.iter().filter_map(single).collect();
            calls.push(Call::Burst(burst));
            if again {
                calls.extend(singly);
            }
            calls.push(match i % 3 {
                0 => Call::Cut(random.below(3) as u8),
                1 => Call::Park(2560),
                _ => Call::Spoiled(random.below(2561)),
            });
        }
    }
    calls
}

/// Mostly one of the pool at some level; sometimes late, damaged, or with a length byte that is
/// greater than the number of bytes.
fn some_record(random: &mut Random, pool: &[Vec<u8>], time: u64) -> Record {
    let at = random.below(pool.len());
    let level = random.pick(&[0, 0, 1, 2, 15]);
    let mut record = Record::of(time, &at_level(&pool[at], level));
    match random.below(20) {
        0 => record.time = time.saturating_sub(random.pick(&[1, 30, 500])),
        1 => record.bytes[3] ^= 0x10,
        2 => return odd_record(random, time),
        _ => {}
    }
    record
}

/// Its first 21 bytes are a valid subtelegram, but it has another length.
fn odd_record(random: &mut Random, time: u64) -> Record {
    let kind = random_kind(random);
    let mut record = Record::of(time, &plain(random, LONGEST, kind));
    record.len = random.pick(&[22, 22, 255, 0]);
    record
}

/// The record handed over by itself, if the bytes of one call hold it.
fn single(record: &Record) -> Option<Call> {
    let bytes = record.handed();
    (bytes.len() <= LONGEST + 7).then_some(Call::Reception(record.time, bytes))
}

/// A burst in which received reaches 2^64 - 1: the rest get 8, damaged ones too.
pub fn full_count(random: &mut Random) -> Vec<Call> {
    let totals = Totals {
        received: u64::MAX - 2,
        copies: u64::MAX - 2,
        ..Totals::default()
    };
    let pool: Vec<Vec<u8>> = (0..4).map(|_| valid(random)).collect();
    let mut records: Vec<Record> = pool.iter().map(|bytes| Record::of(70, bytes)).collect();
    records.push(odd_record(random, 70));
    let places = records.len();
    vec![
        Call::Start(2),
        Call::Park(2560),
        Call::Park(2560),
        Call::Given(image::write(60, &totals, 2, &[])),
        Call::Burst(Burst {
            setting: 2,
            records,
            places,
        }),
        Call::Park(2560),
    ]
}

/// One telegram is received nearly 300 times in two bursts, with another one sometimes among them.
/// Its copies are asked for after each, and after a burst that is refused and counts nothing.
pub fn often(random: &mut Random) -> Vec<Call> {
    let (one, other) = (valid(random), valid(random));
    let burst = |from: usize, n: usize, places: usize| {
        let record = |i: usize| {
            let bytes = if i % 50 == 20 { &other } else { &one };
            Record::of(400 + i as u64 / 4, &at_level(bytes, 1))
        };
        Call::Burst(Burst {
            setting: 1,
            records: (from..from + n).map(record).collect(),
            places,
        })
    };
    let mut calls = vec![Call::Start(1)];
    for call in [
        burst(0, MOST, MOST),
        burst(MOST, 45, 44),
        burst(MOST, 45, 45),
    ] {
        calls.push(call);
        let asks = (0..3).map(Call::Ask);
        calls.extend(asks.clone());
        calls.push(Call::Cut(0));
        calls.extend(asks);
        calls.push(Call::Park(2560));
    }
    calls
}

/// The same histories with their receptions in bursts, with refused bursts among them. Other calls
/// come between the bursts.
pub fn divided(calls: Vec<Call>, random: &mut Random) -> Vec<Call> {
    let mut out = Vec::new();
    let (mut records, mut others) = (Vec::new(), Vec::new());
    let (mut size, mut setting) = (1, 0);
    for call in calls {
        match call {
            Call::Reception(time, bytes) => {
                records.push(Record::of(time, &bytes));
                if random.chance(3) {
                    records.push(odd_record(random, time));
                }
            }
            Call::Start(kept) => {
                hand_over(&mut out, &mut records, setting, random);
                out.append(&mut others);
                setting = kept;
                out.push(call);
            }
            Call::Ask(_) => others.push(call),
            _ => {
                others.push(call);
                if random.chance(60) {
                    size = records.len();
                }
            }
        }
        if records.len() >= size {
            hand_over(&mut out, &mut records, setting, random);
            out.append(&mut others);
            size = random.pick(&[1, 1, 3, 17, 100]);
        }
    }
    hand_over(&mut out, &mut records, setting, random);
    out.append(&mut others);
    out
}

/// Hands them over in one burst, sometimes after one that is refused for its places or its setting,
/// or one by one.
fn hand_over(out: &mut Vec<Call>, records: &mut Vec<Record>, setting: u8, random: &mut Random) {
    let records = std::mem::take(records);
    let n = records.len();
    if n > 0 && random.chance(20) {
        let places = random.below(n);
        let bad = random.chance(30);
        out.push(Call::Burst(Burst {
            setting: if bad {
                random.pick(&[3, 4, 255])
            } else {
                setting
            },
            records: records.clone(),
            places: if bad && random.chance(60) { n } else { places },
        }));
    }
    if n > 0 && random.chance(15) {
        out.extend(records.iter().filter_map(single));
        return;
    }
    let places = n + random.pick(&[0, 0, 1, 2]);
    out.push(Call::Burst(Burst {
        setting,
        records,
        places,
    }));
}

#[cfg(test)]
mod tests {
    use super::*;
    use crate::clerk::Clerk;
    use crate::history::{show, stdout};
    use crate::scenarios::calls;
    use crate::subtelegram::Refusal;
    use crate::telegrams::Kind;
    use std::collections::BTreeMap;

    /// The clerk with a fault in how it takes a burst.
    struct Faulty {
        clerk: Clerk,
        setting: u8,
        fault: &'static str,
    }

    impl Model for Faulty {
        fn start(&mut self, setting: u8) {
            self.setting = setting;
            self.clerk.start(setting);
        }

        fn take(&mut self, time: u64, bytes: &[u8]) -> Answer {
            self.clerk.take(time, bytes)
        }

        fn totals(&self) -> Totals {
            self.clerk.totals()
        }

        fn copies(&mut self, place: u64) -> (Refusal, u16) {
            Model::copies(&mut self.clerk, place)
        }

        fn image(&self) -> Vec<u8> {
            self.clerk.image()
        }

        fn restore(&mut self, image: &[u8], number: u8) -> u8 {
            self.clerk.restore(image, number)
        }

        fn restore_given(&mut self, image: &[u8]) -> u8 {
            self.clerk.restore_given(image)
        }

        fn burst(&mut self, burst: &Burst, places: &mut [Place]) -> u8 {
            let n = burst.records.len();
            let (most, fault) = (MOST + usize::from(self.fault == "257"), self.fault);
            let short = burst.places < n;
            let bad = !is_setting(burst.setting) && fault != "setting not tested";
            let number = match fault {
                "10 before 6" if n > most => 10,
                "10 for the setting before 6" if bad => 10,
                "one place too few" if burst.places + 1 == n && n <= most => 0,
                _ if short => 6,
                "255" if n > 255 => 10,
                _ if n > most || bad => 10,
                "none refused" if n == 0 => 10,
                _ => 0,
            };
            if number != 0 && fault != "refused burst counts" {
                if fault == "refused burst writes" {
                    places.fill((Answer::Refused(number), Vec::new()));
                }
                return number;
            }
            for (i, record) in burst.records.iter().enumerate() {
                if fault == "first record skipped" && i == 0 {
                    continue;
                }
                let bytes = match fault {
                    "22 read as 21" => record.bytes[..usize::from(record.len).min(21)].to_vec(),
                    _ => record.handed(),
                };
                let answer = self.clerk.take(record.time, &bytes);
                if fault == "copies in a burst count nowhere" {
                    self.clerk.noted.last_mut().unwrap().opening = None;
                }
                let setting = match fault {
                    "setting of the history" => self.setting,
                    _ => burst.setting,
                };
                let at = i + usize::from(fault == "replies one place on");
                if number == 0 && at < places.len() {
                    let sent = match fault {
                        "sent of the first only" if i > 0 => Vec::new(),
                        _ => self.sent(setting, answer, &bytes),
                    };
                    places[at] = (answer, sent);
                }
                if fault == "stops at a refusal" && !answer.accepted() {
                    break;
                }
            }
            if fault == "places past cleared" {
                let rest = n.min(places.len());
                places[rest..].fill((Answer::Kept, Vec::new()));
            }
            number
        }
    }

    fn shown(fault: &'static str) -> String {
        let mut faulty = Faulty {
            clerk: Clerk::new(),
            setting: 0,
            fault,
        };
        show(&calls(), &mut faulty)
    }

    #[test]
    fn faults_of_bursts_are_seen() {
        let expected = stdout();
        assert!(shown("") == expected);
        for fault in [
            "first record skipped",
            "replies one place on",
            "stops at a refusal",
            "refused burst counts",
            "refused burst writes",
            "10 before 6",
            "one place too few",
            "255",
            "257",
            "none refused",
            "22 read as 21",
            "sent of the first only",
            "places past cleared",
            "setting not tested",
            "10 for the setting before 6",
            "setting of the history",
            "copies in a burst count nowhere",
        ] {
            assert!(shown(fault) != expected, "{fault}");
        }
    }

    #[test]
    fn every_burst_occurs() {
        let mut seen: BTreeMap<String, usize> = BTreeMap::new();
        let mut count = |key: String| *seen.entry(key).or_default() += 1;
        let calls = calls();
        let mut clerk = Clerk::new();
        for pair in calls.windows(2) {
            match &pair[0] {
                Call::Start(_) => clerk = Clerk::new(),
                Call::Reception(time, bytes) => {
                    clerk.take(*time, bytes);
                }
                Call::Given(image) => {
                    clerk.restore_given(image);
                }
                Call::Burst(burst) => {
                    let mut places = vec![untouched(); burst.places];
                    let number = deliver(&mut clerk, burst, &mut places);
                    count(format!("number {number}"));
                    count(format!("size {}", burst.records.len()));
                    count(format!("setting {}", burst.setting));
                    if number == 0 {
                        burst
                            .records
                            .iter()
                            .zip(&places)
                            .for_each(|(record, place)| {
                                count(format!("length {}", record.len));
                                count(word(place.0));
                            });
                    }
                    count(format!(
                        "then {}",
                        match pair[1] {
                            Call::Cut(_) => "a cut",
                            Call::Park(_) => "a checkpoint",
                            Call::Spoiled(_) => "a refused restore",
                            Call::Reception(..) => "a reception",
                            _ => "another call",
                        }
                    ));
                }
                _ => {}
            }
        }
        for (key, least) in [
            ("number 0", 80),
            ("number 6", 20),
            ("number 10", 6),
            ("setting 0", 3),
            ("setting 1", 20),
            ("setting 2", 20),
            ("setting 3", 3),
            ("setting 255", 3),
            ("size 0", 2),
            ("size 1", 20),
            ("size 256", 3),
            ("size 257", 3),
            ("length 0", 3),
            ("length 22", 5),
            ("length 255", 3),
            ("KEPT", 200),
            ("COPY", 200),
            ("LOOSE", 50),
            ("1", 20),
            ("2", 10),
            ("3", 5),
            ("7", 20),
            ("8", 2),
            ("13", 5),
            ("then a cut", 10),
            ("then a checkpoint", 10),
            ("then a refused restore", 10),
            ("then a reception", 3),
        ] {
            let found = seen.get(key).copied().unwrap_or(0);
            assert!(found >= least, "{key}: {seen:?}");
        }
    }

    /// By hand: 21 bytes that are a valid subtelegram, with a length byte of 21, 22 and 0.
    #[test]
    fn a_length_over_21_fails_the_check() {
        let mut random = Random::new(1);
        let telegram = plain(&mut random, LONGEST, Kind::Sum);
        let answers = [21, 22, 0].map(|len| {
            let mut record = Record::of(5, &telegram);
            record.len = len;
            Clerk::new().take(record.time, &record.handed())
        });
        assert_eq!(answers[0], Answer::Kept);
        assert_eq!(answers[1..], [Answer::Refused(1); 2]);
    }

    #[test]
    fn order_of_refusals() {
        let number_of = |setting, n, places| {
            number(&Burst {
                setting,
                records: vec![Record::of(0, &[]); n],
                places,
            })
        };
        let numbers = [(257, 256), (257, 257), (256, 256), (256, 255), (0, 0)]
            .map(|(n, places)| number_of(2, n, places));
        assert_eq!(numbers, [6, 10, 0, 6, 0]);
        assert_eq!(
            [(1, 0), (1, 1), (0, 0)].map(|(n, m)| number_of(3, n, m)),
            [6, 10, 10]
        );
    }
}
