//! Images in the input that are to be restored: each condition of a reload (document 01, "Parked
//! collector"; document 02, A6 and A8) at its limit and one past it, with right checks around wrong
//! fields. An accepted one starts a history of its own.

use crate::clerk::Totals;
use crate::hash::crc;
use crate::history::Call;
use crate::image::{self, reload, Entry, BLOCK, IMAGE};
use crate::random::Random;
use crate::subtelegram::{ADDRESSED, LONGEST};
use crate::telegrams::{addressed, at_level, hashed, plain, valid, Kind};

/// How many bytes of an image a record holds, and where they begin in it.
const PART: usize = 54;
const PART_AT: usize = 10;

/// The records that hold the bytes.
pub fn parts(bytes: &[u8]) -> Vec<[u8; 64]> {
    let part = |bytes: &[u8]| {
        let mut record = [0; 64];
        record[PART_AT..PART_AT + bytes.len()].copy_from_slice(bytes);
        record
    };
    bytes.chunks(PART).map(part).collect()
}

/// The content of an image.
#[derive(Clone)]
struct State {
    latest: u64,
    totals: Totals,
    setting: u8,
    entries: Vec<Entry>,
}

impl State {
    fn image(&self) -> Vec<u8> {
        image::write(self.latest, &self.totals, self.setting, &self.entries)
    }
}

/// Bytes after 21, which no entry of a collector has, overwrite the copies.
fn entry(time: u64, bytes: &[u8]) -> Entry {
    let past = |at: usize| bytes.get(at).copied().unwrap_or(0);
    Entry {
        time,
        bytes: bytes.to_vec(),
        copies: u16::from_be_bytes([past(LONGEST), past(LONGEST + 1)]),
    }
}

fn heard_again(time: u64, bytes: &[u8], copies: u16) -> Entry {
    Entry {
        copies,
        ..entry(time, bytes)
    }
}

/// A state with these entries whose totals break no condition.
fn state(latest: u64, entries: Vec<Entry>) -> State {
    let kept = entries.len() as u64 + 2;
    State {
        latest,
        totals: Totals {
            received: kept + 10,
            kept,
            copies: 4,
            loose: 1,
            damaged: 2,
            late: 3,
        },
        setting: 1,
        entries,
    }
}

/// One byte is set, and the check of its block corrected.
fn with_byte(mut image: Vec<u8>, at: usize, value: u8) -> Vec<u8> {
    image[at] = value;
    let block = &mut image[at / BLOCK * BLOCK..][..BLOCK];
    block[BLOCK - 1] = crc(&block[..BLOCK - 1]);
    image
}

struct Maker {
    random: Random,
    calls: Vec<Call>,
}

impl Maker {
    fn start(&mut self, setting: u8) {
        self.calls.push(Call::Start(setting));
        let bytes = valid(&mut self.random);
        self.heard(900, &bytes);
    }

    fn end(&mut self) {
        self.calls.extend([IMAGE, 3000, 2561].map(Call::Park));
    }

    fn heard(&mut self, time: u64, bytes: &[u8]) {
        self.calls.push(Call::Reception(time, bytes.to_vec()));
    }

    /// An image that must be refused, and a reception for the state, which is unchanged.
    fn refused(&mut self, image: Vec<u8>) {
        assert!(reload(&image).is_err(), "an image that is accepted");
        self.calls.push(Call::Given(image));
        let bytes = valid(&mut self.random);
        self.heard(u64::MAX, &bytes[1..]);
    }

    /// A state whose image must be accepted, and receptions for its entries: copies, originals
    /// after 40 and 41 ms, the first one as long as it is open, another telegram; then a cut.
    fn accepted(&mut self, state: &State) {
        let image = state.image();
        assert!(reload(&image).is_ok(), "an image that is refused");
        self.calls.push(Call::Given(image));
        let latest = state.latest;
        let fresh = valid(&mut self.random);
        self.heard(latest.saturating_sub(1), &fresh);
        if let (Some(first), Some(last)) = (state.entries.first(), state.entries.last()) {
            self.heard(latest, &at_level(&last.bytes, 2));
            self.heard(latest, &at_level(&first.bytes, 0));
            for (entry, gap, level) in [(last, 40, 0), (last, 41, 0), (first, 100, 1)] {
                let time = entry.time.saturating_add(gap).max(latest);
                self.heard(time, &at_level(&entry.bytes, level));
            }
        }
        self.heard(latest.saturating_add(100), &fresh);
        self.calls.push(Call::Cut(2));
    }

    fn telegrams(&mut self, n: usize) -> Vec<Vec<u8>> {
        (0..n)
            .map(|_| at_level(&valid(&mut self.random), 0))
            .collect()
    }

    /// The window, the order, the setting, the number of entries.
    fn edges(&mut self) {
        self.start(1);
        let pool = self.telegrams(75);
        let (a, b) = (&pool[0], &pool[1]);
        for (latest, times, fits) in [
            (1000, [900, 1000], true),
            (1000, [899, 1000], false),
            (1000, [950, 1000], true),
            (1000, [950, 1001], false),
            (1000, [970, 970], true),
            (1000, [971, 970], false),
            (0, [0, 0], true),
            (100, [0, 100], true),
            (101, [0, 100], false),
            (u64::MAX, [u64::MAX - 100, u64::MAX], true),
            (u64::MAX, [u64::MAX - 101, u64::MAX], false),
        ] {
            let given = state(latest, vec![entry(times[0], a), entry(times[1], b)]);
            if fits {
                self.accepted(&given);
            } else {
                self.refused(given.image());
            }
        }
        for (setting, fits) in [(0, true), (2, true), (3, false), (255, false)] {
            let given = State {
                setting,
                ..state(500, vec![entry(500, a)])
            };
            if fits {
                self.accepted(&given);
            } else {
                self.refused(given.image());
            }
        }
        // 256, whose last byte is 0.
        let image = state(500, vec![entry(500, a)]).image();
        let image = with_byte(image, 3 * BLOCK + 23, 0);
        self.refused(with_byte(image, 3 * BLOCK + 22, 1));
        let listed = |n: usize| {
            let entries = pool[..n].iter().enumerate();
            state(
                700,
                entries.map(|(i, b)| entry(620 + i as u64, b)).collect(),
            )
        };
        self.accepted(&listed(0));
        self.accepted(&listed(15));
        self.accepted(&listed(16));
        self.accepted(&listed(64));
        self.refused(listed(65).image());
        self.refused(listed(75).image());
        self.end();
    }

    /// Several entries of one telegram (document 02, A6), and other telegrams between them.
    fn openings(&mut self) {
        self.start(2);
        let pool = self.telegrams(3);
        let (a, b) = (&pool[0], &pool[1]);
        let one = |times: &[(u64, u8)]| {
            let entries = times.iter().map(|&(t, l)| entry(t, &at_level(a, l)));
            state(1100, entries.collect())
        };
        for (times, fits) in [
            (&[(1000, 0), (1040, 0)][..], false),
            (&[(1000, 0), (1041, 0)], true),
            (&[(1000, 0), (1041, 1)], false),
            (&[(1000, 1), (1041, 0)], true),
            (&[(1000, 15), (1100, 0)], true),
            (&[(1000, 0), (1100, 15)], false),
            (&[(1000, 0), (1000, 0)], false),
            (&[(1000, 0), (1041, 0), (1081, 0)], false),
            (&[(1000, 0), (1041, 0), (1082, 0)], true),
            (&[(1000, 0), (1041, 0), (1082, 1)], false),
            (&[(1000, 3), (1041, 0), (1100, 0)], true),
            (&[(1000, 0), (1041, 0), (1082, 0), (1100, 0)], false),
        ] {
            let mut given = one(times);
            if fits {
                self.accepted(&given);
            } else {
                self.refused(given.image());
            }
            given.entries.insert(1, entry(1000, b));
            if fits {
                self.accepted(&given);
            } else {
                self.refused(given.image());
            }
        }
        // The same except for the kind of HASH: two telegrams.
        let mut other = a.clone();
        let status = other.len() - 2;
        other[status] ^= 0x80;
        crate::subtelegram::renew_hash(&mut other);
        self.accepted(&state(1000, vec![entry(990, a), entry(1000, &other)]));
        // 64 entries: 21 telegrams opened three times each, and one more.
        let many = self.telegrams(22);
        let mut entries: Vec<Entry> = [600, 641, 682]
            .iter()
            .flat_map(|&t| many[..21].iter().map(move |b| entry(t, b)))
            .collect();
        entries.push(entry(700, &many[21]));
        let given = state(700, entries.clone());
        self.accepted(&given);
        entries[63] = entry(681 + 41, &many[20]);
        self.refused(state(722, entries.clone()).image());
        entries[63] = entry(723, &many[20]);
        self.refused(state(723, entries).image());
        self.end();
    }

    /// Entries that the check refuses, by each of its numbers.
    fn entries(&mut self) {
        self.start(0);
        let random = &mut self.random;
        let sum_wrong = |mut bytes: Vec<u8>| {
            *bytes.last_mut().unwrap() ^= 0x10;
            bytes
        };
        let bad = [
            Vec::new(),
            plain(random, 7, Kind::Sum),
            plain(random, 22, Kind::Crc),
            plain(random, 23, Kind::Sum),
            sum_wrong(plain(random, 9, Kind::Sum)),
            sum_wrong(plain(random, 9, Kind::Crc)),
            addressed(random, 12, Kind::Sum),
            hashed(random, 15, &[ADDRESSED, ADDRESSED], Kind::Crc),
        ];
        let good = [
            plain(random, 8, Kind::Crc),
            plain(random, LONGEST, Kind::Sum),
            addressed(random, 13, Kind::Crc),
            addressed(random, LONGEST, Kind::Sum),
        ];
        for bytes in bad {
            self.refused(state(50, vec![entry(40, &bytes)]).image());
        }
        for bytes in good {
            self.accepted(&state(50, vec![entry(40, &bytes)]));
        }
        self.end();
    }

    /// The totals: their sum, which must not wrap; and a received of 2^64 - 1.
    fn totals(&mut self) {
        self.start(2);
        let bytes = self.telegrams(2);
        let entries = vec![entry(10, &bytes[0]), entry(12, &bytes[1])];
        let fair = state(20, entries);
        let with = |totals: Totals| State {
            totals,
            ..fair.clone()
        };
        let t = fair.totals;
        for part in 0..6 {
            let mut totals = t;
            *[
                &mut totals.received,
                &mut totals.kept,
                &mut totals.copies,
                &mut totals.loose,
                &mut totals.damaged,
                &mut totals.late,
            ][part] += 1;
            self.refused(with(totals).image());
        }
        // kept is at least the entries.
        let kept = |kept: u64| Totals {
            received: kept + 10,
            kept,
            ..t
        };
        self.accepted(&with(kept(2)));
        self.refused(with(kept(1)).image());
        // The sum wraps to received.
        let wrapping = Totals {
            late: u64::MAX,
            received: t.received - t.late - 1,
            ..t
        };
        self.refused(with(wrapping).image());
        // Full, one below it, and the greatest of each total.
        let copies = u64::MAX - (t.received - t.copies);
        let full = Totals {
            received: u64::MAX,
            copies,
            ..t
        };
        self.accepted(&with(full));
        let nearly = Totals {
            received: u64::MAX - 1,
            copies: copies - 1,
            ..t
        };
        self.accepted(&with(nearly));
        self.refused(
            with(Totals {
                late: t.late + 1,
                ..full
            })
            .image(),
        );
        self.end();
    }

    /// The layout, byte by byte where it says zero or a fixed value, and the length of the whole.
    fn layout(&mut self) {
        self.start(1);
        let pool = self.telegrams(17);
        let entries = |n: usize| -> Vec<Entry> { pool[..n].iter().map(|b| entry(60, b)).collect() };
        let given = state(70, entries(16));
        self.accepted(&given);
        let image = given.image();
        let length = pool[0].len();
        for (at, value) in [
            (0, 1),
            (BLOCK, 0),
            (1, 14),
            (1, 16),
            (BLOCK + 1, 2),
            (BLOCK + 1, 0),
            (2 * BLOCK + 1, 1),
            (2, 1),
            (7, 0x80),
            (504, 1),
            (510, 1),
            // After the bytes of an entry, and in entries that are not used, also in their last two
            // bytes.
            (24 + 9 + length.min(20), if length < 21 { 1 } else { 0 }),
            (BLOCK + 24 + 32, 1),
            (BLOCK + 24 + 32 + 30, 1),
            (BLOCK + 24 + 32 + 31, 1),
            (2 * BLOCK + 24 + 30, 255),
            (2 * BLOCK + 24 + 31, 255),
            (BLOCK + 503, 1),
            (4 * BLOCK + 24 + 7, 1),
            // The numbers of the last block are zero.
            (4 * BLOCK + 15, 1),
            (4 * BLOCK + 16, 1),
        ] {
            if image[at] != value {
                self.refused(with_byte(image.clone(), at, value));
            }
        }
        // Each block at the position of the next, with its own number.
        let mut exchanged = image.clone();
        exchanged[..2 * BLOCK].rotate_left(BLOCK);
        self.refused(exchanged);
        // A wrong check, and wrong lengths.
        let mut unchecked = image.clone();
        unchecked[5 * BLOCK - 1] ^= 1;
        self.refused(unchecked);
        for n in [0, 1, BLOCK, IMAGE - 1] {
            self.refused(image[..n].to_vec());
        }
        for n in [IMAGE + 1, IMAGE + BLOCK - 72] {
            let mut longer = image.clone();
            longer.resize(n, 0);
            self.refused(longer);
        }
        self.end();
    }
}

/// Histories about the copies in an image (document 02, A8): any value is accepted, and counting
/// continues from it.
impl Maker {
    fn ask_each(&mut self, open: u64) {
        self.calls.extend((0..=open).map(Call::Ask));
        self.calls.push(Call::Ask(u64::MAX));
    }

    /// An image that must be accepted, with questions for all its entries; a cut, and all questions
    /// again.
    fn accepted_and_asked(&mut self, state: &State) {
        let image = state.image();
        assert!(reload(&image).is_ok(), "an image that is refused");
        self.calls.push(Call::Given(image));
        let open = state.entries.len() as u64;
        self.ask_each(open);
        self.calls.push(Call::Cut(1));
        self.ask_each(open);
    }

    /// Each number, and two more copies, asked for after each: 65,534 becomes 65,535 and stays.
    fn copies(&mut self) {
        self.start(1);
        let pool = self.telegrams(64);
        let entries = pool.iter().zip(EDGES);
        let given = state(1000, entries.map(|(b, n)| heard_again(960, b, n)).collect());
        self.accepted_and_asked(&given);
        for time in [1000, 1001] {
            for (place, entry) in given.entries.iter().enumerate() {
                self.heard(time, &at_level(&entry.bytes, 1));
                self.calls.push(Call::Ask(place as u64));
            }
            self.calls.push(Call::Cut(0));
            self.ask_each(EDGES.len() as u64);
            self.calls.push(Call::Park(IMAGE));
        }
        // Another opening of each starts from 0, and the first ones keep their numbers until they
        // close.
        for (i, entry) in given.entries.iter().enumerate() {
            let time = 1010 + 5 * i as u64;
            self.heard(time, &at_level(&entry.bytes, 0));
            self.heard(time, &at_level(&entry.bytes, 2));
            self.calls.push(Call::Ask(i as u64));
            self.calls.push(Call::Ask((EDGES.len() + i) as u64));
        }
        self.heard(1061, &at_level(&given.entries[0].bytes, 1));
        self.ask_each(EDGES.len() as u64);
        self.calls.push(Call::Park(IMAGE));
        // An image that is refused for one bit of a number, with its check unchanged: everything
        // stays.
        let mut image = given.image();
        image[24 + 31] ^= 1;
        self.refused(image);
        self.ask_each(EDGES.len() as u64);
        self.older(&pool);
        self.of_one_telegram(&pool[0], &pool[1]);
        self.of_all_64(&pool);
        self.end();
    }

    /// An older image has zeros there; and one has more copies than its total.
    fn older(&mut self, pool: &[Vec<u8>]) {
        for copies in [0, 65_535] {
            let entries = pool[..3].iter().map(|b| heard_again(490, b, copies));
            let mut given = state(500, entries.collect());
            given.totals.received -= given.totals.copies;
            given.totals.copies = 0;
            given.setting = 2;
            self.accepted_and_asked(&given);
            self.heard(501, &at_level(&pool[1], 3));
            self.ask_each(3);
        }
    }

    /// Three openings of one telegram, with another between: a copy belongs to the latest, and
    /// those that stay open move up with their numbers.
    fn of_one_telegram(&mut self, one: &[u8], other: &[u8]) {
        let given = state(
            1090,
            vec![
                heard_again(1000, one, 700),
                heard_again(1000, other, 256),
                heard_again(1041, one, 513),
                heard_again(1082, one, 65_533),
            ],
        );
        self.accepted_and_asked(&given);
        for (time, bytes) in [
            (1090, one),
            (1100, other),
            (1100, one),
            (1101, one),
            (1142, one),
            (1143, other),
        ] {
            self.heard(time, &at_level(bytes, 1));
            self.ask_each(4);
        }
    }

    /// Any number for each of 64, a copy of each, and some that close.
    fn of_all_64(&mut self, pool: &[Vec<u8>]) {
        let mut entries = Vec::new();
        for (i, bytes) in pool.iter().enumerate() {
            let copies = self.random.next() as u16;
            entries.push(heard_again(2000 + i as u64, bytes, copies));
        }
        let given = state(2070, entries);
        self.accepted_and_asked(&given);
        for bytes in pool {
            self.heard(2070, &at_level(bytes, 15));
        }
        self.calls.push(Call::Park(IMAGE));
        self.heard(2133, &at_level(&pool[60], 1));
        self.ask_each(31);
        self.calls.push(Call::Park(IMAGE));
    }
}

/// Numbers of copies at the limits of their two bytes, and of the ceiling.
const EDGES: [u16; 9] = [0, 1, 254, 255, 256, 32_767, 65_533, 65_534, 65_535];

/// Histories with images in the input.
pub fn calls() -> Vec<Call> {
    let mut maker = Maker {
        random: Random::new(0x0003_4D6F_6F72_696E),
        calls: Vec::new(),
    };
    maker.edges();
    maker.openings();
    maker.entries();
    maker.totals();
    maker.layout();
    maker.copies();
    maker.calls
}
