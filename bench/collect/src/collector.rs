//! The collector (document 01, "Merging" and "Repeater step"; document 02, A3, A6, A7 and A8). Its
//! state is changed in place.

use crate::hash::{hash, renew};

/// How long a telegram is open, in ms.
const MATURITY: u64 = 100;
/// How long a sender takes, in ms: a later original is a new telegram.
const TX_MATURITY: u64 = 40;
/// How many telegrams can be open at once.
const CAPACITY: usize = 64;
const MIN_LEN: usize = 8;
const MAX_LEN: usize = 21;
const MIN_ADDRESSED_LEN: usize = 13;
const ADDRESSED: u8 = 0xA6;

const LENGTH: u8 = 1;
const SUM: u8 = 2;
const NESTED: u8 = 3;
const CLOCK: u8 = 7;
const FULL: u8 = 8;
const NOT_ACCEPTED: u8 = 11;
const CRC: u8 = 13;

#[derive(Clone, Copy)]
pub enum Answer {
    Kept,
    Copy,
    Loose,
    Refused(u8),
}

#[derive(Clone, Default)]
pub struct Totals {
    pub received: u64,
    pub kept: u64,
    pub copies: u64,
    pub loose: u64,
    pub damaged: u64,
    pub late: u64,
}

/// Equal for two receptions exactly if they are the same telegram: all bytes before HASH with the
/// level cleared, filled with zeros, and the length.
type Key = [u8; 24];

#[derive(Clone)]
pub struct Collector {
    pub totals: Totals,
    latest: u64,
    /// The open telegrams, in order of time, are the `count` from `first` on; the array is used as
    /// a ring.
    first: usize,
    count: usize,
    times: [u64; CAPACITY],
    keys: [Key; CAPACITY],
    /// STATUS and HASH as first received.
    ends: [[u8; 2]; CAPACITY],
    /// How often each was received again.
    copies: [u16; CAPACITY],
}

impl Default for Collector {
    fn default() -> Collector {
        Collector::new()
    }
}

impl Collector {
    pub fn new() -> Collector {
        Collector {
            totals: Totals::default(),
            latest: 0,
            first: 0,
            count: 0,
            times: [0; CAPACITY],
            keys: [[0; 24]; CAPACITY],
            ends: [[0; 2]; CAPACITY],
            copies: [0; CAPACITY],
        }
    }

    /// Takes a reception and classifies it; `repeat` makes what is sent for a kept one.
    pub fn take(&mut self, time: u64, bytes: &[u8]) -> Answer {
        if self.totals.received == u64::MAX {
            return Answer::Refused(FULL);
        }
        self.totals.received += 1;
        if let Some(number) = refusal(bytes) {
            self.totals.damaged += 1;
            return Answer::Refused(number);
        }
        if time < self.latest {
            self.totals.late += 1;
            return Answer::Refused(CLOCK);
        }
        self.latest = time;
        self.expire();
        let key = key(bytes);
        let original = bytes[bytes.len() - 2] & 0x0F == 0;
        if let Some(at) = self.copied(&key, original) {
            self.copies[at] = self.copies[at].saturating_add(1);
            self.totals.copies += 1;
            return Answer::Copy;
        }
        if self.count == CAPACITY {
            self.totals.loose += 1;
            return Answer::Loose;
        }
        self.totals.kept += 1;
        self.open(time, key, [bytes[bytes.len() - 2], bytes[bytes.len() - 1]]);
        Answer::Kept
    }

    /// Drops those that are no longer open: the oldest come first.
    fn expire(&mut self) {
        while self.count > 0 && self.latest - self.times[self.first] > MATURITY {
            self.first = (self.first + 1) % CAPACITY;
            self.count -= 1;
        }
    }

    /// The latest open telegram that is the same decides; for a copy, its index.
    fn copied(&self, key: &Key, original: bool) -> Option<usize> {
        self.last(key)
            .filter(|&at| !original || self.latest - self.times[at] <= TX_MATURITY)
    }

    /// The index of the latest open telegram with this key.
    fn last(&self, key: &Key) -> Option<usize> {
        let end = self.first + self.count;
        let last_of = |from: usize, to: usize| {
            let at = self.keys[from..to].iter().rposition(|k| k == key);
            at.map(|at| from + at)
        };
        if end <= CAPACITY {
            last_of(self.first, end)
        } else {
            last_of(0, end - CAPACITY).or_else(|| last_of(self.first, CAPACITY))
        }
    }

    fn open(&mut self, time: u64, key: Key, end: [u8; 2]) {
        let at = (self.first + self.count) % CAPACITY;
        self.times[at] = time;
        self.keys[at] = key;
        self.ends[at] = end;
        self.copies[at] = 0;
        self.count += 1;
    }
}

/// An open telegram, as it was first received.
pub struct Open {
    pub time: u64,
    pub copies: u16,
    bytes: [u8; 24],
    length: usize,
}

impl Open {
    pub fn bytes(&self) -> &[u8] {
        &self.bytes[..self.length]
    }
}

/// What an image is made from.
impl Collector {
    pub fn latest(&self) -> u64 {
        self.latest
    }

    /// In opening order.
    pub fn open_telegrams(&self) -> impl Iterator<Item = Open> + '_ {
        self.places().map(|at| {
            let length = usize::from(self.keys[at][23]);
            let mut bytes = self.keys[at];
            bytes[length - 2..length].copy_from_slice(&self.ends[at]);
            Open {
                time: self.times[at],
                copies: self.copies[at],
                bytes,
                length,
            }
        })
    }
}

/// The test of a state (document 01, "Parked collector"): whether an image could be written from
/// it.
impl Collector {
    pub fn is_acceptable(&self) -> bool {
        self.count <= CAPACITY
            && self.first < CAPACITY
            && self.are_timely()
            && self.are_telegrams()
            && self.totals.are_summed()
            && self.count as u64 <= self.totals.kept
    }

    /// Takes a reception into any state, and returns the next one.
    pub fn taken(mut self, time: u64, bytes: &[u8]) -> (Collector, Answer) {
        if !self.is_acceptable() {
            return (self, Answer::Refused(NOT_ACCEPTED));
        }
        let answer = self.take(time, bytes);
        (self, answer)
    }

    fn places(&self) -> impl Iterator<Item = usize> + '_ {
        (0..self.count).map(|i| (self.first + i) % CAPACITY)
    }

    /// In order of time, open at the latest time, and none later than it.
    fn are_timely(&self) -> bool {
        let mut earliest = self.latest.saturating_sub(MATURITY);
        for at in self.places() {
            if self.times[at] < earliest {
                return false;
            }
            earliest = self.times[at];
        }
        earliest <= self.latest
    }

    /// Valid, and none a copy of one before it: these are searched only if a mark was seen.
    fn are_telegrams(&self) -> bool {
        let mut seen = [false; 1024];
        for (i, at) in self.places().enumerate() {
            let key = &self.keys[at];
            let n = usize::from(key[23]);
            if !(MIN_LEN..=MAX_LEN).contains(&n) {
                return false;
            }
            let mut bytes = [0; 24];
            bytes[..n - 2].copy_from_slice(&key[..n - 2]);
            bytes[n - 2..n].copy_from_slice(&self.ends[at]);
            if refusal(&bytes[..n]).is_some() {
                return false;
            }
            let mark = (4 * usize::from(key[n - 3]) + 67 * usize::from(key[n - 4])) % 1024;
            if seen[mark] && self.is_repeated(i, at) {
                return false;
            }
            seen[mark] = true;
        }
        true
    }

    /// Whether the entry is a copy of one of the first `i`.
    fn is_repeated(&self, i: usize, at: usize) -> bool {
        let original = self.ends[at][0] & 0x0F == 0;
        self.places().take(i).any(|earlier| {
            self.keys[earlier] == self.keys[at]
                && (!original || self.times[at] - self.times[earlier] <= TX_MATURITY)
        })
    }
}

impl Totals {
    /// Received is the sum of the others, without wrapping.
    fn are_summed(&self) -> bool {
        [self.copies, self.loose, self.damaged, self.late]
            .iter()
            .try_fold(self.kept, |sum, &n| sum.checked_add(n))
            == Some(self.received)
    }
}

/// The number of the check, if it refuses.
fn refusal(bytes: &[u8]) -> Option<u8> {
    let n = bytes.len();
    if !(MIN_LEN..=MAX_LEN).contains(&n) {
        return Some(LENGTH);
    }
    if bytes[n - 1] != hash(&bytes[..n - 1]) {
        return Some(if bytes[n - 2] & 0x80 == 0 { SUM } else { CRC });
    }
    if bytes[0] != ADDRESSED {
        return None;
    }
    if n < MIN_ADDRESSED_LEN {
        return Some(LENGTH);
    }
    (bytes[1] == ADDRESSED).then_some(NESTED)
}

/// The key of a valid reception.
fn key(bytes: &[u8]) -> Key {
    let mut key = [0; 24];
    let n = bytes.len();
    key[..n - 1].copy_from_slice(&bytes[..n - 1]);
    key[n - 2] &= 0xF0;
    key[23] = n as u8;
    key
}

/// Changes the bytes of a valid telegram to those that are sent at the setting, if any.
#[inline]
pub fn repeat(setting: u8, bytes: &mut [u8]) -> bool {
    let status = bytes.len() - 2;
    let repeats = bytes[status] & 0x0F < setting;
    if repeats {
        bytes[status] += 1;
        renew(bytes);
    }
    repeats
}
