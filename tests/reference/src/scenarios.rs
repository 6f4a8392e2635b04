//! The calls of the histories: sparse traffic, repeaters, bursts, limits, both ends of time, a
//! clock that goes back, damage; with checkpoints, cuts and refused restores among them.

use crate::bursts;
use crate::clerk::{Answer, Clerk, OPEN_FOR, PLACES, SENT_WITHIN};
use crate::given;
use crate::history::{Call, SHOWN};
use crate::image::IMAGE;
use crate::random::Random;
use crate::subtelegram::{check, renew_hash, ADDRESSED};
use crate::telegrams::{addressed, at_level, hashed, plain, random_kind, valid, with_bit};

/// The levels at which copies are received.
const LEVELS: [u8; 8] = [0, 0, 0, 1, 1, 2, 3, 15];
/// Lengths of the output of a checkpoint.
pub const ROOMS: [usize; 6] = [0, 100, 2559, 2560, 2561, 3000];
const ROOMS_ENOUGH: [usize; 3] = [2560, 2561, 3000];

/// Places after every end, and places that look open if some of their bytes are lost.
const FAR_PLACES: [u64; 9] = [
    64,
    65,
    255,
    256,
    65_536,
    1 << 32,
    (1 << 32) + 1,
    1 << 63,
    u64::MAX,
];
/// If more telegrams than this are open, only some are asked for.
const FEW: usize = 8;

/// Makes calls; it has a clerk, to aim at what is open.
struct Maker {
    random: Random,
    /// Decides what is asked for, so that the other calls do not depend on it.
    asking: Random,
    clerk: Clerk,
    now: u64,
    parked: usize,
    calls: Vec<Call>,
}

impl Maker {
    fn new(seed: u64) -> Maker {
        Maker {
            random: Random::new(seed),
            asking: Random::new(seed ^ 0x4138),
            clerk: Clerk::new(),
            now: 0,
            parked: 0,
            calls: Vec::new(),
        }
    }

    fn start(&mut self, setting: u8, now: u64) {
        self.clerk = Clerk::new();
        self.now = now;
        self.parked = 0;
        self.calls.push(Call::Start(setting));
    }

    /// Hands over one reception, and makes no other call.
    fn reception_alone(&mut self, time: u64, bytes: &[u8]) -> Answer {
        self.calls.push(Call::Reception(time, bytes.to_vec()));
        self.clerk.take(time, bytes)
    }

    /// Hands over one reception, and sometimes makes another call after it.
    fn reception(&mut self, time: u64, bytes: &[u8]) -> Answer {
        let answer = self.reception_alone(time, bytes);
        match self.random.below(100) {
            0..=2 => self.park(),
            3..=6 => self.cut(),
            7..=8 => self.spoiled(),
            9 => self.several(),
            _ => {}
        }
        match self.asking.below(100) {
            0..=5 => self.ask_one(),
            6 => self.ask_around_a_cut(),
            7 => self.ask_far(),
            _ => {}
        }
        answer
    }

    fn ask(&mut self, place: usize) {
        self.calls.push(Call::Ask(place as u64));
    }

    /// Asks at a place that is open, or at the first that is not; or for the telegram received most
    /// often.
    fn ask_one(&mut self) {
        let entries = self.clerk.entries();
        let most = (0..entries.len()).max_by_key(|&place| entries[place].copies);
        let place = match most {
            Some(place) if self.asking.chance(50) => place,
            _ => self.asking.range(0, entries.len()),
        };
        self.ask(place);
    }

    /// Asks at a place after the end.
    fn ask_far(&mut self) {
        let open = self.clerk.entries().len() as u64;
        let far = self.asking.pick(&FAR_PLACES);
        let place = self.asking.pick(&[open, open + 1, far, far]);
        self.calls.push(Call::Ask(place));
    }

    /// Asks at every open place; if there are many, at some: around the ends of blocks, and at
    /// random.
    fn ask_each(&mut self) {
        let open = self.clerk.entries().len();
        for place in self.some_places(open) {
            self.ask(place);
        }
    }

    fn some_places(&mut self, open: usize) -> Vec<usize> {
        if open <= FEW {
            return (0..open).collect();
        }
        let mut places = vec![0, 14, 15, 59, 60, open - 1];
        places.retain(|&place| place < open);
        while places.len() < FEW {
            places.push(self.asking.below(open));
        }
        places
    }

    /// "A cut keeps every count": asks, a cut, and the same asks again.
    fn ask_around_a_cut(&mut self) {
        let open = self.clerk.entries().len();
        let places = self.some_places(open);
        places.iter().for_each(|&place| self.ask(place));
        let any = self.asking.below(3) as u8;
        self.calls.push(Call::Cut(any));
        places.iter().for_each(|&place| self.ask(place));
    }

    /// The first three of a history have enough room.
    fn park(&mut self) {
        let rooms = if self.parked < SHOWN {
            &ROOMS_ENOUGH[..]
        } else {
            &ROOMS[..]
        };
        let room = self.random.pick(rooms);
        self.parked += 1;
        self.calls.push(Call::Park(room));
    }

    fn cut(&mut self) {
        let any = self.random.below(3) as u8;
        self.calls.push(Call::Cut(any));
    }

    fn spoiled(&mut self) {
        let block = 512 * self.random.below(5);
        let k = match self.random.below(4) {
            0 => self.random.below(IMAGE),
            1 => IMAGE,
            2 => {
                block
                    + self
                        .random
                        .pick(&[0, 1, 2, 7, 8, 15, 16, 23, 24, 32, 33, 55, 56])
            }
            _ => block + self.random.pick(&[503, 504, 510, 511]),
        };
        self.calls.push(Call::Spoiled(k));
    }

    /// Several calls at this state.
    fn several(&mut self) {
        self.cut();
        self.cut();
        self.spoiled();
        self.park();
    }

    /// The end of a history: as many checkpoints as are shown, and a cut and what follows.
    fn end(&mut self) {
        while self.parked < SHOWN {
            self.park();
        }
        self.cut();
        self.park();
        self.ask_each();
        self.ask(self.clerk.entries().len());
        self.ask_far();
    }

    fn pass(&mut self, gap: u64) {
        self.now = self.now.saturating_add(gap);
    }

    /// The open telegrams: when each was opened, and its bytes.
    fn opened(&self) -> Vec<(u64, Vec<u8>)> {
        let entries = self.clerk.entries();
        let opened = entries.iter().map(|e| (e.time, e.bytes.clone()));
        opened.collect()
    }

    fn pool(&mut self, n: usize) -> Vec<Vec<u8>> {
        (0..n).map(|_| valid(&mut self.random)).collect()
    }

    /// One of the pool at some level.
    fn heard(&mut self, pool: &[Vec<u8>]) -> Vec<u8> {
        let at = self.random.below(pool.len());
        let level = self.random.pick(&LEVELS);
        at_level(&pool[at], level)
    }

    /// Near the given one, but another telegram: one bit different, two bytes exchanged (an equal
    /// sum), the generator XORed in (an equal CRC), one byte longer.
    fn near(&mut self, bytes: &[u8]) -> Vec<u8> {
        let n = bytes.len();
        loop {
            let mut other = bytes.to_vec();
            match self.random.below(5) {
                0 => {
                    let at = self.random.below(n - 2);
                    let bit = self.random.below(8);
                    other = with_bit(bytes, at, bit);
                }
                1 => other = with_bit(bytes, n - 2, self.random.range(4, 7)),
                2 => other.swap(n - 7, n - 6),
                3 => {
                    other[n - 4] ^= 0x01;
                    other[n - 3] ^= 0x07;
                }
                _ => other.insert(n - 6, self.random.byte()),
            }
            renew_hash(&mut other);
            if check(&other).is_ok() {
                return other;
            }
        }
    }

    /// A telegram that the check refuses: with 1, 2, 3 or 13, also of the outer lengths, and short
    /// addressed ones.
    fn damaged(&mut self, pool: &[Vec<u8>]) -> Vec<u8> {
        let random = &mut self.random;
        let kind = random_kind(random);
        let bytes = match random.below(8) {
            0 => {
                let n = random.range(0, 7);
                plain(random, n, kind)
            }
            1 => {
                let n = random.range(22, 28);
                plain(random, n, kind)
            }
            2 => {
                let n = random.range(8, 12);
                addressed(random, n, kind)
            }
            3 | 4 => {
                let n = random.range(13, 21);
                hashed(random, n, &[ADDRESSED, ADDRESSED], kind)
            }
            _ => {
                let at = random.below(pool.len());
                let mut bytes = pool[at].clone();
                let at = random.below(bytes.len());
                bytes[at] ^= 1 << random.below(8);
                bytes
            }
        };
        if check(&bytes).is_ok() {
            // A changed bit can select the other hash, and that may be right.
            return Vec::new();
        }
        bytes
    }

    /// Some reception of a pool at the present time or near it.
    fn ordinary(&mut self, pool: &[Vec<u8>]) {
        let heard = self.heard(pool);
        let now = self.now;
        match self.random.below(100) {
            0..=7 => {
                // Damaged, at any time: it does not move the clock.
                let bytes = self.damaged(pool);
                let time = match self.random.below(4) {
                    0 => self.random.next(),
                    1 => now.saturating_sub(1),
                    2 => u64::MAX,
                    _ => now,
                };
                self.reception(time, &bytes);
            }
            8..=12 => {
                // The clock goes back.
                let back = self.random.pick(&[1, 1, 2, 50, 100, 101, 5000]);
                self.reception(now.saturating_sub(back), &heard);
            }
            13..=19 => {
                let other = self.near(&heard);
                self.reception(now, &other);
            }
            _ => {
                self.reception(now, &heard);
            }
        }
    }

    /// Few devices, gaps of all sizes.
    fn sparse(&mut self, setting: u8, count: usize) {
        let now = self.random.next() >> 24;
        self.start(setting, now);
        let pool = self.pool(12);
        for _ in 0..count {
            let gap = self.random.pick(&[
                0, 1, 3, 10, 20, 39, 40, 41, 60, 99, 100, 101, 102, 250, 1000,
            ]);
            self.pass(gap);
            self.ordinary(&pool);
        }
    }

    /// A sender and its repeaters: three subtelegrams, two more from each repeater.
    fn repeated(&mut self, setting: u8, count: usize) {
        let now = self.random.next() >> 24;
        self.start(setting, now);
        let pool = self.pool(20);
        while self.clerk.noted.len() < count {
            let at = self.random.below(pool.len());
            let mut offsets = vec![
                (0, 0),
                (self.random.range(1, 9), 0),
                (self.random.range(20, 39), 0),
            ];
            for (level, first) in [(1, 10), (2, 25), (3, 45), (15, 60)] {
                if self.random.chance(60) {
                    offsets.push((self.random.range(first, first + 9), level));
                    offsets.push((self.random.range(first + 10, first + 19), level));
                }
            }
            // Some are lost on the way, so any level can be the first one received.
            offsets.sort();
            let start = self.now;
            for (offset, level) in offsets {
                if self.random.chance(70) {
                    let time = start + offset as u64;
                    self.reception(time, &at_level(&pool[at], level));
                }
            }
            self.now = start + self.random.pick(&[80, 100, 101, 150, 400]);
        }
    }

    /// More than 64 telegrams within 100 ms.
    fn burst(&mut self, setting: u8, count: usize) {
        let now = self.random.next() >> 20;
        self.start(setting, now);
        let pool = self.pool(130);
        for i in 0..count {
            let gap = if i % 150 == 149 {
                60
            } else {
                self.random.pick(&[0, 0, 0, 1, 1, 1])
            };
            self.pass(gap);
            self.ordinary(&pool);
        }
    }

    /// Aims at the limits of what is open: 99, 100 and 101 ms after it was kept.
    fn edges(&mut self, setting: u8, count: usize) {
        self.start(setting, 7);
        let pool = self.pool(16);
        while self.clerk.noted.len() < count {
            let latest = self.clerk.latest();
            let kept = self.opened();
            if kept.is_empty() || self.random.chance(35) {
                self.now = latest + self.random.pick(&[0, 1, 5, 30]);
                let heard = self.heard(&pool);
                self.reception(self.now, &heard);
                continue;
            }
            let at = self.random.below(kept.len());
            let (opened, bytes) = &kept[at];
            let time = opened
                + self
                    .random
                    .pick(&[OPEN_FOR - 1, OPEN_FOR, OPEN_FOR, OPEN_FOR + 1, OPEN_FOR + 1]);
            let level = self.random.pick(&LEVELS);
            // Times before the latest are refused with 7, which is a limit too.
            self.reception(time, &at_level(bytes, level));
        }
    }

    /// Originals and repeated copies around 40 ms after an opening (document 02, A6), and around 100:
    /// up to three openings of one telegram are open at once.
    fn originals(&mut self, setting: u8, count: usize) {
        self.start(setting, 50);
        let pool = self.pool(4);
        while self.clerk.noted.len() < count {
            let opened = self.opened();
            if opened.is_empty() || self.random.chance(30) {
                let gap = self.random.pick(&[0, 1, 39, 40, 41, 80, 81, 82]);
                self.pass(gap);
                let heard = self.heard(&pool);
                self.reception(self.now, &heard);
            } else {
                let at = self.random.below(opened.len());
                let (time, bytes) = &opened[at];
                let after = self.random.pick(&[
                    SENT_WITHIN - 1,
                    SENT_WITHIN,
                    SENT_WITHIN,
                    SENT_WITHIN + 1,
                    SENT_WITHIN + 1,
                    2 * SENT_WITHIN,
                    2 * SENT_WITHIN + 1,
                    2 * SENT_WITHIN + 2,
                    OPEN_FOR - 1,
                    OPEN_FOR,
                    OPEN_FOR + 1,
                ]);
                let level = self.random.pick(&[0, 0, 0, 0, 1, 2, 15]);
                self.reception(time + after, &at_level(bytes, level));
            }
            self.now = self.now.max(self.clerk.latest());
        }
    }

    /// A full table and late originals: they are LOOSE, and open nothing; each opening uses a place
    /// of its own.
    fn crowded_originals(&mut self, setting: u8, count: usize) {
        self.start(setting, 3_000);
        let pool = self.pool(30);
        while self.clerk.noted.len() < count {
            for bytes in &pool {
                let time = self.now;
                self.reception(time, &at_level(bytes, 0));
            }
            let gap = self.random.pick(&[39, 40, 41, 41, 42]);
            self.pass(gap);
            let heard = self.heard(&pool);
            self.reception(self.now, &heard);
        }
    }

    /// Chatter: a few telegrams again and again for far longer than 100 ms.
    fn chatter(&mut self, setting: u8, count: usize) {
        self.start(setting, 123_456_789);
        let pool = self.pool(3);
        for i in 0..count {
            self.pass([10, 20, 7, 33, 50, 1][(i / 40 + usize::from(setting) * 3) % 6]);
            let at = i % (1 + i / 40 % 3);
            let level = self.random.pick(&LEVELS);
            self.reception(self.now, &at_level(&pool[at], level));
        }
    }

    /// Everything at time 0, then on from there.
    fn zero(&mut self, setting: u8, count: usize) {
        self.start(setting, 0);
        self.several();
        let pool = self.pool(80);
        for bytes in &pool {
            self.reception(0, bytes);
        }
        for time in [0, 1, 99, 100] {
            for _ in 0..10 {
                let heard = self.heard(&pool);
                self.reception(time, &heard);
            }
        }
        self.now = 101;
        while self.clerk.noted.len() < count {
            self.ordinary(&pool);
            let gap = self.random.pick(&[0, 0, 1, 4]);
            self.pass(gap);
        }
    }

    /// Up to the greatest time, and at it.
    fn top(&mut self, setting: u8, count: usize) {
        self.start(setting, u64::MAX - 260);
        let pool = self.pool(75);
        for i in 0..count {
            let gap = if i < count / 2 {
                self.random.pick(&[0, 1, 2, 4])
            } else {
                0
            };
            if i == count / 2 {
                // 100 and 101 ms before the end have their own open telegrams.
                self.now = self.now.max(u64::MAX - 1);
            }
            if i > count * 2 / 3 {
                self.now = u64::MAX;
            }
            self.pass(gap);
            self.ordinary(&pool);
        }
    }

    /// One jump over nearly all times, from both ends.
    fn leap(&mut self, setting: u8) {
        self.start(setting, 0);
        let pool = self.pool(6);
        for time in [
            0,
            0,
            1,
            1 << 32,
            (1 << 32) + 100,
            (1 << 32) + 201,
            1 << 63,
            u64::MAX - 100,
            u64::MAX,
            u64::MAX,
            0,
            1,
        ] {
            for bytes in &pool {
                self.reception(time, bytes);
            }
        }
    }

    /// A clock that goes back again and again, and damage around it.
    fn back(&mut self, setting: u8, count: usize) {
        let now = self.random.next() >> 30;
        self.start(setting, now);
        let pool = self.pool(10);
        for _ in 0..count {
            let gap = self.random.pick(&[0, 1, 15, 101]);
            self.pass(gap);
            let heard = self.heard(&pool);
            match self.random.below(4) {
                0 => {
                    let back = self.random.range(1, 300) as u64;
                    let time = self.now.saturating_sub(back);
                    self.reception(time, &heard);
                }
                1 => {
                    // Damaged and early at once: damaged. Damaged and far ahead: the clock does not
                    // move.
                    let bytes = self.damaged(&pool);
                    let time = if self.random.chance(50) {
                        0
                    } else {
                        self.now + 100_000
                    };
                    self.reception(time, &bytes);
                }
                _ => {
                    self.reception(self.now, &heard);
                }
            }
        }
    }

    /// 64 open and the limits around that: what frees a place and what moves the latest time. At
    /// twelve states come further calls; checkpoints only from state number `from` on.
    fn full(&mut self, setting: u8, from: usize) {
        self.start(setting, 5_000);
        let pool = self.pool(PLACES + 6);
        let (first, rest) = pool.split_at(PLACES);
        let mut states = 0;
        let mut state = |maker: &mut Maker| {
            maker.cut();
            maker.spoiled();
            if states >= from {
                maker.park();
            }
            states += 1;
        };
        for (i, bytes) in first.iter().enumerate() {
            self.reception_alone(5_000 + i as u64 / 2, bytes);
        }
        state(self);
        // Full: other telegrams are LOOSE, the same one twice is LOOSE again, copies stay COPY.
        for bytes in rest.iter().chain(rest) {
            self.reception_alone(5_031, bytes);
        }
        for bytes in first.iter().step_by(7) {
            self.reception_alone(5_031, &at_level(bytes, 15));
        }
        // 5,100: all are still open. 5,101: the first two are gone, two places are free.
        self.reception_alone(5_100, &rest[0]);
        state(self);
        self.reception_alone(5_101, &rest[0]);
        state(self);
        self.reception_alone(5_101, &first[0]);
        self.reception_alone(5_101, &first[1]);
        self.reception_alone(5_101, &rest[1]);
        state(self);
        // Copies alone move the latest time, and so shorten the image.
        for time in [5_110, 5_120, 5_131] {
            self.reception_alone(time, &at_level(&rest[0], 3));
            state(self);
        }
        self.reception_alone(5_201, &rest[0]);
        self.reception_alone(5_202, &rest[0]);
        state(self);
        // 64 at one time; LOOSE alone moves the latest time.
        for bytes in first {
            self.reception_alone(6_000, bytes);
        }
        for time in [6_000, 6_050, 6_100] {
            self.reception_alone(time, &rest[2]);
            self.reception_alone(time, &first[9]);
            state(self);
        }
        self.reception_alone(6_099, &rest[3]);
        self.reception_alone(6_101, &rest[3]);
        state(self);
        self.end();
    }

    /// One telegram received 301 times within 100 ms (document 02, A8), with a few others; then it
    /// closes, those opened after it move up, and it opens again.
    fn often(&mut self, setting: u8) {
        self.start(setting, 7_000);
        let pool = self.pool(3);
        let (often, before, after) = (&pool[0], &pool[1], &pool[2]);
        self.reception_alone(7_000, &at_level(before, 1));
        self.reception_alone(7_000, &at_level(often, 1));
        for i in 1..=300 {
            let level = self.random.pick(&[1, 2, 3, 15]);
            self.reception_alone(7_000 + i / 3, &at_level(often, level));
            if i % 40 == 0 {
                self.reception_alone(7_000 + i / 3, &at_level(after, 1));
            }
            if [1, 2, 127, 128, 254, 255, 256, 257, 300].contains(&i) {
                self.ask_around_a_cut();
            }
            if [255, 256, 300].contains(&i) {
                self.park();
            }
        }
        // 7,101: the first two are gone; the third, opened at 7,013, is at place 0.
        self.reception_alone(7_101, &at_level(often, 1));
        self.ask_around_a_cut();
        self.ask(2);
        self.reception_alone(7_101, &at_level(often, 2));
        self.reception_alone(7_113, &at_level(after, 2));
        self.ask_each();
        self.reception_alone(7_114, &at_level(often, 3));
        self.ask_each();
    }

    /// Openings of one telegram 41 ms apart, with copies of each, and another telegram between
    /// them; 64 open, and originals that are LOOSE, which are not counted as copies.
    fn credited(&mut self, setting: u8) {
        self.start(setting, 900);
        let pool = self.pool(PLACES);
        let (one, rest) = (&pool[0], &pool[1..]);
        for (time, level) in [
            (900, 0),
            (905, 0),
            (941, 0),
            (942, 0),
            (943, 1),
            (981, 0),
            (982, 0),
            (983, 2),
            (984, 1),
        ] {
            self.reception_alone(time, &at_level(one, level));
            self.ask_each();
        }
        for (i, bytes) in rest[..61].iter().enumerate() {
            self.reception_alone(985 + i as u64 / 20, &at_level(bytes, 0));
        }
        // 64 are open: late originals are LOOSE, copies stay copies.
        self.reception_alone(990, &at_level(&rest[61], 0));
        self.reception_alone(1_000, &at_level(one, 1));
        self.ask_around_a_cut();
        for bytes in &rest[..3] {
            self.reception_alone(1_000, &at_level(bytes, 1));
            self.reception_alone(999, &at_level(bytes, 1));
        }
        self.reception_alone(1_000, &at_level(&rest[62], 0));
        (0..=PLACES).for_each(|place| self.ask(place));
        self.cut();
        (0..=PLACES).for_each(|place| self.ask(place));
        // The first opening closes, and one place is free; late originals use it, then there is
        // none.
        for (time, bytes) in [(1_027, &rest[0]), (1_027, &rest[1]), (1_028, &rest[2])] {
            self.reception_alone(time, &at_level(bytes, 0));
            self.ask_around_a_cut();
            self.reception_alone(time, &at_level(bytes, 1));
            self.ask(PLACES - 1);
            self.ask(3);
        }
        self.reception_alone(1_042, &at_level(one, 1));
        self.ask_each();
        self.reception_alone(1_082, &at_level(one, 1));
        self.ask_each();
        self.reception_alone(1_083, &at_level(one, 1));
        self.ask_around_a_cut();
    }

    /// Document 01's cases that are run and not proved: first received at level 2, and the original
    /// 5 ms later, which is a copy with nothing to send; and lengths 7 and 22. Then the two hashes
    /// (document 02, A3): a telegram with each, with one bit of HASH changed, and one whose STATUS
    /// names the other hash.
    fn cases(&mut self) {
        let telegram = [0xD5, 0x09, 0x01, 0x02, 0x03, 0x04, 0x00, 0xE8];
        self.start(2, 10);
        self.reception_alone(10, &at_level(&telegram, 2));
        self.reception_alone(15, &telegram);
        self.reception_alone(16, &[0; 7]);
        self.reception_alone(16, &[0; 22]);
        let by_crc = [0xD5, 0x09, 0x01, 0x02, 0x03, 0x04, 0x80, 0xFE];
        for bytes in [telegram, by_crc] {
            for bit in 0..8 {
                let mut wrong = bytes;
                wrong[7] ^= 1 << bit;
                self.reception_alone(17, &wrong);
            }
            let mut wrong = bytes;
            wrong[6] ^= 0x80;
            self.reception_alone(17, &wrong);
        }
    }
}

/// All histories, one after the other.
pub fn calls() -> Vec<Call> {
    let mut calls = one_by_one();
    calls.extend(in_bursts());
    calls
}

/// A list of calls divided into its histories: each begins with a start.
#[cfg(test)]
pub fn histories(calls: Vec<Call>) -> Vec<Vec<Call>> {
    let mut all: Vec<Vec<Call>> = Vec::new();
    for call in calls {
        match (&call, all.last_mut()) {
            (Call::Start(_), _) | (_, None) => all.push(vec![call]),
            (_, Some(history)) => history.push(call),
        }
    }
    all
}

/// Histories with bursts: of every size, and the receptions of other histories divided.
fn in_bursts() -> Vec<Call> {
    let mut maker = Maker::new(0x4131_4D6F_6F72_696E);
    maker.sparse(2, 120);
    maker.end();
    maker.burst(1, 400);
    maker.end();
    maker.edges(2, 120);
    maker.end();
    maker.back(1, 120);
    maker.end();
    let mut random = Random::new(0x4131_6275_7273_7473);
    let mut calls = bursts::sizes(1, &mut random);
    calls.extend(bursts::full_count(&mut random));
    calls.extend(bursts::divided(maker.calls, &mut random));
    calls.extend(bursts::often(&mut random));
    calls
}

/// Histories of receptions handed over one by one.
fn one_by_one() -> Vec<Call> {
    let mut maker = Maker::new(0x0002_4D6F_6F72_696E);
    for (setting, from) in [(0, 0), (1, 3), (2, 6), (1, 9)] {
        maker.full(setting, from);
    }
    maker.cases();
    maker.end();
    let mut several = |settings: &[u8], count: usize, make: fn(&mut Maker, u8, usize)| {
        for &setting in settings {
            make(&mut maker, setting, count);
            maker.end();
        }
    };
    several(&[0, 1, 2, 1, 2, 2], 100, Maker::sparse);
    several(&[1, 2, 1, 2, 2], 110, Maker::repeated);
    several(&[0, 1, 2, 1, 2, 1, 2], 200, Maker::burst);
    several(&[0, 1, 2, 2, 1, 2], 110, Maker::edges);
    several(&[0, 1, 2], 120, Maker::chatter);
    several(&[2, 1], 220, Maker::zero);
    several(&[1, 2, 2], 180, Maker::top);
    several(&[1, 2], 72, |maker, setting, _| maker.leap(setting));
    several(&[2, 1, 0, 2, 1], 120, Maker::back);
    several(&[0, 1, 2, 1], 130, Maker::originals);
    several(&[1, 2], 200, Maker::crowded_originals);
    let mut all = maker.calls;
    all.extend(asked_for());
    all.extend(given::calls());
    all
}

/// Histories around the number of copies.
fn asked_for() -> Vec<Call> {
    let mut maker = Maker::new(0x4138_4D6F_6F72_696E);
    maker.often(1);
    maker.end();
    maker.credited(2);
    maker.end();
    maker.calls
}

/// More than 10^5 receptions with gaps around 40 and 100 ms, full tables and cuts; too long to be
/// stored.
pub fn long_calls() -> Vec<Call> {
    let mut maker = Maker::new(0x0004_4D6F_6F72_696E);
    for round in 0..20 {
        let setting = round % 3;
        for make in [
            Maker::originals,
            Maker::crowded_originals,
            Maker::edges,
            Maker::sparse,
            Maker::burst,
        ] {
            make(&mut maker, setting, 1_010);
            maker.end();
        }
    }
    maker.calls
}
