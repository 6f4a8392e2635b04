//! The image of a parked collector (document 01, "Parked collector").

use crate::clerk::{is_second_event, Totals, OPEN_FOR, PLACES};
use crate::hash::crc;
use crate::subtelegram::{check, same, Refusal, LONGEST, NOT_ACCEPTED};

pub const BLOCK: usize = 512;
pub const BLOCKS: usize = 5;
pub const IMAGE: usize = BLOCK * BLOCKS;
const IN_A_BLOCK: usize = 15;
const ENTRY: usize = 32;
const ENTRIES_AT: usize = 24;
const CHECK_AT: usize = 511;

const COPIES_AT: usize = 30;

#[derive(Debug, Clone, PartialEq)]
pub struct Entry {
    pub time: u64,
    pub bytes: Vec<u8>,
    pub copies: u16,
}

/// Time opened (8), length (1), bytes as first received (21, zero filled), and in "the last two
/// bytes" the number of copies (document 02, A8).
pub fn write_entry(entry: &Entry) -> Vec<u8> {
    let mut out = entry.time.to_be_bytes().to_vec();
    out.push(entry.bytes.len() as u8);
    out.extend(entry.bytes.iter().take(LONGEST));
    out.resize(COPIES_AT, 0);
    out.extend(entry.copies.to_be_bytes());
    out
}

fn write_block(k: usize, numbers: [u64; 2], entries: &[Entry]) -> Vec<u8> {
    let mut out = vec![k as u8, entries.len() as u8, 0, 0, 0, 0, 0, 0];
    out.extend(numbers[0].to_be_bytes());
    out.extend(numbers[1].to_be_bytes());
    for entry in entries {
        out.extend(write_entry(entry));
    }
    out.resize(CHECK_AT, 0);
    out.push(crc(&out));
    out
}

/// With this number in the setting's place: zero, or in an older image the setting.
pub fn write(latest: u64, totals: &Totals, setting: u8, entries: &[Entry]) -> Vec<u8> {
    let numbers = [
        [latest, totals.received],
        [totals.kept, totals.copies],
        [totals.loose, totals.damaged],
        [totals.late, u64::from(setting)],
        [0, 0],
    ];
    let mut out = Vec::new();
    for (k, pair) in numbers.into_iter().enumerate() {
        // Each block is filled before the next.
        let from = (k * IN_A_BLOCK).min(entries.len());
        let to = ((k + 1) * IN_A_BLOCK).min(entries.len());
        out.extend(write_block(k, pair, &entries[from..to]));
    }
    out
}

fn number(bytes: &[u8]) -> u64 {
    bytes[..8]
        .iter()
        .fold(0, |value, &b| value << 8 | u64::from(b))
}

/// What an accepted image holds.
#[derive(Debug, PartialEq)]
pub struct Reloaded {
    pub latest: u64,
    pub totals: Totals,
    pub entries: Vec<Entry>,
}

/// Reload: the numbers and entries are read from their positions in the layout. Written again, they
/// must give the image byte for byte, which covers the layout and the checks. Then come the
/// conditions of the paper.
pub fn reload(image: &[u8]) -> Result<Reloaded, Refusal> {
    accept(image).ok_or(NOT_ACCEPTED)
}

fn accept(image: &[u8]) -> Option<Reloaded> {
    if image.len() != IMAGE {
        return None;
    }
    let first = |k: usize| number(&image[BLOCK * k + 8..]);
    let second = |k: usize| number(&image[BLOCK * k + 16..]);
    let mut entries = Vec::new();
    for k in 0..BLOCKS {
        let block = &image[BLOCK * k..BLOCK * (k + 1)];
        let used = usize::from(block[1]);
        if used > IN_A_BLOCK {
            return None;
        }
        for i in 0..used {
            let entry = &block[ENTRIES_AT + ENTRY * i..][..ENTRY];
            let length = usize::from(entry[8]);
            if length > LONGEST {
                return None;
            }
            entries.push(Entry {
                time: number(entry),
                bytes: entry[9..9 + length].to_vec(),
                // "any value there accepted on reload"
                copies: u16::from_be_bytes([entry[COPIES_AT], entry[COPIES_AT + 1]]),
            });
        }
    }
    let totals = Totals {
        received: second(0),
        kept: first(1),
        copies: second(1),
        loose: first(2),
        damaged: second(2),
        late: first(3),
    };
    let latest = first(0);
    // "an older image with 1 or 2 there is accepted" (document 02, A7), and the setting is not used
    if second(3) > 2 {
        return None;
    }
    let setting = second(3) as u8;
    if write(latest, &totals, setting, &entries) != image {
        return None;
    }
    let in_order = entries.windows(2).all(|pair| pair[0].time <= pair[1].time);
    let open = entries
        .iter()
        .all(|e| e.time <= latest && latest - e.time <= OPEN_FOR);
    let valid = entries.iter().all(|e| check(&e.bytes).is_ok());
    if !(valid && in_order && open && entries.len() <= PLACES) {
        return None;
    }
    // "several entries of one telegram if each was opened more than 40 ms after the one before
    // and all but the first have level 0" (document 02, A6)
    for (i, entry) in entries.iter().enumerate() {
        let before = entries[..i].iter().rfind(|e| same(&e.bytes, &entry.bytes));
        if before.is_some_and(|e| !is_second_event(e.time, entry.time, &entry.bytes)) {
            return None;
        }
    }
    let sum = [
        totals.kept,
        totals.copies,
        totals.loose,
        totals.damaged,
        totals.late,
    ]
    .into_iter()
    .try_fold(0u64, |sum, part| sum.checked_add(part))?;
    if totals.received != sum || totals.kept < entries.len() as u64 {
        return None;
    }
    Some(Reloaded {
        latest,
        totals,
        entries,
    })
}

#[cfg(test)]
mod tests {
    use super::*;
    use crate::clerk::Clerk;
    use crate::random::Random;
    use crate::telegrams::{at_level, valid};

    fn full_clerk() -> Clerk {
        let mut random = Random::new(5);
        let mut clerk = Clerk::new();
        clerk.take(3, &[]);
        for i in 0..70u64 {
            clerk.take(500 + i, &valid(&mut random));
        }
        clerk
    }

    #[test]
    fn layout_of_a_full_image() {
        let clerk = full_clerk();
        let image = clerk.image();
        assert_eq!(image.len(), 2560);
        assert_eq!(clerk.totals().text(), "71 64 0 6 1 0");
        let counts: Vec<u8> = (0..5).map(|k| image[512 * k + 1]).collect();
        assert_eq!(counts, [15, 15, 15, 15, 4]);
        for k in 0..5 {
            assert_eq!(image[512 * k], k as u8);
            assert_eq!(image[512 * k + 2..512 * k + 8], [0; 6]);
            assert_eq!(image[512 * k + 504..512 * k + 511], [0; 7]);
            assert_eq!(image[512 * k + 511], crc(&image[512 * k..512 * k + 511]));
        }
        assert_eq!(image[8..16], 569u64.to_be_bytes());
        assert_eq!(image[16..24], 71u64.to_be_bytes());
        assert_eq!(image[512 * 3 + 16..512 * 3 + 24], [0; 8]);
        assert_eq!(image[24..32], 500u64.to_be_bytes());
        let first = &clerk.noted[1].bytes;
        assert_eq!(usize::from(image[32]), first.len());
        assert_eq!(image[33..33 + first.len()], first[..]);
        assert_eq!(image[512 + 24..512 + 32], 515u64.to_be_bytes());
    }

    #[test]
    fn a_fresh_image() {
        let image = Clerk::new().image();
        let mut expected = vec![0u8; 2560];
        for k in 0..5 {
            expected[512 * k] = k as u8;
        }
        for k in 0..5 {
            expected[512 * k + 511] = crc(&expected[512 * k..512 * k + 511]);
        }
        assert_eq!(image, expected);
        assert!(reload(&image).is_ok());
    }

    /// An older image, with the setting in its place, gives the same state as one with zero there;
    /// a checkpoint after it has zero there.
    #[test]
    fn an_older_image_is_accepted() {
        let clerk = full_clerk();
        let image = clerk.image();
        for setting in 0..=255 {
            let mut older = image.clone();
            older[512 * 3 + 23] = setting;
            older[512 * 3 + 511] = crc(&older[512 * 3..512 * 3 + 511]);
            if setting > 2 {
                assert_eq!(reload(&older), Err(11));
                continue;
            }
            assert_eq!(reload(&older), reload(&image));
            let again = Clerk::going_on(reload(&older).unwrap());
            assert_eq!(again.image(), image);
        }
    }

    #[test]
    fn every_flipped_bit_is_refused() {
        let image = full_clerk().image();
        assert!(reload(&image).is_ok());
        for k in 0..image.len() {
            for bit in 0..8 {
                let mut spoiled = image.clone();
                spoiled[k] ^= 1 << bit;
                // By the CRC of the block alone, and by the whole reload.
                let block = &spoiled[k / 512 * 512..][..512];
                assert_ne!(block[511], crc(&block[..511]));
                assert_eq!(reload(&spoiled), Err(11));
            }
        }
        assert_eq!(reload(&image[..2559]), Err(11));
        assert_eq!(reload(&[&image[..], &[0]].concat()), Err(11));
        assert_eq!(reload(&[]), Err(11));
    }

    /// Images with right checks that break one condition each.
    #[test]
    fn conditions_of_reload() {
        let mut random = Random::new(6);
        let a = Entry {
            time: 50,
            bytes: valid(&mut random),
            copies: 0,
        };
        let b = Entry {
            time: 60,
            bytes: valid(&mut random),
            copies: 0,
        };
        let totals = Totals {
            received: 3,
            kept: 2,
            damaged: 1,
            ..Totals::default()
        };
        let good = |latest, totals: &Totals, setting, entries: &[Entry]| {
            reload(&write(latest, totals, setting, entries)).is_ok()
        };
        assert!(good(60, &totals, 0, &[a.clone(), b.clone()]));
        assert!(good(150, &totals, 2, &[a.clone(), b.clone()]));
        assert!(!good(151, &totals, 0, &[a.clone(), b.clone()]));
        assert!(!good(59, &totals, 0, &[a.clone(), b.clone()]));
        assert!(!good(60, &totals, 3, &[a.clone(), b.clone()]));
        assert!(!good(60, &totals, 0, &[b.clone(), a.clone()]));
        assert!(!good(60, &totals, 0, &[a.clone(), a.clone()]));
        let mut level = a.clone();
        let n = level.bytes.len();
        level.bytes[n - 2] ^= 1;
        crate::subtelegram::renew_hash(&mut level.bytes);
        assert!(!good(60, &totals, 0, &[a.clone(), level]));
        // Several openings of one telegram (document 02, A6).
        let opened = |times: &[(u64, u8)]| {
            let entries: Vec<Entry> = times
                .iter()
                .map(|&(time, level)| Entry {
                    time,
                    bytes: at_level(&b.bytes, level),
                    copies: 0,
                })
                .collect();
            let kept = entries.len() as u64;
            let totals = Totals {
                received: kept,
                kept,
                ..Totals::default()
            };
            good(1082, &totals, 0, &entries)
        };
        assert!(!opened(&[(1000, 0), (1040, 0)]));
        assert!(opened(&[(1000, 0), (1041, 0)]));
        assert!(!opened(&[(1000, 0), (1041, 1)]));
        assert!(opened(&[(1000, 1), (1041, 0)]));
        assert!(opened(&[(1000, 2), (1041, 0), (1082, 0)]));
        assert!(!opened(&[(1000, 0), (1041, 0), (1081, 0)]));
        let mut broken = a.clone();
        broken.bytes[0] ^= 1;
        assert!(!good(60, &totals, 0, &[broken, b.clone()]));
        assert!(!good(
            60,
            &Totals {
                received: 4,
                ..totals
            },
            0,
            std::slice::from_ref(&a)
        ));
        assert!(!good(
            60,
            &Totals {
                received: 1,
                kept: 0,
                ..totals
            },
            0,
            std::slice::from_ref(&a)
        ));
        let wrapping = Totals {
            received: 2,
            kept: 2,
            copies: u64::MAX,
            damaged: 1,
            ..totals
        };
        assert!(!good(60, &wrapping, 0, &[a, b]));
    }

    /// Document 02, A8: "any value there accepted on reload", in each entry, and it is written
    /// again.
    #[test]
    fn every_number_of_copies_is_accepted() {
        let clerk = full_clerk();
        let mut image = clerk.image();
        for copies in 0..=u16::MAX {
            let place = usize::from(copies) % PLACES;
            let block = place / IN_A_BLOCK * BLOCK;
            let at = block + ENTRIES_AT + ENTRY * (place % IN_A_BLOCK) + COPIES_AT;
            image[at..at + 2].copy_from_slice(&copies.to_be_bytes());
            image[block + CHECK_AT] = crc(&image[block..block + CHECK_AT]);
            let reloaded = reload(&image).unwrap();
            assert_eq!(reloaded.entries[place].copies, copies);
            if copies % 97 == 0 {
                let again = Clerk::going_on(reloaded);
                assert_eq!(again.copies(place as u64), Ok(copies));
                assert_eq!(again.image(), image);
            }
        }
    }

    /// By hand: "up to 65,535 and then staying there"; each other entry keeps its own.
    #[test]
    fn the_ceiling() {
        let mut random = Random::new(7);
        let entries: Vec<Entry> = [65_534, 0, 65_535]
            .map(|copies| Entry {
                time: 10,
                bytes: valid(&mut random),
                copies,
            })
            .to_vec();
        let totals = Totals {
            received: 3,
            kept: 3,
            ..Totals::default()
        };
        let image = write(10, &totals, 0, &entries);
        let mut clerk = Clerk::going_on(reload(&image).unwrap());
        for copies in [65_535, 65_535] {
            clerk.take(11, &at_level(&entries[0].bytes, 1));
            let asked: Vec<_> = (0..4).map(|place| clerk.copies(place)).collect();
            assert_eq!(asked, [Ok(copies), Ok(0), Ok(65_535), Err(10)]);
        }
        assert_eq!(clerk.image()[24 + 30..24 + 32], [0xFF, 0xFF]);
        assert_eq!(clerk.copies(u64::MAX), Err(10));
    }
}
