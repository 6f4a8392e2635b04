//! Random subtelegrams for the inputs.

use crate::random::Random;
use crate::subtelegram::{check, renew_hash, ADDRESSED, LONGEST, SHORTEST, SHORTEST_ADDRESSED};

/// Which hash STATUS bit 7 selects.
#[derive(Debug, Clone, Copy, PartialEq)]
pub enum Kind {
    Sum,
    Crc,
}

pub const KINDS: [Kind; 2] = [Kind::Sum, Kind::Crc];

pub fn random_kind(random: &mut Random) -> Kind {
    random.pick(&KINDS)
}

/// Random bytes of length n that begin with `start`, with the requested kind of hash and a right
/// HASH. For n below 2 there is no STATUS: then only random bytes.
pub fn hashed(random: &mut Random, n: usize, start: &[u8], kind: Kind) -> Vec<u8> {
    let mut bytes = random.bytes(n);
    if n < 2 {
        return bytes;
    }
    for (place, value) in bytes.iter_mut().zip(start) {
        *place = *value;
    }
    bytes[n - 2] = bytes[n - 2] & 0x7F | if kind == Kind::Crc { 0x80 } else { 0 };
    renew_hash(&mut bytes);
    bytes
}

/// A byte other than 0xA6.
pub fn plain_rorg(random: &mut Random) -> u8 {
    loop {
        let rorg = random.byte();
        if rorg != ADDRESSED {
            return rorg;
        }
    }
}

pub fn plain(random: &mut Random, n: usize, kind: Kind) -> Vec<u8> {
    let rorg = plain_rorg(random);
    hashed(random, n, &[rorg], kind)
}

pub fn addressed(random: &mut Random, n: usize, kind: Kind) -> Vec<u8> {
    let rorg = plain_rorg(random);
    hashed(random, n, &[ADDRESSED, rorg], kind)
}

/// A valid one of any length, kind and form.
pub fn valid(random: &mut Random) -> Vec<u8> {
    let kind = random_kind(random);
    let bytes = if random.chance(35) {
        let n = random.range(SHORTEST_ADDRESSED, LONGEST);
        addressed(random, n, kind)
    } else {
        let n = random.range(SHORTEST, LONGEST);
        plain(random, n, kind)
    };
    debug_assert!(check(&bytes).is_ok());
    bytes
}

/// The same telegram at another level, HASH renewed.
pub fn at_level(bytes: &[u8], level: u8) -> Vec<u8> {
    let mut other = bytes.to_vec();
    let status = other.len() - 2;
    other[status] = other[status] & 0xF0 | level;
    renew_hash(&mut other);
    other
}

/// With one bit of one byte changed and HASH renewed.
pub fn with_bit(bytes: &[u8], at: usize, bit: usize) -> Vec<u8> {
    let mut other = bytes.to_vec();
    other[at] ^= 1 << bit;
    renew_hash(&mut other);
    other
}
