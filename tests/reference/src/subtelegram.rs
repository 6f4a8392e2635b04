//! Subtelegrams: check, reading, building, addressing and sameness
//! (document 01, "Subtelegram", "Merging" and "Numbers a caller sees").

use crate::hash::hash;

pub const ADDRESSED: u8 = 0xA6;
pub const SHORTEST: usize = 8;
pub const LONGEST: usize = 21;
pub const SHORTEST_ADDRESSED: usize = 13;

/// A refusal's number (document 01, "Numbers a caller sees").
pub type Refusal = u8;

pub const LENGTH_WRONG: Refusal = 1;
pub const SUM_WRONG: Refusal = 2;
pub const ADDRESSED_TWICE: Refusal = 3;
pub const NOT_ADDRESSED: Refusal = 4;
pub const ADDRESSED_TOO_LONG: Refusal = 5;
pub const OUTPUT_SHORT: Refusal = 6;
pub const CLOCK_BACK: Refusal = 7;
pub const FULL_COUNT: Refusal = 8;
pub const NO_PLAN: Refusal = 9;
pub const OUT_OF_RANGE: Refusal = 10;
pub const NOT_ACCEPTED: Refusal = 11;
pub const CRC_WRONG: Refusal = 13;

pub fn status(bytes: &[u8]) -> u8 {
    bytes[bytes.len() - 2]
}

/// The low four bits of STATUS ("Repeater step").
pub fn level(bytes: &[u8]) -> u8 {
    status(bytes) & 0x0F
}

/// Sets the last byte to the HASH of all bytes before it.
pub fn renew_hash(bytes: &mut [u8]) {
    let last = bytes.len() - 1;
    bytes[last] = hash(bytes[last - 1], &bytes[..last]);
}

/// "Order of a check"; the selector, STATUS bit 7, decides which hash is wrong (document 02, A3).
pub fn check(bytes: &[u8]) -> Result<(), Refusal> {
    let n = bytes.len();
    if !(SHORTEST..=LONGEST).contains(&n) {
        return Err(LENGTH_WRONG);
    }
    if bytes[n - 1] != hash(bytes[n - 2], &bytes[..n - 1]) {
        let by_crc = bytes[n - 2] & 0x80 != 0;
        return Err(if by_crc { CRC_WRONG } else { SUM_WRONG });
    }
    if bytes[0] == ADDRESSED {
        if n < SHORTEST_ADDRESSED {
            return Err(LENGTH_WRONG);
        }
        if bytes[1] == ADDRESSED {
            return Err(ADDRESSED_TWICE);
        }
    }
    Ok(())
}

#[derive(Debug, Clone, PartialEq)]
pub struct Fields {
    pub rorg: u8,
    pub data: Vec<u8>,
    /// DESTID, if addressed.
    pub destination: Option<[u8; 4]>,
    pub transmitter: [u8; 4],
    pub status: u8,
}

fn four(bytes: &[u8]) -> [u8; 4] {
    [bytes[0], bytes[1], bytes[2], bytes[3]]
}

pub fn read(bytes: &[u8]) -> Result<Fields, Refusal> {
    check(bytes)?;
    let n = bytes.len();
    let transmitter = four(&bytes[n - 6..n - 2]);
    let status = bytes[n - 2];
    if bytes[0] == ADDRESSED {
        Ok(Fields {
            rorg: bytes[1],
            data: bytes[2..n - 10].to_vec(),
            destination: Some(four(&bytes[n - 10..n - 6])),
            transmitter,
            status,
        })
    } else {
        Ok(Fields {
            rorg: bytes[0],
            data: bytes[1..n - 6].to_vec(),
            destination: None,
            transmitter,
            status,
        })
    }
}

/// The bytes of the fields, for any lengths.
pub fn write(fields: &Fields) -> Vec<u8> {
    let mut bytes = Vec::new();
    if fields.destination.is_some() {
        bytes.push(ADDRESSED);
    }
    bytes.push(fields.rorg);
    bytes.extend(&fields.data);
    if let Some(destination) = fields.destination {
        bytes.extend(destination);
    }
    bytes.extend(fields.transmitter);
    bytes.push(fields.status);
    bytes.push(0);
    renew_hash(&mut bytes);
    bytes
}

/// Copies the result into the lent output; the bytes after the result are unchanged ("Numbers").
fn hand_back(result: &[u8], output: &mut [u8]) -> Result<usize, Refusal> {
    if output.len() < result.len() {
        return Err(OUTPUT_SHORT);
    }
    output[..result.len()].copy_from_slice(result);
    Ok(result.len())
}

/// Building; if several refusals fit: 10, 5, 6.
pub fn build(fields: &Fields, output: &mut [u8]) -> Result<usize, Refusal> {
    if !(1..=14).contains(&fields.data.len()) || fields.rorg == ADDRESSED {
        return Err(OUT_OF_RANGE);
    }
    if fields.destination.is_some() && fields.data.len() > 9 {
        return Err(ADDRESSED_TOO_LONG);
    }
    hand_back(&write(fields), output)
}

/// Encapsulating; if several refusals fit: the check's, 3, 5, 6.
pub fn encapsulate(
    bytes: &[u8],
    destination: [u8; 4],
    output: &mut [u8],
) -> Result<usize, Refusal> {
    check(bytes)?;
    if bytes[0] == ADDRESSED {
        return Err(ADDRESSED_TWICE);
    }
    if bytes.len() + 5 > LONGEST {
        return Err(ADDRESSED_TOO_LONG);
    }
    // 0xA6 comes first, DESTID before TXID; STATUS is unchanged, HASH is renewed.
    let before_transmitter = bytes.len() - 6;
    let mut result = vec![ADDRESSED];
    result.extend(&bytes[..before_transmitter]);
    result.extend(destination);
    result.extend(&bytes[before_transmitter..]);
    renew_hash(&mut result);
    hand_back(&result, output)
}

/// Removing; if several refusals fit: the check's, 4, 6.
pub fn decapsulate(bytes: &[u8], output: &mut [u8]) -> Result<usize, Refusal> {
    check(bytes)?;
    if bytes[0] != ADDRESSED {
        return Err(NOT_ADDRESSED);
    }
    let n = bytes.len();
    let mut result = bytes[1..n - 10].to_vec();
    result.extend(&bytes[n - 6..]);
    renew_hash(&mut result);
    hand_back(&result, output)
}

/// "Two valid subtelegrams are the same telegram if they have equal length and are equal
/// in every byte except HASH and the level" ("Merging").
pub fn same(a: &[u8], b: &[u8]) -> bool {
    let n = a.len();
    n == b.len() && a[..n - 2] == b[..n - 2] && a[n - 2] & 0xF0 == b[n - 2] & 0xF0
}
