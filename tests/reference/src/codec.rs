//! Records for a test of the codec and their answers (document 01, "Subtelegram",
//! "Repeater step", "Merging" and "Numbers a caller sees"). The layout of a record is in
//! README.md.

use crate::hash::{crc, sum};
use crate::hex::{hex, hex_or_dash};
use crate::random::Random;
use crate::repeater::ask;
use crate::subtelegram::{
    build, check, decapsulate, encapsulate, read, renew_hash, same, Fields, Refusal, ADDRESSED,
    LONGEST,
};
use crate::telegrams::{
    addressed, at_level, hashed, plain, plain_rorg, random_kind, valid, with_bit, Kind, KINDS,
};

pub type Record = [u8; 64];

const CRC: u8 = 1;
const READ: u8 = 2;
const BUILD: u8 = 3;
const ENCAPSULATE: u8 = 4;
const DECAPSULATE: u8 = 5;
const REPEAT: u8 = 6;
pub const SAME: u8 = 7;

/// An output is filled with this before the call.
const FILL: u8 = 0xEE;

// Making records.

fn record(operation: u8, head: &[u8], bytes: &[u8]) -> Record {
    let mut record = [0; 64];
    record[0] = operation;
    record[1..1 + head.len()].copy_from_slice(head);
    record[8..8 + bytes.len()].copy_from_slice(bytes);
    record
}

fn crc_record(length: usize, pattern: &[u8]) -> Record {
    let [high, low] = (length as u16).to_be_bytes();
    record(CRC, &[high, low, pattern.len() as u8], pattern)
}

fn read_record(bytes: &[u8]) -> Record {
    record(READ, &[0, bytes.len() as u8], bytes)
}

fn build_record(
    capacity: usize,
    length: usize,
    addressed: bool,
    rorg: u8,
    status: u8,
    random: &mut Random,
) -> Record {
    let head = [
        capacity as u8,
        length as u8,
        u8::from(addressed),
        rorg,
        status,
    ];
    // DESTID, TXID and as much of DATA as its field holds.
    let rest = random.bytes(4 + 4 + length.min(14));
    record(BUILD, &head, &rest)
}

fn encapsulate_record(capacity: usize, bytes: &[u8], destination: &[u8]) -> Record {
    let mut head = vec![capacity as u8, bytes.len() as u8, 0];
    head.extend(destination);
    record(ENCAPSULATE, &head, bytes)
}

fn decapsulate_record(capacity: usize, bytes: &[u8]) -> Record {
    record(DECAPSULATE, &[capacity as u8, bytes.len() as u8], bytes)
}

fn repeat_record(setting: u8, bytes: &[u8]) -> Record {
    record(REPEAT, &[setting, bytes.len() as u8], bytes)
}

fn same_record(a: &[u8], b: &[u8]) -> Record {
    assert!(check(a).is_ok() && check(b).is_ok());
    let mut record = record(SAME, &[0, a.len() as u8, b.len() as u8], a);
    record[36..36 + b.len()].copy_from_slice(b);
    record
}

// The answer to a record, from its bytes alone.

fn written(word: &str, result: Result<usize, Refusal>, output: &[u8]) -> String {
    let (number, length) = match result {
        Ok(length) => (0, length),
        Err(number) => (number, 0),
    };
    format!("{word} {number} {length} {}", hex_or_dash(output))
}

fn four(bytes: &[u8]) -> [u8; 4] {
    [bytes[0], bytes[1], bytes[2], bytes[3]]
}

pub fn answer(record: &Record) -> String {
    let length = usize::from(record[2]);
    let mut output = vec![FILL; usize::from(record[1])];
    match record[0] {
        CRC => {
            let n = usize::from(u16::from_be_bytes([record[1], record[2]]));
            let pattern = &record[8..8 + usize::from(record[3])];
            let bytes: Vec<u8> = pattern.iter().copied().cycle().take(n).collect();
            format!("CRC {:02X}", crc(&bytes))
        }
        READ => match read(&record[8..8 + length]) {
            Ok(fields) => format!(
                "READ 0 {:02X} {} {} {} {:02X} {}",
                fields.rorg,
                u8::from(fields.destination.is_some()),
                hex(&fields.destination.unwrap_or([0; 4])),
                hex(&fields.transmitter),
                fields.status,
                hex_or_dash(&fields.data)
            ),
            Err(number) => format!("READ {number} 00 0 00000000 00000000 00 -"),
        },
        BUILD => {
            let mut data = record[16..30].to_vec();
            data.resize(length, 0);
            let fields = Fields {
                rorg: record[4],
                data,
                destination: (record[3] == 1).then_some(four(&record[8..12])),
                transmitter: four(&record[12..16]),
                status: record[5],
            };
            let result = build(&fields, &mut output);
            written("BUILD", result, &output)
        }
        ENCAPSULATE => {
            let result = encapsulate(&record[8..8 + length], four(&record[4..8]), &mut output);
            written("ENCAPSULATE", result, &output)
        }
        DECAPSULATE => {
            let result = decapsulate(&record[8..8 + length], &mut output);
            written("DECAPSULATE", result, &output)
        }
        REPEAT => {
            let (number, sent) = match ask(record[1], &record[8..8 + length]) {
                Ok(sent) => (0, sent.unwrap_or_default()),
                Err(number) => (number, Vec::new()),
            };
            let n = sent.len();
            let mut bytes = sent;
            bytes.resize(LONGEST, 0);
            format!("REPEAT {number} {n} {}", hex(&bytes))
        }
        SAME => {
            let second = usize::from(record[3]);
            format!(
                "SAME {}",
                u8::from(same(&record[8..8 + length], &record[36..36 + second]))
            )
        }
        other => panic!("operation {other}"),
    }
}

// The records.

/// Document 01, "Cases": the telegram with a sum, plain and addressed, and the one with a CRC.
const SUM_CASE: [u8; 11] = [0xA5, 0, 0, 0, 8, 1, 2, 3, 4, 0, 0xB7];
const ADDRESSED_CASE: [u8; 16] = [
    0xA6, 0xA5, 0, 0, 0, 8, 0xF1, 0xF2, 0xF3, 0xF4, 1, 2, 3, 4, 0, 0x27,
];
const CRC_CASE: [u8; 8] = [0xD5, 9, 1, 2, 3, 4, 0x80, 0xFE];
const PROGRAM_CASE: [u8; 8] = [0xD5, 9, 1, 2, 3, 4, 0, 0xE8];
const DESTINATION: [u8; 4] = [0xF1, 0xF2, 0xF3, 0xF4];

fn case_records() -> Vec<Record> {
    let mut all = vec![
        crc_record(1, &[0x01]),
        crc_record(1, &[0x80]),
        crc_record(2, &[0x01, 0x02]),
        crc_record(0, &[]),
        repeat_record(1, &SUM_CASE),
        encapsulate_record(28, &SUM_CASE, &DESTINATION),
        encapsulate_record(16, &SUM_CASE, &DESTINATION),
        decapsulate_record(28, &ADDRESSED_CASE),
        decapsulate_record(11, &ADDRESSED_CASE),
        repeat_record(1, &CRC_CASE),
        repeat_record(2, &CRC_CASE),
        repeat_record(1, &PROGRAM_CASE),
    ];
    for bytes in [&SUM_CASE[..], &ADDRESSED_CASE, &CRC_CASE, &PROGRAM_CASE] {
        all.push(read_record(bytes));
    }
    // Lengths 7 and 22, HASH right.
    for n in [7, 22] {
        let mut bytes = vec![0x11; n];
        renew_hash(&mut bytes);
        all.push(read_record(&bytes));
    }
    // DATA of 9 bytes can be addressed, DATA of 10 gives 5: built and encapsulated.
    for length in [9, 10] {
        let mut random = Random::new(9);
        all.push(build_record(28, length, true, 0xD2, 0, &mut random));
        let bytes = plain(&mut random, length + 7, Kind::Sum);
        all.push(encapsulate_record(28, &bytes, &DESTINATION));
    }
    // One bit of HASH changed: 2 for the sum, 13 for the CRC (document 02, A3).
    for bytes in [&SUM_CASE[..], &ADDRESSED_CASE, &CRC_CASE] {
        let wrong = hash_bit_wrong(bytes, 0);
        all.push(read_record(&wrong));
        all.push(encapsulate_record(28, &wrong, &DESTINATION));
        all.push(decapsulate_record(28, &wrong));
    }
    all
}

fn crc_records(random: &mut Random) -> Vec<Record> {
    let mut all = Vec::new();
    for value in 0..=255 {
        all.push(crc_record(1, &[value]));
    }
    for n in 0..=64 {
        let length = random.range(1, 28);
        all.push(crc_record(n, &random.bytes(length)));
    }
    for n in [
        65, 127, 128, 129, 255, 256, 257, 510, 511, 512, 513, 767, 1000, 1022, 1023, 1024,
    ] {
        for pattern in [vec![0x00], vec![0xFF], vec![0x80, 0, 0], vec![1]] {
            all.push(crc_record(n, &pattern));
        }
        for _ in 0..3 {
            let length = random.range(1, 28);
            all.push(crc_record(n, &random.bytes(length)));
        }
    }
    all
}

/// Bytes of length n in every form: plain, addressed and addressed twice, by both hashes.
fn forms(random: &mut Random, n: usize) -> Vec<Vec<u8>> {
    let mut all = Vec::new();
    for kind in KINDS {
        all.push(plain(random, n, kind));
        all.push(addressed(random, n, kind));
        all.push(hashed(random, n, &[ADDRESSED, ADDRESSED], kind));
    }
    all
}

/// One bit of HASH changed.
fn hash_bit_wrong(bytes: &[u8], bit: usize) -> Vec<u8> {
    let mut wrong = bytes.to_vec();
    if let Some(last) = wrong.last_mut() {
        *last ^= 1 << bit;
    }
    wrong
}

/// HASH by the other function; None if both agree.
fn other_hash(bytes: &[u8]) -> Option<Vec<u8>> {
    let n = bytes.len();
    if n < 2 {
        return None;
    }
    let mut wrong = bytes.to_vec();
    wrong[n - 1] = if bytes[n - 2] & 0x80 == 0 {
        crc(&bytes[..n - 1])
    } else {
        sum(&bytes[..n - 1])
    };
    (wrong != bytes).then_some(wrong)
}

fn read_records(random: &mut Random) -> Vec<Record> {
    let mut all = Vec::new();
    for n in 0..=28 {
        all.push(read_record(&vec![0; n]));
        all.push(read_record(&vec![0xFF; n]));
        all.push(read_record(&random.bytes(n)));
        for bytes in forms(random, n) {
            all.push(read_record(&bytes));
            let bit = random.below(8);
            all.push(read_record(&hash_bit_wrong(&bytes, bit)));
            if let Some(wrong) = other_hash(&bytes) {
                all.push(read_record(&wrong));
            }
        }
    }
    // One telegram of each hash: every bit of every byte is changed, and HASH is not.
    for bytes in [&PROGRAM_CASE[..], &CRC_CASE] {
        for at in 0..bytes.len() {
            for bit in 0..8 {
                let mut wrong = bytes.to_vec();
                wrong[at] ^= 1 << bit;
                all.push(read_record(&wrong));
            }
        }
    }
    // Every STATUS, and every RORG outside and inside.
    for value in 0..=255 {
        let mut bytes = valid(random);
        let status = bytes.len() - 2;
        bytes[status] = value;
        renew_hash(&mut bytes);
        all.push(read_record(&bytes));
    }
    for value in (0..=255).step_by(5).chain(0xA0..=0xAF) {
        let kind = random_kind(random);
        let n = random.range(8, 21);
        all.push(read_record(&hashed(random, n, &[value], kind)));
        let n = random.range(13, 21);
        all.push(read_record(&hashed(random, n, &[ADDRESSED, value], kind)));
    }
    // Addressed twice, otherwise right.
    for n in 12..=21 {
        let kind = random_kind(random);
        all.push(read_record(&hashed(
            random,
            n,
            &[ADDRESSED, ADDRESSED, ADDRESSED],
            kind,
        )));
    }
    // 0xA6 as DATA only.
    for n in 8..=21 {
        let kind = random_kind(random);
        let rorg = plain_rorg(random);
        all.push(read_record(&hashed(
            random,
            n,
            &[rorg, ADDRESSED, ADDRESSED],
            kind,
        )));
    }
    for _ in 0..100 {
        all.push(read_record(&valid(random)));
    }
    all
}

/// One less than needed, exactly enough, one more, and the largest; sometimes 0 too.
fn capacities(random: &mut Random, need: usize) -> Vec<usize> {
    let need = need.min(27);
    let mut all = vec![need.saturating_sub(1), need, need + 1];
    all.push(if random.chance(50) { 0 } else { 28 });
    all
}

fn build_records(random: &mut Random) -> Vec<Record> {
    let mut all = Vec::new();
    for length in 0..=20 {
        for addressed in [false, true] {
            let need = length + if addressed { 12 } else { 7 };
            for kind in [0x00, 0x80] {
                for capacity in capacities(random, need) {
                    let rorg = plain_rorg(random);
                    let status = random.byte() & 0x7F | kind;
                    all.push(build_record(
                        capacity, length, addressed, rorg, status, random,
                    ));
                }
            }
            // RORG 0xA6 together with other faults: room, length, addressed length.
            for capacity in [0, 28] {
                let status = random.byte();
                all.push(build_record(
                    capacity, length, addressed, ADDRESSED, status, random,
                ));
            }
        }
    }
    for _ in 0..150 {
        let capacity = random.range(0, 28);
        let length = random.range(1, 14);
        let addressed = random.chance(50);
        let rorg = random.byte();
        let status = random.byte();
        all.push(build_record(
            capacity, length, addressed, rorg, status, random,
        ));
    }
    all
}

/// Bytes of every length, form and fault, each with room for a result that is `change` bytes
/// longer.
fn address_records(
    random: &mut Random,
    change: isize,
    make: fn(usize, &[u8], &[u8]) -> Record,
) -> Vec<Record> {
    let mut all = Vec::new();
    for n in 0..=28 {
        for bytes in forms(random, n) {
            let need = (n as isize + change).clamp(0, 28) as usize;
            let destination = random.bytes(4);
            let right = check(&bytes).is_ok();
            for capacity in capacities(random, need) {
                // Refusals of the check alone need fewer records than what passes it.
                if right || random.chance(30) {
                    all.push(make(capacity, &bytes, &destination));
                }
            }
            let bit = random.below(8);
            let capacity = random.pick(&[0, 28]);
            all.push(make(capacity, &hash_bit_wrong(&bytes, bit), &destination));
        }
    }
    all
}

fn repeat_records(random: &mut Random) -> Vec<Record> {
    let mut all = Vec::new();
    for level in 0..=15 {
        for setting in [0, 1, 2, 3, 4, 5, 255] {
            for kind in KINDS {
                let n = random.range(13, 21);
                let bytes = if random.chance(50) {
                    plain(random, n, kind)
                } else {
                    addressed(random, n, kind)
                };
                all.push(repeat_record(setting, &at_level(&bytes, level)));
            }
        }
    }
    for n in 0..=28 {
        for bytes in forms(random, n) {
            let bytes = if n < 2 { bytes } else { at_level(&bytes, 0) };
            all.push(repeat_record(2, &bytes));
        }
        let kind = random_kind(random);
        let bytes = plain(random, n, kind);
        let bit = random.below(8);
        all.push(repeat_record(1, &hash_bit_wrong(&bytes, bit)));
    }
    // Every upper STATUS bit must pass unchanged.
    for upper in 0..16 {
        let mut bytes = valid(random);
        let status = bytes.len() - 2;
        bytes[status] = upper << 4;
        renew_hash(&mut bytes);
        all.push(repeat_record(1, &bytes));
        all.push(repeat_record(2, &at_level(&bytes, 1)));
    }
    for _ in 0..30 {
        let setting = random.byte();
        let bytes = valid(random);
        all.push(repeat_record(setting, &at_level(&bytes, 0)));
    }
    // 10 before the check's number.
    for round in 0..28 {
        let setting = [0, 1, 2, 0, 1, 2, 3, 255][round % 8];
        for kind in KINDS {
            let bit = random.below(8);
            let bytes = plain(random, 13, kind);
            all.push(repeat_record(setting, &hash_bit_wrong(&bytes, bit)));
        }
        let mut nested = vec![ADDRESSED; 13];
        nested[11] = 0;
        renew_hash(&mut nested);
        all.push(repeat_record(setting, &nested));
    }
    all
}

/// Pairs that differ in one byte or bit, with HASH right in both.
fn neighbours(random: &mut Random, a: &[u8]) -> Vec<Vec<u8>> {
    let n = a.len();
    let status = n - 2;
    let mut all = vec![a.to_vec()];
    // The level: the same telegram.
    let level = random.range(0, 15) as u8;
    all.push(at_level(a, level));
    all.push(at_level(a, a[status] & 0x0F ^ 1));
    // The level and an upper bit.
    let both = with_bit(a, status, random.range(4, 7));
    all.push(at_level(&both, level));
    // Upper STATUS bits; for bit 7, with the hash that it selects.
    for bit in 4..8 {
        all.push(with_bit(a, status, bit));
    }
    // One bit of some byte: of RORG, DATA, DESTID or TXID.
    for _ in 0..4 {
        let at = random.below(status);
        let bit = random.below(8);
        all.push(with_bit(a, at, bit));
    }
    all.push(with_bit(a, n - 6, 7));
    all.push(with_bit(a, n - 3, 0));
    // One byte longer or shorter, the rest unchanged.
    let mut longer = a.to_vec();
    longer.insert(n - 6, random.byte());
    renew_hash(&mut longer);
    all.push(longer);
    let mut shorter = a.to_vec();
    shorter.remove(n - 7);
    renew_hash(&mut shorter);
    all.push(shorter);
    // Two bytes exchanged: an equal sum.
    let mut exchanged = a.to_vec();
    exchanged.swap(n - 7, n - 6);
    renew_hash(&mut exchanged);
    all.push(exchanged);
    // The generator XORed in: an equal CRC.
    let mut generator = a.to_vec();
    generator[n - 5] ^= 0x01;
    generator[n - 4] ^= 0x07;
    renew_hash(&mut generator);
    all.push(generator);
    // Level one up and TXID one down: an equal sum, another level.
    let mut shifted = at_level(a, (a[status] & 0x0F).wrapping_add(1) & 0x0F);
    shifted[n - 3] = shifted[n - 3].wrapping_sub(1);
    renew_hash(&mut shifted);
    all.push(shifted);
    all.retain(|b| check(b).is_ok());
    all
}

fn same_records(random: &mut Random) -> Vec<Record> {
    let mut all = Vec::new();
    let mut bases: Vec<Vec<u8>> = vec![
        PROGRAM_CASE.to_vec(),
        CRC_CASE.to_vec(),
        ADDRESSED_CASE.to_vec(),
    ];
    for _ in 0..27 {
        bases.push(valid(random));
    }
    for a in &bases {
        for b in neighbours(random, a) {
            if random.chance(50) {
                all.push(same_record(a, &b));
            } else {
                all.push(same_record(&b, a));
            }
        }
    }
    // Every level against every fourth, and every single bit of two telegrams.
    for level in 0..16 {
        for other in [0, 1, 2, 15] {
            let bytes = valid(random);
            all.push(same_record(
                &at_level(&bytes, level),
                &at_level(&bytes, other),
            ));
        }
    }
    for a in [&PROGRAM_CASE[..], &ADDRESSED_CASE] {
        for at in 0..a.len() - 1 {
            for bit in 0..8 {
                let b = with_bit(a, at, bit);
                if check(&b).is_ok() {
                    all.push(same_record(a, &b));
                }
            }
        }
    }
    // Plain and addressed with the same content; other telegrams of the same length.
    for n in 8..=16 {
        let kind = random_kind(random);
        let a = plain(random, n, kind);
        let mut b = vec![0; n + 5];
        encapsulate(&a, DESTINATION, &mut b).unwrap();
        all.push(same_record(&a, &b));
        let b = plain(random, n, kind);
        all.push(same_record(&a, &b));
    }
    for _ in 0..40 {
        let (a, b) = (valid(random), valid(random));
        all.push(same_record(&a, &b));
    }
    all
}

pub fn records() -> Vec<Record> {
    let mut random = Random::new(0x0001_4D6F_6F72_696E);
    let mut all = case_records();
    all.extend(crc_records(&mut random));
    all.extend(read_records(&mut random));
    all.extend(build_records(&mut random));
    all.extend(address_records(&mut random, 5, encapsulate_record));
    all.extend(address_records(&mut random, -5, |capacity, bytes, _| {
        decapsulate_record(capacity, bytes)
    }));
    all.extend(repeat_records(&mut random));
    all.extend(same_records(&mut random));
    all
}

pub fn stdin() -> String {
    records().iter().map(|record| hex(record) + "\n").collect()
}

pub fn stdout() -> String {
    records()
        .iter()
        .map(|record| answer(record) + "\n")
        .collect()
}

#[cfg(test)]
mod tests {
    use super::*;
    use std::collections::BTreeMap;

    #[test]
    fn answers_to_the_cases() {
        let text: Vec<String> = case_records().iter().map(answer).collect();
        assert_eq!(
            text[..18],
            [
                "CRC 07",
                "CRC 89",
                "CRC 1B",
                "CRC 00",
                "REPEAT 0 11 A50000000801020304 01B8 00000000000000000000",
                "ENCAPSULATE 0 16 A6A500000008F1F2F3F4010203040027EEEEEEEEEEEEEEEEEEEEEEEE",
                "ENCAPSULATE 0 16 A6A500000008F1F2F3F4010203040027",
                "DECAPSULATE 0 11 A5000000080102030400B7EEEEEEEEEEEEEEEEEEEEEEEEEEEEEEEEEE",
                "DECAPSULATE 0 11 A5000000080102030400B7",
                "REPEAT 0 8 D50901020304 81F9 00000000000000000000000000",
                "REPEAT 0 8 D50901020304 81F9 00000000000000000000000000",
                "REPEAT 0 8 D50901020304 01E9 00000000000000000000000000",
                "READ 0 A5 0 00000000 01020304 00 00000008",
                "READ 0 A5 1 F1F2F3F4 01020304 00 00000008",
                "READ 0 D5 0 00000000 01020304 80 09",
                "READ 0 D5 0 00000000 01020304 00 09",
                "READ 1 00 0 00000000 00000000 00 -",
                "READ 1 00 0 00000000 00000000 00 -",
            ]
            .map(|line| {
                // REPEAT lines are spaced for reading; their bytes are one word.
                let words: Vec<&str> = line.split(' ').collect();
                if words[0] == "REPEAT" {
                    format!("REPEAT {} {} {}", words[1], words[2], words[3..].concat())
                } else {
                    line.to_string()
                }
            })
        );
        assert!(text[18].starts_with("BUILD 0 21 A6D2"));
        assert!(text[19].starts_with("ENCAPSULATE 0 21 A6"));
        assert!(text[20].starts_with("BUILD 5 0 EE"));
        assert!(text[21].starts_with("ENCAPSULATE 5 0 EE"));
        for (at, number) in [(22, 2), (25, 2), (28, 13)] {
            let nothing_read = format!("READ {number} 00 0 00000000 00000000 00 -");
            assert_eq!(text[at], nothing_read);
            assert!(text[at + 1].starts_with(&format!("ENCAPSULATE {number} 0 EE")));
            assert!(text[at + 2].starts_with(&format!("DECAPSULATE {number} 0 EE")));
        }
    }

    #[test]
    fn every_operation_gives_every_number() {
        let mut seen: BTreeMap<String, usize> = BTreeMap::new();
        for record in records() {
            let text = answer(&record);
            let words: Vec<&str> = text.split(' ').collect();
            let key = match words[0] {
                "CRC" => "CRC".to_string(),
                "REPEAT" if words[2] != "0" => "REPEAT sent".to_string(),
                word => format!("{word} {}", words[1]),
            };
            *seen.entry(key).or_default() += 1;
        }
        for key in [
            "CRC",
            "READ 0",
            "READ 1",
            "READ 2",
            "READ 13",
            "READ 3",
            "BUILD 0",
            "BUILD 5",
            "BUILD 6",
            "BUILD 10",
            "ENCAPSULATE 0",
            "ENCAPSULATE 1",
            "ENCAPSULATE 2",
            "ENCAPSULATE 13",
            "ENCAPSULATE 3",
            "ENCAPSULATE 5",
            "ENCAPSULATE 6",
            "DECAPSULATE 0",
            "DECAPSULATE 1",
            "DECAPSULATE 2",
            "DECAPSULATE 13",
            "DECAPSULATE 3",
            "DECAPSULATE 4",
            "DECAPSULATE 6",
            "REPEAT sent",
            "REPEAT 0",
            "REPEAT 1",
            "REPEAT 2",
            "REPEAT 13",
            "REPEAT 3",
            "REPEAT 10",
            "SAME 0",
            "SAME 1",
        ] {
            assert!(seen.get(key).is_some_and(|&n| n >= 20), "{key}: {seen:?}");
        }
        assert_eq!(seen.len(), 33, "{seen:?}");
        println!("{seen:?}");
    }

    #[test]
    fn encapsulating_and_removing_undo_each_other() {
        let mut random = Random::new(3);
        for _ in 0..500 {
            let bytes = valid(&mut random);
            let mut inner = [0; 21];
            let mut outer = [0; 21];
            if bytes[0] == ADDRESSED {
                let n = decapsulate(&bytes, &mut inner).unwrap();
                let destination = read(&bytes).unwrap().destination.unwrap();
                let m = encapsulate(&inner[..n], destination, &mut outer).unwrap();
                assert_eq!(outer[..m], bytes[..]);
            } else if let Ok(m) = encapsulate(&bytes, [1, 2, 3, 4], &mut outer) {
                let n = decapsulate(&outer[..m], &mut inner).unwrap();
                assert_eq!(inner[..n], bytes[..]);
            }
            let fields = read(&bytes).unwrap();
            let n = build(&fields, &mut outer).unwrap();
            assert_eq!(outer[..n], bytes[..]);
        }
    }

    #[test]
    fn sizes() {
        let records = records();
        assert!((3500..=4800).contains(&records.len()), "{}", records.len());
        assert!(stdin().len() + stdout().len() < 1_000_000);
        assert_eq!(stdin(), stdin());
    }
}
