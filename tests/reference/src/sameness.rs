//! The sameness rule in the order of document 02, A5, over the fields that reading gives, next to
//! document 01's rule over the bytes (`same`): for valid subtelegrams they agree.

use crate::codec::{records, Record, SAME};
use crate::history::Call;
use crate::random::Random;
use crate::scenarios::calls;
use crate::subtelegram::{check, read, same, write, Fields};
use crate::telegrams::{at_level, valid};

type Comparison = fn(&Fields, &Fields) -> bool;

/// "transmitter first, then type, then plain or addressed and to whom, then data with its
/// length, then the upper bits of STATUS".
const IN_ORDER: [(&str, Comparison); 5] = [
    ("transmitter", |a, b| a.transmitter == b.transmitter),
    ("type", |a, b| a.rorg == b.rorg),
    ("address", |a, b| match (a.destination, b.destination) {
        (None, None) => true,
        (Some(to), Some(other)) => to == other,
        _ => false,
    }),
    ("data", |a, b| {
        a.data.len() == b.data.len() && a.data.iter().eq(&b.data)
    }),
    ("upper bits of STATUS", |a, b| {
        a.status >> 4 == b.status >> 4
    }),
];

fn same_by_fields(a: &[u8], b: &[u8]) -> bool {
    same_but_for("", a, b)
}

/// The rule with one of its comparisons left out.
fn same_but_for(left_out: &str, a: &[u8], b: &[u8]) -> bool {
    let (a, b) = (read(a).unwrap(), read(b).unwrap());
    IN_ORDER
        .iter()
        .filter(|(name, _)| *name != left_out)
        .all(|(_, agree)| agree(&a, &b))
}

/// Valid subtelegrams that differ from the fields in one field, and the field's name; the level is
/// not a field of the rule.
fn one_field_off(fields: &Fields) -> Vec<(&'static str, Vec<u8>)> {
    let mut all = Vec::new();
    let mut other = |name, change: &dyn Fn(&mut Fields)| {
        let mut changed = fields.clone();
        change(&mut changed);
        let bytes = write(&changed);
        if check(&bytes).is_ok() {
            all.push((name, bytes));
        }
    };
    for at in 0..4 {
        for bit in 0..8 {
            other("transmitter", &|f| f.transmitter[at] ^= 1 << bit);
            other("address", &|f| {
                if let Some(to) = f.destination.as_mut() {
                    to[at] ^= 1 << bit;
                } else {
                    f.destination = Some([bit, 0, 0, at as u8]);
                }
            });
        }
    }
    other("address", &|f| {
        f.destination = match f.destination {
            Some(_) => None,
            None => Some([0; 4]),
        }
    });
    for bit in 0..8 {
        other("type", &|f| f.rorg ^= 1 << bit);
        for at in 0..fields.data.len() {
            other("data", &|f| f.data[at] ^= 1 << bit);
        }
    }
    // A zero byte more or less, which a zero fill would hide; another byte more.
    other("data", &|f| f.data.push(0));
    other("data", &|f| f.data.insert(0, 0x5A));
    if fields.data.len() > 1 {
        other("data", &|f| f.data.truncate(f.data.len() - 1));
    }
    for bit in 4..8 {
        other("upper bits of STATUS", &|f| f.status ^= 1 << bit);
    }
    for level in 0..16 {
        other("level", &|f| f.status = f.status & 0xF0 | level);
    }
    all
}

/// Some of every form, DATA of any length; the last byte of DATA is 0 in some.
fn bases() -> Vec<Vec<u8>> {
    let mut random = Random::new(0xA5);
    let mut all: Vec<Vec<u8>> = (0..60).map(|_| valid(&mut random)).collect();
    for n in 0..all.len() {
        let mut fields = read(&all[n]).unwrap();
        *fields.data.last_mut().unwrap() = 0;
        all.push(write(&fields));
    }
    all
}

#[test]
fn one_field_at_a_time() {
    let mut seen = [0; 5];
    for a in bases() {
        for (field, b) in one_field_off(&read(&a).unwrap()) {
            for (a, b) in [(&a, &b), (&b, &a)] {
                let alike = same_by_fields(a, b);
                assert_eq!(alike, same(a, b), "{field}: {a:X?} {b:X?}");
                if field == "level" {
                    assert!(alike);
                    continue;
                }
                // The field that differs decides, and no other.
                assert!(!alike && same_but_for(field, a, b), "{field}");
                seen[IN_ORDER
                    .iter()
                    .position(|(name, _)| *name == field)
                    .unwrap()] += 1;
            }
        }
    }
    assert!(seen.iter().all(|&n| n > 500), "{seen:?}");
}

/// An addressed telegram and the plain one whose bytes before TXID are nearest: its RORG and DATA
/// are the bytes that the other has as 0xA6, RORG, DATA and DESTID.
#[test]
fn addressed_against_plain_of_near_bytes() {
    for a in bases() {
        let n = a.len();
        for bit in 0..8 {
            let mut near = read(&a).unwrap();
            near.destination = None;
            near.rorg = a[0] ^ 1 << bit;
            near.data = a[1..n - 6].to_vec();
            let b = write(&near);
            if check(&b).is_ok() {
                assert!(!same(&a, &b) && !same_by_fields(&a, &b));
            }
        }
    }
}

#[test]
fn both_rules_agree_on_the_codecs_pairs() {
    let pair = |record: &Record| {
        let (n, m) = (usize::from(record[2]), usize::from(record[3]));
        (record[8..8 + n].to_vec(), record[36..36 + m].to_vec())
    };
    let mut answers = [0; 2];
    for record in records().iter().filter(|record| record[0] == SAME) {
        let (a, b) = pair(record);
        assert_eq!(same(&a, &b), same_by_fields(&a, &b));
        answers[usize::from(same(&a, &b))] += 1;
    }
    assert!(answers.iter().all(|&n| n > 100), "{answers:?}");
}

#[test]
fn both_rules_agree_on_the_histories() {
    let mut answers = [0; 2];
    let mut before: Vec<Vec<u8>> = Vec::new();
    for call in calls() {
        match call {
            Call::Start(_) => before.clear(),
            Call::Reception(_, bytes) if check(&bytes).is_ok() => {
                for earlier in before.iter().rev().take(50) {
                    assert_eq!(same(earlier, &bytes), same_by_fields(earlier, &bytes));
                    answers[usize::from(same(earlier, &bytes))] += 1;
                }
                before.push(bytes);
            }
            _ => {}
        }
    }
    assert!(answers.iter().all(|&n| n > 5000), "{answers:?}");
}

/// Levels of one telegram, all against all.
#[test]
fn the_level_is_not_compared() {
    for a in bases() {
        for level in 0..16 {
            let (a, b) = (at_level(&a, level), at_level(&a, 15 - level));
            assert!(same(&a, &b) && same_by_fields(&a, &b));
        }
    }
}
