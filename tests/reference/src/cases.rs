//! Document 01, "Cases": each one, in its order. The sample run of the program is in collect.rs.

use crate::clerk::{Answer, Clerk};
use crate::hash::{crc, sum};
use crate::repeater::{repeat, sent_for};
use crate::slots::{lawful_plans, plan};
use crate::subtelegram::{build, check, decapsulate, encapsulate, read, Fields};
use crate::telegrams::at_level;

const TELEGRAM: [u8; 11] = [
    0xA5, 0x00, 0x00, 0x00, 0x08, 0x01, 0x02, 0x03, 0x04, 0x00, 0xB7,
];
const BY_CRC: [u8; 8] = [0xD5, 0x09, 0x01, 0x02, 0x03, 0x04, 0x80, 0xFE];

#[test]
fn crc_of_few_bytes() {
    assert_eq!(crc(&[0x01]), 0x07);
    assert_eq!(crc(&[0x80]), 0x89);
    assert_eq!(crc(&[0x01, 0x02]), 0x1B);
    assert_eq!(crc(&[]), 0x00);
}

#[test]
fn sum_of_a_telegram_and_once_more() {
    assert_eq!(sum(&TELEGRAM[..10]), 0xB7);
    let sent = repeat(1, &TELEGRAM).unwrap();
    assert_eq!(sent[..9], TELEGRAM[..9]);
    assert_eq!(sent[9..], [0x01, 0xB8]);
}

#[test]
fn that_telegram_addressed() {
    let expected = [
        0xA6, 0xA5, 0x00, 0x00, 0x00, 0x08, 0xF1, 0xF2, 0xF3, 0xF4, 0x01, 0x02, 0x03, 0x04, 0x00,
        0x27,
    ];
    let mut output = [0; 16];
    assert_eq!(
        encapsulate(&TELEGRAM, [0xF1, 0xF2, 0xF3, 0xF4], &mut output),
        Ok(16)
    );
    assert_eq!(output, expected);
    let mut back = [0; 11];
    assert_eq!(decapsulate(&expected, &mut back), Ok(11));
    assert_eq!(back, TELEGRAM);
    let mut built = [0; 16];
    assert_eq!(build(&read(&expected).unwrap(), &mut built), Ok(16));
    assert_eq!(built, expected);
}

#[test]
fn valid_by_crc_and_repeated() {
    assert_eq!(check(&BY_CRC), Ok(()));
    assert_eq!(repeat(1, &BY_CRC).unwrap()[6..], [0x81, 0xF9]);
}

/// Document 02, A3: one bit of HASH is changed, and the answer names the hash that STATUS selects.
#[test]
fn which_hash_failed() {
    for (bytes, number) in [(&TELEGRAM[..], 2), (&BY_CRC, 13)] {
        let mut wrong = bytes.to_vec();
        *wrong.last_mut().unwrap() ^= 1;
        let mut output = [0; 28];
        assert_eq!(check(&wrong), Err(number));
        assert_eq!(read(&wrong), Err(number));
        assert_eq!(encapsulate(&wrong, [0; 4], &mut output), Err(number));
        assert_eq!(decapsulate(&wrong, &mut output), Err(number));
        let mut clerk = Clerk::new();
        assert_eq!(clerk.take(0, &wrong), Answer::Refused(number));
        assert_eq!(clerk.totals().text(), "1 0 0 0 1 0");
    }
}

#[test]
fn numbers_of_plans() {
    for (level, duration, count) in [
        (0, 1000, 180),
        (0, 1001, 152),
        (0, 9000, 12),
        (0, 9001, 0),
        (1, 15_000, 1),
        (1, 15_001, 0),
        (2, 20_000, 1),
        (2, 20_001, 0),
    ] {
        assert_eq!(
            lawful_plans(level, duration).len(),
            count,
            "{level} {duration}"
        );
    }
    assert_eq!(plan(0, 9001, 0), Err(9));
    assert_eq!(plan(1, 15_000, 77), Ok([10, 25, 255]));
    assert_eq!(plan(2, 20_000, 77), Ok([0, 20, 255]));
    assert_eq!(plan(0, 1000, 0), Ok([0, 1, 20]));
    assert_eq!(plan(0, 1000, 179), Ok([0, 9, 39]));
    assert_eq!(plan(0, 1000, 181), Ok([0, 1, 21]));
    assert_eq!(plan(0, 1001, 151), Ok([0, 9, 38]));
    assert_eq!(plan(3, 1000, 0), Err(10));
}

/// Document 01's case of 0 and 100 ms as document 02, A6, changes it: COPY for a second reception
/// at level 1, KEPT at level 0; and the edges of 40 and of 100 ms.
#[test]
fn the_same_telegram_twice() {
    for (second, level, answer) in [
        (40, 0, Answer::Copy),
        (41, 0, Answer::Kept),
        (41, 1, Answer::Copy),
        (100, 1, Answer::Copy),
        (100, 0, Answer::Kept),
        (101, 0, Answer::Kept),
        (101, 1, Answer::Kept),
    ] {
        for telegram in [&TELEGRAM[..], &BY_CRC] {
            let mut clerk = Clerk::new();
            assert_eq!(clerk.take(0, telegram), Answer::Kept);
            let again = at_level(telegram, level);
            assert_eq!(clerk.take(second, &again), answer, "{second} {level}");
        }
    }
}

/// Each opening has its own 40 ms, and a COPY belongs to the latest.
#[test]
fn three_openings() {
    let mut clerk = Clerk::new();
    for (time, level, answer) in [
        (0, 0, Answer::Kept),
        (40, 0, Answer::Copy),
        (41, 0, Answer::Kept),
        (81, 0, Answer::Copy),
        (82, 0, Answer::Kept),
        (100, 0, Answer::Copy),
        (101, 0, Answer::Copy),
        (122, 1, Answer::Copy),
        (123, 0, Answer::Kept),
    ] {
        assert_eq!(
            clerk.take(time, &at_level(&TELEGRAM, level)),
            answer,
            "{time}"
        );
    }
    let opened: Vec<u64> = clerk.entries().iter().map(|e| e.time).collect();
    assert_eq!(opened, [41, 82, 123]);
}

#[test]
fn first_heard_at_level_2() {
    let mut clerk = Clerk::new();
    let repeated = at_level(&TELEGRAM, 2);
    assert_eq!(clerk.take(10, &repeated), Answer::Kept);
    assert!(sent_for(2, Answer::Kept, &repeated).is_empty());
    assert_eq!(clerk.take(15, &TELEGRAM), Answer::Copy);
    assert!(sent_for(2, Answer::Copy, &TELEGRAM).is_empty());
}

#[test]
fn lengths_7_and_22() {
    for n in [7, 22] {
        let mut bytes = vec![0; n];
        assert_eq!(check(&bytes), Err(1));
        assert_eq!(repeat(1, &bytes), None);
        assert_eq!(Clerk::new().take(0, &bytes), Answer::Refused(1));
        bytes[0] = 1;
        assert_eq!(check(&bytes), Err(1));
    }
}

#[test]
fn data_of_9_and_10() {
    for (length, result) in [(9, Ok(21)), (10, Err(5))] {
        let fields = Fields {
            rorg: 0xD2,
            data: vec![0x33; length],
            destination: Some([0xF1, 0xF2, 0xF3, 0xF4]),
            transmitter: [1, 2, 3, 4],
            status: 0x80,
        };
        let mut output = [0; 28];
        assert_eq!(build(&fields, &mut output), result);
        let plain = Fields {
            destination: None,
            ..fields
        };
        let n = build(&plain, &mut output).unwrap();
        let bytes = output[..n].to_vec();
        assert_eq!(
            encapsulate(&bytes, [0xF1, 0xF2, 0xF3, 0xF4], &mut output),
            result
        );
    }
}
