//! Slices of a wrong size: 255, and nothing is changed. Empty slices and the longest ones. The version of the interface.
use mooringeye::raw;

mod arrays;

const WRONG: u8 = 255;
const VALID: [u8; 8] = [0xD5, 0x09, 1, 2, 3, 4, 0, 0xE8];

/// Every size up to twice the right one, except the right one, each filled with 0xEE.
fn others(right: usize) -> impl Iterator<Item = Vec<u8>> {
    (0..2 * right + 2).filter(move |n| *n != right).map(|n| vec![0xEE; n])
}

fn untouched(bytes: &[u8]) -> bool {
    bytes.iter().all(|b| *b == 0xEE)
}

#[test]
fn fields_of_a_subtelegram() {
    for mut fields in others(raw::FIELDS) {
        assert_eq!(raw::read(&VALID, &mut fields), WRONG);
        assert_eq!(raw::read(&[], &mut fields), WRONG);
        assert!(untouched(&fields));
        let (mut out, mut length) = ([0xEE; 21], 77);
        assert_eq!(raw::build(&fields, &mut out, &mut length), WRONG);
        assert!(untouched(&out) && length == 77);
    }
}

#[test]
fn frames() {
    for mut sent in others(raw::FRAME) {
        assert_eq!(raw::repeat(1, &VALID, &mut sent), WRONG);
        assert_eq!(raw::repeat(9, &[], &mut sent), WRONG);
        assert!(untouched(&sent));
    }
}

#[test]
fn fields_of_an_erp2_telegram() {
    for mut fields in others(raw::ERP2) {
        let (mut originator, mut destination) = (77, 78);
        assert_eq!(raw::erp2_read(&[1, 2], &mut fields, &mut originator, &mut destination), WRONG);
        assert!(untouched(&fields) && (originator, destination) == (77, 78));
        let (mut out, mut length) = ([0xEE; 256], 77);
        assert_eq!(raw::erp2_build(&fields, 1, 2, &mut out, &mut length), WRONG);
        assert!(untouched(&out) && length == 77);
    }
}

#[test]
fn rows() {
    for mut row in others(raw::ROW) {
        let mut time = 77;
        assert_eq!(raw::archive_row(&[0; 512], 0, &mut row, &mut time), WRONG);
        assert_eq!(raw::archive_row(&[0; 5], 0, &mut row, &mut time), WRONG);
        assert!(untouched(&row) && time == 77);
    }
}

/// Arrays of a collector started fresh.
fn fresh() -> raw::ArraysMut<'static> {
    let mut state = arrays::arrays(0xEE);
    raw::collector_fresh(&mut state);
    state
}

fn image_of(state: &raw::ArraysMut<'_>) -> [u8; raw::IMAGE] {
    let mut image = [0xEE; raw::IMAGE];
    assert_eq!(raw::collector_checkpoint(&state.shared(), &mut image), 0);
    image
}

#[test]
fn images() {
    let mut state = fresh();
    assert_eq!(raw::collector_take(&mut state, &VALID, 1_000), 0);
    let image = image_of(&state);
    for n in [0, 1, 511, raw::IMAGE - 1] {
        let mut out = vec![0xEE; n];
        assert_eq!(raw::collector_checkpoint(&state.shared(), &mut out), 6);
        assert!(untouched(&out));
        assert_eq!(raw::collector_restore(&mut state, &image[..n]), 11);
        assert_eq!(image_of(&state), image);
    }
    let mut long = vec![0xEE; 1 << 20];
    assert_eq!(raw::collector_checkpoint(&state.shared(), &mut long), 0);
    assert!(long[..raw::IMAGE] == image && untouched(&long[raw::IMAGE..]));
    assert_eq!(raw::collector_restore(&mut state, &long), 11);
    assert_eq!(raw::collector_restore(&mut state, &long[..raw::IMAGE + 1]), 11);
    assert_eq!(image_of(&state), image);
}

#[test]
fn bursts() {
    let mut state = fresh();
    assert_eq!(raw::collector_take(&mut state, &VALID, 1_000), 0);
    let before = image_of(&state);
    let moments = [1_000; 300];
    let (records, mut replies) = (vec![0xEE; 22 * 300], vec![0xEE; 24 * 300]);
    let mut refused = |number: u8, setting: u8, n: usize, size: usize, room: usize| {
        let answer = raw::collector_burst(&mut state, setting, &moments[..n], &records[..size], &mut replies[..room]);
        assert_eq!(answer, number, "{n} moments, {size} bytes of records, room for {room} bytes of replies");
        assert_eq!(image_of(&state), before);
        assert!(untouched(&replies));
    };
    for n in [0, 1, 2, 256, 257] {
        for size in (0..22 * n + 45).step_by(if n < 3 { 1 } else { 11 }).filter(|size| *size != 22 * n) {
            refused(WRONG, 0, n, size, 24 * n);
        }
        for room in (24 * n + 1..24 * n + 24).chain(24 * n + 25..24 * n + 48) {
            refused(10, 9, n, 22 * n, room);
        }
        for room in (24 * n).saturating_sub(47)..24 * n {
            refused(6, 9, n, 22 * n, room);
        }
    }
    refused(6, 9, 2, 44, 0);
    refused(6, 9, 257, 22 * 257, 24 * 256);
    refused(10, 0, 257, 22 * 257, 24 * 257);
    refused(10, 0, 300, 22 * 300, 24 * 300);
    refused(10, 3, 0, 0, 0);
    refused(10, 255, 1, 22, 24);
    refused(0, 2, 0, 0, 0);
    refused(0, 2, 0, 0, 24 * 300);
}

#[test]
fn the_longest_burst() {
    let mut state = fresh();
    let record = [&[8][..], &VALID, &[0xEE; 13]].concat();
    let mut replies = vec![0xEE; 24 * 256 + 23];
    assert_eq!(raw::collector_burst(&mut state, 1, &[1_000; 256], &record.repeat(256), &mut replies), 0);
    assert!(untouched(&replies[24 * 256..]));
    assert_eq!(replies[..4], [0, 0, 8, 0xD5]);
    for reply in replies[24..24 * 256].chunks(24) {
        assert!(reply[0] == 1 && reply[1..].iter().all(|b| *b == 0));
    }
    let mut heard = 7;
    assert_eq!((raw::collector_copies(&state.shared(), 0, &mut heard), heard), (0, 255));
    assert_eq!((raw::collector_copies(&state.shared(), 1, &mut heard), heard), (10, 255));
    assert_eq!((raw::collector_copies(&state.shared(), usize::MAX, &mut heard), heard), (10, 255));
}

#[test]
fn lines() {
    let mut state = fresh();
    assert_eq!(raw::collector_take(&mut state, &VALID, 1_000), 0);
    let before = image_of(&state);
    let (mut out, mut moments, mut rows, mut done) = (vec![0xEE; 200], vec![77; 9], vec![0xEE; 23 * 9], [77; raw::LINES_DONE]);
    let mut refused = |number: u8, setting: u8, n: usize, size: usize| {
        let mut to = raw::RowsMut { text: &mut out, moments: &mut moments[..n], rows: &mut rows[..size] };
        assert_eq!(raw::collector_lines(&mut state, setting, b"2000 D5090102030400E8\n", 5, &mut to, &mut done), number);
        assert_eq!(image_of(&state), before);
        assert!(untouched(&out) && untouched(&rows) && moments.iter().chain(&done).all(|m| *m == 77));
    };
    for n in 0..9 {
        for size in (0..23 * 9).filter(|size| *size != 23 * n) {
            refused(WRONG, 0, n, size);
            refused(WRONG, 3, n, size);
        }
        refused(10, 3, n, 23 * n);
        refused(10, 255, n, 23 * n);
    }
}

/// Where a call on lines stops: at `most`, at the entries for rows, at the text. What comes after the text and the rows is unchanged.
#[test]
fn lines_that_do_not_fit() {
    let text = b"1000 D5090102030400E8\n1000 D5090102030400E8\n2000 D5090102030400E8\nx\n3000 D5";
    for (most, places, room, expected) in [
        (0, 9, 400, [0, 0, 0, 0]),
        (9, 0, 400, [0, 0, 0, 0]),
        (9, 9, 91, [0, 0, 0, 0]),
        (9, 9, 92, [22, 32, 1, 1]),
        (9, 9, 123, [22, 32, 1, 1]),
        (9, 9, 124, [44, 42, 1, 2]),
        (1, 9, 400, [22, 32, 1, 1]),
        (2, 9, 400, [44, 42, 1, 2]),
        (9, 1, 400, [22, 32, 1, 1]),
        (9, 2, 400, [66, 74, 2, 3]),
        (9, 9, 400, [68, 78, 2, 4]),
    ] {
        let (mut out, mut moments, mut rows, mut done) = (vec![0xEE; room], vec![77; places], vec![0xEE; 23 * places], [77; raw::LINES_DONE]);
        let mut to = raw::RowsMut { text: &mut out, moments: &mut moments, rows: &mut rows };
        assert_eq!(raw::collector_lines(&mut fresh(), 1, text, most, &mut to, &mut done), 0);
        assert_eq!(done, expected, "{most} lines, {places} places, room for {room} bytes");
        let [_, written, n, _] = expected.map(|n| n as usize);
        assert!(untouched(&out[written..]) && untouched(&rows[23 * n..]) && moments[n..].iter().all(|m| *m == 77));
    }
}

#[test]
fn lines_in_a_format() {
    let mut state = fresh();
    assert_eq!(raw::collector_take(&mut state, &VALID, 1_000), 0);
    let before = image_of(&state);
    let (mut out, mut closed) = (vec![0xEE; 400], vec![0xEE; 4_096]);
    let (mut moments, mut rows, mut done) = (vec![77; 9], vec![0xEE; 23 * 9], [77; raw::LINES_AS_DONE]);
    let mut refused = |number: u8, setting: u8, format: u8, n: usize, size: usize| {
        let mut to = raw::RowsAsMut { text: &mut out, moments: &mut moments[..n], rows: &mut rows[..size], closed: &mut closed };
        assert_eq!(raw::collector_lines_as(&mut state, setting, format, b"2000 D5090102030400E8\n", 5, &mut to, &mut done), number);
        assert_eq!(image_of(&state), before);
        assert!(untouched(&out) && untouched(&rows) && untouched(&closed) && moments.iter().chain(&done).all(|m| *m == 77));
    };
    for n in 0..9 {
        for size in (0..23 * 9).filter(|size| *size != 23 * n) {
            refused(WRONG, 0, 0, n, size);
            refused(WRONG, 3, 3, n, size);
        }
        for (setting, format) in [(3, 0), (255, 2), (0, 3), (2, 255), (9, 9)] {
            refused(10, setting, format, n, 23 * n);
        }
    }
}

/// Where a call with a format stops, in addition to where one on text does: at the bytes of the rows, and at the entries for closings.
#[test]
fn formatted_lines_that_do_not_fit() {
    let text = b"1000 D5090102030400E8\n1000 D5090102030400E8\n2000 D5090102030400E8\nx\n3000 D5";
    for (most, places, room, closings, expected) in [
        (0, 9, 999, 4_096, [0, 0, 0, 0, 0]),
        (9, 0, 999, 4_096, [0, 0, 0, 0, 0]),
        (9, 9, 332, 4_096, [0, 0, 0, 0, 0]),
        (9, 9, 333, 4_096, [22, 59, 1, 1, 0]),
        (9, 9, 999, 1, [0, 0, 0, 0, 0]),
        (9, 9, 999, 2_047, [0, 0, 0, 0, 0]),
        (9, 9, 999, 2_048, [66, 161, 2, 3, 1]),
        (9, 9, 999, 2_079, [66, 161, 2, 3, 1]),
        (9, 9, 999, 2_080, [68, 172, 2, 4, 1]),
        (9, 9, 999, 0, [68, 172, 2, 4, 0]),
        (9, 2, 999, 0, [66, 161, 2, 3, 0]),
    ] {
        let (mut out, mut closed) = (vec![0xEE; room], vec![0xEE; closings]);
        let (mut moments, mut rows, mut done) = (vec![77; places], vec![0xEE; 23 * places], [77; raw::LINES_AS_DONE]);
        let mut to = raw::RowsAsMut { text: &mut out, moments: &mut moments, rows: &mut rows, closed: &mut closed };
        assert_eq!(raw::collector_lines_as(&mut fresh(), 1, 1, text, most, &mut to, &mut done), 0);
        assert_eq!(done, expected, "{most} lines, {places} places, room for {room} bytes and {closings} of closings");
        let [_, written, n, _, k] = expected.map(|n| n as usize);
        assert!(untouched(&out[written..]) && untouched(&rows[23 * n..]) && untouched(&closed[32 * k..]));
        assert!(moments[n..].iter().all(|m| *m == 77));
    }
}

#[test]
fn first_lines_and_skipped_lines() {
    let mut used = 77;
    for (text, number, size) in
        [(&b"level 0\n"[..], 0, 8), (b"level 2\nx", 2, 8), (b"level 3\n", 3, 8), (b"\n", 3, 1), (b"level 1", 4, 0), (b"", 4, 0)]
    {
        assert_eq!((raw::first_line(text, &mut used), used), (number, size));
    }
    let (mut bytes, mut done) = ([0xEE; raw::LINE_BYTES], [77; raw::LINE_READ]);
    for (text, number, told) in [
        (&b"7 D509\nx"[..], 0, [7, 2, 7]),
        (b"7 \n", 0, [7, 0, 3]),
        (b"7 D5", 4, [0, 0, 0]),
        (b"", 4, [0, 0, 0]),
        (b"\n", 3, [0, 0, 1]),
        (b"7 D\n8 D5\n", 3, [0, 0, 4]),
    ] {
        assert_eq!((raw::read_line(text, &mut bytes, &mut done), done), (number, told), "{text:?}");
        let said: &[u8] = if told[1] == 2 { &[0xD5, 0x09] } else { &[] };
        assert!(bytes.starts_with(said) && bytes[said.len()..].iter().all(|b| *b == 0));
    }
    let mut done = [77; 2];
    for (most, expected) in [(0, [0, 0]), (1, [1, 1]), (2, [3, 2]), (3, [4, 3]), (4, [4, 3]), (usize::MAX, [4, 3])] {
        raw::skip_lines(b"\nx\n\nlast", most, &mut done);
        assert_eq!(done, expected);
    }
}

#[test]
fn arrays_that_no_collector_has() {
    for content in [1, 8, 64, 0xEE, 0xFF] {
        let mut state = arrays::arrays(content);
        let (mut totals, mut heard, mut image) = ([77; raw::TOTALS], 77, [0xEE; raw::IMAGE]);
        assert_eq!(raw::collector_take(&mut state, &VALID, 1_000), 11);
        assert_eq!(raw::collector_take(&mut state, &[], 0), 11);
        assert_eq!((raw::collector_totals(&state.shared(), &mut totals), totals), (11, [77; raw::TOTALS]));
        assert_eq!((raw::collector_copies(&state.shared(), 0, &mut heard), heard), (11, 77));
        assert_eq!(raw::collector_checkpoint(&state.shared(), &mut image), 11);
        assert_eq!(raw::collector_checkpoint(&state.shared(), &mut image[..9]), 11);
        assert_eq!(raw::collector_restore(&mut state, &image_of(&fresh())), 11);
        assert_eq!(raw::collector_burst(&mut state, 9, &[1_000], &[0xEE; 22], &mut image[..24]), 11);
        assert_eq!(raw::collector_burst(&mut state, 9, &[1_000], &[0xEE; 23], &mut image[..24]), 11);
        let (mut moments, mut done) = ([77; 1], [77; raw::LINES_DONE]);
        for size in [23, 24] {
            let (text, rows) = image.split_at_mut(200);
            let mut to = raw::RowsMut { text, moments: &mut moments, rows: &mut rows[..size] };
            assert_eq!(raw::collector_lines(&mut state, 9, b"1 D5\n", 9, &mut to, &mut done), 11);
            let (text, rest) = image.split_at_mut(400);
            let (rows, closed) = rest.split_at_mut(size);
            let mut to = raw::RowsAsMut { text, moments: &mut moments, rows, closed };
            let mut five = [77; raw::LINES_AS_DONE];
            assert_eq!(raw::collector_lines_as(&mut state, 9, 9, b"1 D5\n", 9, &mut to, &mut five), 11);
            assert_eq!(five, [77; raw::LINES_AS_DONE]);
        }
        assert!(untouched(&image) && moments == [77] && done == [77; raw::LINES_DONE]);
        assert!(state.lengths.iter().chain(state.bytes.iter()).all(|b| *b == content));
        assert!(state.times.iter().chain(state.numbers.iter()).all(|n| *n == u64::from(content)));
        assert!(state.copies.iter().all(|n| *n == u16::from(content)));
    }
}

#[test]
fn outputs_of_every_length() {
    for n in 0..30 {
        let (mut out, mut length) = (vec![0xEE; n], 77);
        let number = raw::encapsulate(&VALID, 0xF1F2F3F4, &mut out, &mut length);
        let right = n >= 13;
        assert_eq!((number, length), if right { (0, 13) } else { (6, 77) });
        assert!(untouched(&out[if right { 13 } else { 0 }..]));
    }
}

#[test]
fn nothing_at_all() {
    let (mut length, mut position, mut rows) = (7, 7, 7);
    assert_eq!(raw::crc8(&[]), 0);
    assert_eq!(raw::check(&[]), 1);
    assert!(raw::same(&[], &[]));
    assert_eq!(raw::encapsulate(&[], 0, &mut [], &mut length), 1);
    assert_eq!(raw::decapsulate(&[], &mut [], &mut length), 1);
    assert_eq!(raw::site(&[]), 0);
    assert_eq!(raw::collector_take(&mut fresh(), &[], 0), 1);
    assert_eq!(length, 7);
    assert_eq!((raw::archive_verify(&[], &mut rows, &mut position), rows, position), (0, 0, 7));
    assert_eq!(raw::archive_append(&mut [], &VALID, 0, false, &mut position), 6);
    assert_eq!(raw::archive_put_row(&mut [], 0, &VALID, 0, false, &mut position), 16);
    assert_eq!(raw::archive_put_rows(&mut [], 0, &[], &[], &mut position), 16);
    assert_eq!(raw::archive_salvage(&[], &mut [], &mut [], &mut length, &mut rows), 0);
    assert_eq!(raw::archive_remove(&mut [], &[], &mut length, &mut position), 0);
    assert_eq!(position, 7);
}

#[test]
fn the_longest() {
    let long = vec![0xAA; 1 << 22];
    assert_eq!(raw::check(&long), 1);
    let mut fields = [0; raw::FIELDS];
    assert_eq!(raw::read(&long, &mut fields), 1);
    assert_eq!(raw::site(&long) >> 16, 10);
    assert_eq!(raw::collector_take(&mut fresh(), &long, u64::MAX), 1);
    let mut archive = vec![0; 1 << 22];
    let (mut position, mut rows) = (7, 7);
    let most = archive.len() / 512 * 15;
    for n in 0..most {
        assert_eq!(raw::archive_append_at(&mut archive, n, &VALID, n as u64, n % 2 == 1, &mut position), 0);
    }
    assert_eq!(raw::archive_append_at(&mut archive, most, &VALID, 0, false, &mut position), 6);
    assert_eq!((raw::archive_verify(&archive, &mut rows, &mut position), rows), (0, most));
    assert_eq!(raw::archive_append_at(&mut archive, usize::MAX, &VALID, 0, false, &mut position), 6);
    let (mut row, mut time) = ([0; raw::ROW], 0);
    assert_eq!(raw::archive_row(&archive, usize::MAX, &mut row, &mut time), 10);
    assert_eq!((raw::archive_row(&archive, most - 1, &mut row, &mut time), time), (0, most as u64 - 1));
}

#[test]
fn the_version_is_that_of_the_header_and_of_the_crate() {
    let header = include_str!("../../../include/mooringeye.h");
    let line = header.lines().find_map(|l| l.strip_prefix("#define MOORINGEYE_VERSION_TEXT ")).unwrap();
    assert_eq!(line, format!("\"{}\"", mooringeye::version()));
    assert_eq!(mooringeye::version().to_string(), env!("CARGO_PKG_VERSION"));
}
