//! Slices that end where memory ends, and slices that begin where it begins: a read or write outside them stops the test.
use mooringeye::raw;
use std::ffi::c_void;

extern "C" {
    fn mmap(at: *mut c_void, len: usize, access: i32, flags: i32, file: i32, offset: i64) -> *mut c_void;
    fn mprotect(at: *mut c_void, len: usize, access: i32) -> i32;
}

const PAGE: usize = 4096;
const NONE: i32 = 0;
const READ_WRITE: i32 = 3;
const PRIVATE_ANONYMOUS: i32 = 0x22;

/// `len` bytes, or numbers, between two pages that must not be touched: at the end of the memory between them, or at its start.
fn guarded<T: Clone>(content: &[T], at_end: bool) -> &'static mut [T] {
    let size = std::mem::size_of_val(content);
    let pages = size.div_ceil(PAGE).max(1);
    // SAFETY: a new mapping of its own, never unmapped; the returned part is inside it, is aligned, and is returned once.
    unsafe {
        let base = mmap(std::ptr::null_mut(), (pages + 2) * PAGE, NONE, PRIVATE_ANONYMOUS, -1, 0);
        assert!(base as isize > 0);
        let inner = base.add(PAGE);
        assert_eq!(mprotect(inner, pages * PAGE, READ_WRITE), 0);
        let start = if at_end { inner.add(pages * PAGE - size) } else { inner } as *mut T;
        std::ptr::copy_nonoverlapping(content.as_ptr(), start, content.len());
        std::slice::from_raw_parts_mut(start, content.len())
    }
}

fn both(mut call: impl FnMut(bool)) {
    call(true);
    call(false);
}

/// Bytes of a length that are valid, and bytes that are not.
fn contents(n: usize) -> Vec<Vec<u8>> {
    let mut right = vec![0xD5; n];
    if n >= 2 {
        right[n - 2] = 0;
        right[n - 1] = right[..n - 1].iter().fold(0u8, |s, b| s.wrapping_add(*b));
    }
    let mut addressed = right.clone();
    if n >= 2 {
        addressed[0] = 0xA6;
        addressed[n - 1] = addressed[..n - 1].iter().fold(0u8, |s, b| s.wrapping_add(*b));
    }
    vec![right, addressed, vec![0xFF; n], vec![0; n]]
}

#[test]
fn subtelegrams() {
    for n in 0..30 {
        for content in contents(n) {
            both(|end| {
                let bytes = guarded(&content, end);
                let (fields, sent) = (guarded(&[0u8; raw::FIELDS], end), guarded(&[0u8; raw::FRAME], end));
                let (out, length) = (guarded(&vec![0u8; n % 23], end), guarded(&[0usize], end));
                raw::crc8(bytes);
                raw::check(bytes);
                raw::same(bytes, guarded(&content, !end));
                raw::read(bytes, fields);
                raw::build(fields, out, &mut length[0]);
                raw::encapsulate(bytes, 7, out, &mut length[0]);
                raw::decapsulate(bytes, out, &mut length[0]);
                raw::repeat(2, bytes, sent);
            });
        }
    }
}

#[test]
fn erp2_telegrams() {
    for n in 0..=256 {
        let mut content = vec![0x2F; n];
        if n > 1 {
            content[0] = (n - 1) as u8;
            content[n - 1] = raw::crc8(&content[1..n - 1]);
        }
        both(|end| {
            let fields = guarded(&[0u8; raw::ERP2], end);
            let (from, to) = (guarded(&[0u64], end), guarded(&[0u32], end));
            raw::erp2_read(guarded(&content, end), fields, &mut from[0], &mut to[0]);
            let (out, length) = (guarded(&vec![0u8; n], end), guarded(&[0usize], end));
            raw::erp2_build(fields, from[0], to[0], out, &mut length[0]);
        });
    }
}

#[test]
fn archives_and_reports() {
    let telegram = [0xD5, 0x09, 1, 2, 3, 4, 0, 0xE8];
    for (blocks, rows) in [(0, 0), (1, 0), (1, 15), (3, 31), (3, 45)] {
        let mut content = vec![0; 512 * blocks];
        let mut position = 0;
        for n in 0..rows {
            assert_eq!(raw::archive_append_at(&mut content, n, &telegram, n as u64, false, &mut position), 0);
        }
        both(|end| {
            let buffer = guarded(&content, end);
            let bytes = guarded(&telegram, end);
            let numbers = guarded(&[0usize; 2], end);
            let [a, b] = numbers else { unreachable!() };
            let (row, time) = (guarded(&[0u8; raw::ROW], end), guarded(&[0u64], end));
            raw::archive_verify(buffer, a, b);
            raw::archive_append(buffer, bytes, 1, true, a);
            raw::archive_append_at(buffer, rows, bytes, 1, true, a);
            for n in [0, 15, usize::MAX] {
                let block = guarded(&content[..512.min(content.len())], end);
                raw::archive_put_row(block, n, bytes, 1, true, a);
                for count in [0, 1, 15, 16] {
                    let (times, records) =
                        (guarded(&vec![1u64; count], end), guarded(&[&[0, 8][..], &telegram, &[0; 13]].concat().repeat(count), end));
                    raw::archive_put_rows(block, n, times, records, a);
                    raw::archive_put_rows(block, n, times, guarded(&vec![0u8; raw::ROW * count + 1], end), a);
                    raw::archive_put_rows(block, n, guarded(&vec![1u64; count + 1], end), records, a);
                }
            }
            raw::archive_row(buffer, rows, row, &mut time[0]);
            let (out, list) = (guarded(&content, end), guarded(&vec![0u64; blocks], end));
            raw::archive_salvage(buffer, out, list, a, b);
            raw::archive_remove(buffer, guarded(&[5u32; 32], end), a, b);
            let report: &mut [u64; raw::REPORT_NUMBERS] = guarded(&[0; raw::REPORT_NUMBERS], end).try_into().unwrap();
            let lines: &mut [u64; raw::REPORT_LINES] = guarded(&[0; raw::REPORT_LINES], end).try_into().unwrap();
            let line: &mut [u64; raw::LINE_NUMBERS] = guarded(&[0; raw::LINE_NUMBERS], end).try_into().unwrap();
            raw::report_empty(report, lines);
            raw::report_add(report, lines, buffer, a);
            raw::report_line(report, lines, 0, line);
            raw::report_line(report, lines, usize::MAX, line);
            raw::report_share(report, lines, 50, &mut time[0]);
        });
    }
}

#[test]
fn sites() {
    for n in [0, 8, 9, 10, 9 * 32, 9 * 33] {
        both(|end| {
            raw::site(guarded(&vec![1u8; n], end));
        });
    }
}

/// The arrays of a collector, each between guard pages of its own, with this value in every number.
fn arrays(content: u8, end: bool) -> raw::ArraysMut<'static> {
    let wide = u64::from(content);
    raw::ArraysMut {
        times: guarded(&[wide; raw::CAPACITY], end).try_into().unwrap(),
        lengths: guarded(&[content; raw::CAPACITY], end).try_into().unwrap(),
        bytes: guarded(&[content; raw::ENTRY_BYTES], end).try_into().unwrap(),
        copies: guarded(&[u16::from(content); raw::CAPACITY], end).try_into().unwrap(),
        numbers: guarded(&[wide; raw::COLLECTOR_NUMBERS], end).try_into().unwrap(),
    }
}

/// Makes every call except those that take receptions.
fn asked(state: &mut raw::ArraysMut<'_>, end: bool) {
    raw::collector_totals(&state.shared(), guarded(&[0; raw::TOTALS], end).try_into().unwrap());
    for index in [0, 63, 64, usize::MAX] {
        raw::collector_copies(&state.shared(), index, &mut guarded(&[0], end)[0]);
    }
    for n in [0, 1, raw::IMAGE - 1, raw::IMAGE, raw::IMAGE + 1] {
        let image = guarded(&vec![0u8; n], end);
        raw::collector_checkpoint(&state.shared(), image);
        raw::collector_restore(state, image);
    }
}

#[test]
fn collectors() {
    both(|end| {
        let mut state = arrays(0, end);
        raw::collector_fresh(&mut state);
        for n in (0..30).chain([1_000]) {
            for (i, content) in contents(n).iter().enumerate() {
                raw::collector_take(&mut state, guarded(content, end), (8 * n + i) as u64);
            }
        }
        asked(&mut state, end);
        // Telegrams until all 64 are open, and some more.
        for x in 0..80u8 {
            let mut telegram = [0xF6, 0x50, 0, 0, 0, x, 0x30, 0];
            telegram[7] = telegram[..7].iter().fold(0u8, |s, b| s.wrapping_add(*b));
            raw::collector_take(&mut state, guarded(&telegram, end), 9_000);
        }
        assert_eq!(state.numbers[0], 64);
        asked(&mut state, end);
        // Arrays that no collector has.
        for content in [1, 21, 64, 65, 0xFF] {
            let mut other = arrays(content, end);
            assert_eq!(raw::collector_take(&mut other, guarded(&contents(8)[0], end), 0), 11);
            // The caller says that the state is accepted; the call still stays inside the arrays.
            raw::collector_take_tested(&mut arrays(content, end), guarded(&contents(8)[0], end), 0);
            asked(&mut other, end);
        }
    });
}

#[test]
fn bursts() {
    both(|end| {
        let mut state = arrays(0, end);
        for (n, places) in [(0, 0), (1, 0), (1, 1), (7, 9), (256, 256), (257, 257)] {
            for setting in 0..4 {
                let moments = guarded(&vec![1_000u64; n], end);
                let record = [&[8u8][..], &contents(8)[0], &[0xEE; 13]].concat();
                let (records, replies) = (guarded(&record.repeat(n), end), guarded(&vec![0u8; raw::REPLY * places], end));
                raw::collector_burst(&mut state, setting, moments, records, replies);
                // Lists whose lengths do not agree.
                raw::collector_burst(&mut state, setting, moments, guarded(&vec![0u8; 22 * n + 1], end), replies);
                raw::collector_burst(&mut state, setting, guarded(&vec![0; n + 1], end), records, replies);
                raw::collector_burst(&mut state, setting, moments, records, guarded(&vec![0u8; 24 * places + 23], end));
            }
        }
    });
}
