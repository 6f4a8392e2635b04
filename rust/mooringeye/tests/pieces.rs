//! Archives in pieces: on the buffers of the stored records, these calls answer what the calls on a whole buffer answer, whatever the pieces are.
use mooringeye::raw;
use std::path::Path;

const BLOCK: usize = 512;

/// The buffers that the stored records of `archive_run` build, each once if it is requested several times in a row.
fn buffers() -> Vec<Vec<u8>> {
    let path = Path::new(env!("CARGO_MANIFEST_DIR")).join("../../crates/archive_run/stdin");
    let text = std::fs::read_to_string(path).unwrap();
    let (mut buffer, mut found) = (Vec::new(), Vec::new());
    for line in text.lines() {
        let record: Vec<u8> = (0..line.len() / 2).map(|i| u8::from_str_radix(&line[2 * i..2 * i + 2], 16).unwrap()).collect();
        let place = u32::from_be_bytes(record[1..5].try_into().unwrap()) as usize;
        match record[0] {
            1 => buffer = vec![0; place.min(24_576)],
            2 => {
                let count = usize::from(u16::from_be_bytes(record[5..7].try_into().unwrap())).min(300);
                for (j, byte) in record[8..8 + count].iter().enumerate() {
                    if let Some(to) = buffer.get_mut(place + j) {
                        *to = *byte;
                    }
                }
            }
            5 | 8 | 9 | 12 | 14 | 18 if found.last() != Some(&buffer) => found.push(buffer.clone()),
            _ => {}
        }
    }
    found
}

/// Pieces of `blocks` blocks; the last one may be shorter.
fn pieces(buffer: &[u8], blocks: usize) -> impl Iterator<Item = &[u8]> {
    buffer.chunks(BLOCK * blocks)
}

fn verified(buffer: &[u8], blocks: usize) -> (u8, usize, usize) {
    let (mut numbers, mut rows, mut position) = ([0; raw::SCAN_NUMBERS], 7, 7);
    for piece in pieces(buffer, blocks) {
        let before = numbers;
        let number = raw::scan_feed(&mut numbers, piece);
        if number != 0 {
            assert_eq!(numbers, before);
            return (number, 7, 7);
        }
    }
    (raw::scan_end(&numbers, &mut rows, &mut position), rows, position)
}

#[test]
fn a_scan_in_pieces_is_verify() {
    let mut answers = [0; 256];
    for buffer in buffers() {
        let (mut rows, mut position) = (7, 7);
        let number = raw::archive_verify(&buffer, &mut rows, &mut position);
        answers[usize::from(number)] += 1;
        for blocks in [1, 2, 3, 48] {
            assert_eq!(verified(&buffer, blocks), (number, rows, position), "{} bytes", buffer.len());
        }
    }
    assert!(answers[0] > 100 && answers[12] > 100 && answers[16] > 5, "{answers:?}");
}

#[test]
fn any_numbers_of_a_scan_are_answered() {
    for (numbers, answer) in [
        // All blocks are full.
        ([0, 0, 0, 0], (0, 0, 7)),
        ([1 << 32, 15 << 32, 0, 9], (0, 15 << 32, 7)),
        ([1, 0, 0, 0], (11, 7, 7)),
        ([1, 16, 0, 0], (11, 7, 7)),
        ([(1 << 32) + 1, 15 * ((1 << 32) + 1), 0, 0], (11, 7, 7)),
        // The last one is short.
        ([2, 15, 1, 0], (11, 7, 7)),
        ([2, 16, 1, 0], (0, 16, 7)),
        ([2, 29, 1, 0], (0, 29, 7)),
        ([2, 30, 1, 0], (11, 7, 7)),
        ([0, 0, 1, 0], (11, 7, 7)),
        // There was an all-zero one.
        ([0, 0, 2, 0], (11, 7, 7)),
        ([2, 0, 2, 0], (0, 0, 7)),
        ([2, 15, 2, 0], (0, 15, 7)),
        ([2, 16, 2, 0], (11, 7, 7)),
        // One does not match.
        ([2, 3, 3, 1], (12, 7, 1)),
        ([2, 30, u64::MAX, 0], (12, 7, 0)),
        ([2, 3, 3, 2], (11, 7, 7)),
        ([2, 31, 3, 1], (11, 7, 7)),
        ([u64::MAX; 4], (11, 7, 7)),
    ] {
        let (mut rows, mut position) = (7, 7);
        let number = raw::scan_end(&numbers, &mut rows, &mut position);
        assert_eq!((number, rows, position), answer, "{numbers:?}");
    }
    let mut full = [1 << 32, 0, 2, 0];
    assert_eq!(raw::scan_feed(&mut full, &[0; BLOCK]), 16);
    assert_eq!(raw::scan_feed(&mut full, &[]), 0);
}

/// A packer whose rows would need a block after number 2^32 - 1.
#[test]
fn no_block_number_is_used_twice() {
    let (mut waiting, mut out, mut count) = ([0xEE; raw::PACKER_BYTES], [0xEE; 2 * BLOCK], 7);
    for (numbers, piece, feed, end) in [
        ([14, (1 << 32) - 1], &[0; BLOCK][..], 16, 0),
        ([14, (1 << 32) - 2], &[0; BLOCK][..], 0, 0),
        ([0, (1 << 32) - 1], &[0; BLOCK][..], 0, 0),
        ([0, 1 << 32], &[0; BLOCK][..], 16, 0),
        ([1, 1 << 32], &[][..], 11, 11),
        ([14, 1 << 32], &[][..], 11, 11),
        ([15, 0], &[][..], 11, 11),
    ] {
        let mut after = numbers;
        assert_eq!(raw::pack_feed(&mut after, &mut waiting, piece, &[], &mut out, &mut [], &mut count), feed, "{numbers:?}");
        assert_eq!(after, numbers);
        let mut length = 7;
        assert_eq!(raw::pack_end(&numbers, &waiting, &mut out, &mut length), end, "{numbers:?}");
        assert_eq!(
            length,
            if end == 11 {
                7
            } else if numbers[0] == 0 {
                0
            } else {
                BLOCK
            }
        );
    }
    assert_eq!(count, 0);
}

/// What a packer writes for pieces, with zeros up to the length of the buffer, and the dropped positions.
fn packed(buffer: &[u8], blocks: usize, identities: &[u32]) -> (Vec<u8>, Vec<u64>, usize) {
    let (mut numbers, mut waiting) = ([0; raw::PACKER_NUMBERS], [0xEE; raw::PACKER_BYTES]);
    let (mut all, mut dropped) = (Vec::new(), Vec::new());
    for (i, piece) in pieces(buffer, blocks).enumerate() {
        let (mut out, mut positions, mut count) = (vec![0xEE; piece.len()], vec![0; piece.len() / BLOCK], 7);
        let before = numbers[1];
        assert_eq!(raw::pack_feed(&mut numbers, &mut waiting, piece, identities, &mut out, &mut positions, &mut count), 0);
        all.extend(&out[..BLOCK * (numbers[1] - before) as usize]);
        dropped.extend(positions[..count].iter().map(|k| k + (blocks * i) as u64));
    }
    let (mut last, mut length) = ([0xEE; BLOCK], 7);
    let rows = 15 * numbers[1] + numbers[0];
    assert_eq!(raw::pack_end(&numbers, &waiting, &mut last, &mut length), 0);
    all.extend(&last[..length]);
    all.resize(buffer.len(), 0);
    (all, dropped, rows as usize)
}

#[test]
fn packing_in_pieces_is_salvage_and_removal() {
    let mut removals = 0;
    for buffer in buffers().into_iter().filter(|b| b.len() % BLOCK == 0) {
        let (mut out, mut positions) = (vec![0; buffer.len()], vec![0; buffer.len() / BLOCK]);
        let (mut dropped, mut rows) = (7, 7);
        assert_eq!(raw::archive_salvage(&buffer, &mut out, &mut positions, &mut dropped, &mut rows), 0);
        positions.truncate(dropped);
        for blocks in [1, 2, 48] {
            assert_eq!(packed(&buffer, blocks, &[]), (out.clone(), positions.clone(), rows));
        }
        let (list, mut rest, mut freed, mut position) = ([1, 0x0102_0304], buffer.clone(), 7, 7);
        if raw::archive_remove(&mut rest, &list, &mut freed, &mut position) == 0 {
            assert_eq!(packed(&buffer, 2, &list).0, rest);
            removals += usize::from(rest != buffer);
        }
    }
    assert!(removals > 10, "{removals}");
}

type Report = ([u64; raw::REPORT_NUMBERS], [u64; raw::REPORT_LINES]);

/// The content of a report: its numbers, and its lines.
fn said((numbers, lines): &Report) -> (Vec<u64>, Vec<u64>) {
    (numbers.to_vec(), lines[..raw::LINE_NUMBERS * numbers[1] as usize].to_vec())
}

#[test]
fn adding_in_pieces_is_adding() {
    let mut report: Report = ([0; raw::REPORT_NUMBERS], [0; raw::REPORT_LINES]);
    let mut answers = [0; 256];
    // Archives without rows at the end, so that there are more than 64.
    let empty = std::iter::repeat_n(vec![0; BLOCK], 70);
    for buffer in buffers().into_iter().filter(|b| b.len() % BLOCK == 0).chain(empty) {
        let (mut whole, mut position, mut other) = (report, 7, 7);
        let number = raw::report_add(&mut whole.0, &mut whole.1, &buffer, &mut position);
        answers[usize::from(number)] += 1;
        let (mut adding, mut tally) = ([7; raw::ADDING_NUMBERS], [7; raw::REPORT_LINES]);
        raw::report_start(&report.0, &report.1, &mut adding, &mut tally);
        for piece in pieces(&buffer, 2) {
            assert_eq!(raw::report_feed(&report.0, &report.1, &mut adding, &mut tally, piece), 0);
        }
        let end = raw::report_end(&mut report.0, &mut report.1, &adding, &tally, &mut other);
        assert_eq!((end, other, said(&report)), (number, position, said(&whole)));
        if number == 17 {
            report = ([0; raw::REPORT_NUMBERS], [0; raw::REPORT_LINES]);
        }
    }
    assert!(answers[0] > 50 && answers[10] > 50 && answers[12] > 100 && answers[17] > 0, "{answers:?}");
    // A report that was changed in between does not fit any more.
    let (mut adding, mut tally) = ([0; raw::ADDING_NUMBERS], [0; raw::REPORT_LINES]);
    raw::report_start(&report.0, &report.1, &mut adding, &mut tally);
    report.0[2] += 1;
    assert_eq!(raw::report_feed(&report.0, &report.1, &mut adding, &mut tally, &[]), 11);
}

/// A cut of the whole buffer is a cut of one block and zeros after it; and the file is an archive after each write.
#[test]
fn a_cut_from_the_end() {
    let mut cuts = 0;
    for buffer in buffers() {
        let (mut rows, mut position) = (7, 7);
        if raw::archive_verify(&buffer, &mut rows, &mut position) != 0 {
            let mut same = buffer.clone();
            let number = raw::archive_cut(&mut same, 0, &mut position);
            assert!((number == 12 || number == 16) && same == buffer);
            continue;
        }
        for first in [0, 1, 14, 15, 16, 30, rows.saturating_sub(1), rows] {
            let (mut whole, mut file) = (buffer.clone(), buffer.clone());
            let number = raw::archive_cut(&mut whole, first, &mut position);
            assert_eq!((number, position), (if rows < first { 10 } else { 0 }, 7));
            if rows <= first {
                assert_eq!(whole, buffer);
                continue;
            }
            for k in (first / 15 + 1..rows.div_ceil(15)).rev() {
                file[BLOCK * k..BLOCK * k + BLOCK].fill(0);
                assert_eq!(verified(&file, 3), (0, 15 * k, 7));
            }
            let at = BLOCK * (first / 15);
            assert_eq!(raw::archive_cut_block(&mut file[at..at + BLOCK], first % 15), 0);
            assert_eq!(file, whole);
            assert_eq!(verified(&file, 3), (0, first, 7));
            cuts += 1;
        }
    }
    assert!(cuts > 100, "{cuts}");
    let mut block = vec![0; BLOCK];
    assert_eq!(raw::archive_cut_block(&mut block, 0), 12);
    assert_eq!(raw::archive_cut_block(&mut block[..511], 0), 16);
}
