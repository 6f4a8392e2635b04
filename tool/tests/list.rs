//! `mooringeye archive list` for databases: rows by their numbers, over several files, and in the forms that COPY reads.
mod common;
use common::*;
use std::fs;
use std::path::Path;
use std::process::Stdio;

/// Numbered archives of a log, four blocks each, and all their rows as text.
fn numbered(dir: &Path, lines: usize) -> Vec<String> {
    let log = log(lines, 7);
    let printed = run("collect --archive p-#.arc --blocks 4", dir, log.as_bytes()).with(0).out;
    kept_rows(&log, &printed).lines().map(String::from).collect()
}

/// The names of the numbered archives as a shell lists them: the tenth before the second.
fn names(dir: &Path) -> String {
    let mut names: Vec<String> = fs::read_dir(dir).unwrap().map(|e| e.unwrap().file_name().into_string().unwrap()).collect();
    names.retain(|n| n.starts_with("p-") && n.ends_with(".arc"));
    names.sort();
    names.join(" ")
}

/// A row of the tsv form.
fn tsv(number: usize, row: &str) -> String {
    let [time, answer, telegram] = row.split(' ').collect::<Vec<_>>()[..] else { panic!("{row}") };
    format!("{number}\t{time}\t{answer}\t{}\t{telegram}\n", &telegram[telegram.len() - 12..telegram.len() - 4])
}

fn out(words: &str, dir: &Path) -> String {
    run(words, dir, b"").with(0).out
}

#[test]
fn numbers_go_on_from_file_to_file() {
    let dir = folder("list_numbers");
    let rows = numbered(&dir, 1_500);
    let names = names(&dir);
    assert!(names.starts_with("p-0.arc p-1.arc p-10.arc "), "{names}");
    let all: Vec<String> = (1..).zip(&rows).map(|(n, r)| tsv(n, r)).collect();
    assert_eq!(out(&format!("archive list {names} --rows tsv"), &dir), all.concat());
    assert_eq!(out(&format!("archive list {names}"), &dir).lines().collect::<Vec<_>>(), rows, "in the order of the files' numbers");
    for after in (0..rows.len() + 70).step_by(7).chain([59, 60, 61, 119, 120, 121, rows.len() - 1, rows.len()]) {
        let listed = out(&format!("archive list {names} --rows tsv --after {after}"), &dir);
        assert_eq!(listed, all[after.min(all.len())..].concat(), "after {after}");
        for count in [0, 1, 14, 61, 10_000] {
            let some = out(&format!("archive list {names} --rows tsv --after {after} --count {count}"), &dir);
            assert_eq!(some, all[after.min(all.len())..(after + count).min(all.len())].concat(), "{count} after {after}");
        }
    }
    // A single file, by the number of its first row.
    let third = out("archive list p-2.arc --rows tsv --first 121 --after 130", &dir);
    assert_eq!(third, all[130..180].concat());
    // The other options choose among those rows.
    let time = |row: &str| row.split(' ').next().unwrap().parse::<u64>().unwrap();
    let to = time(&rows[300]);
    let some: String = all.iter().zip(&rows).skip(200).filter(|(_, r)| time(r) <= to).map(|(t, _)| t.as_str()).collect();
    assert_eq!(out(&format!("archive list {names} --rows tsv --after 200 --to {to}"), &dir), some);
}

#[test]
fn only_what_is_behind_is_read() {
    let dir = folder("list_behind");
    let log = log(60_000, 2);
    let printed = run("collect --archive a", &dir, log.as_bytes()).with(0).out;
    let rows = kept_rows(&log, &printed);
    let all: Vec<String> = (1..).zip(rows.lines()).map(|(n, r)| tsv(n, r)).collect();
    let mut bytes = fs::read(dir.join("a")).unwrap();
    bytes[512 * 3 + 100] ^= 1;
    fs::write(dir.join("b"), &bytes).unwrap();
    // Block 3 has the rows 46 to 60.
    for after in [75, 76, 20_000, 31_000, all.len() - 1, all.len()] {
        assert!(out(&format!("archive list b --rows tsv --after {after}"), &dir) == all[after..].concat(), "after {after}");
    }
    for after in [0, 45, 50, 59] {
        let ran = run(&format!("archive list b --rows tsv --after {after}"), &dir, b"").with(3).says("(block 3)");
        assert!(ran.out == all[after.min(45)..45].concat(), "after {after}");
    }
    // Blocks that were lost: the end is not where it seems to be, and the blocks after it show that.
    bytes[512 * 2_040..512 * 2_060].fill(0);
    fs::write(dir.join("c"), &bytes).unwrap();
    for after in [30_599, 30_700, 30_899, all.len(), all.len() + 100] {
        run(&format!("archive list c --after {after}"), &dir, b"").with(3).says("does not match");
    }
}

/// The values of each row of COPY BINARY.
fn copied(mut bytes: &[u8]) -> Vec<Vec<Vec<u8>>> {
    let mut take = |n: usize| {
        let (front, behind) = bytes.split_at(n);
        bytes = behind;
        front.to_vec()
    };
    assert_eq!(take(19), b"PGCOPY\n\xFF\r\n\0\0\0\0\0\0\0\0\0");
    let mut rows = Vec::new();
    loop {
        let columns = i16::from_be_bytes(take(2).try_into().unwrap());
        if columns == -1 {
            assert!(bytes.is_empty());
            return rows;
        }
        let value = |_| {
            let length = u32::from_be_bytes(take(4).try_into().unwrap());
            take(length as usize)
        };
        rows.push((0..columns).map(value).collect());
    }
}

#[test]
fn copy_binary() {
    let dir = folder("list_binary");
    let rows = "0 KEPT D5090102030400E8\n946684800001 LOOSE D5090102030400E8\n18446744073709551615 KEPT D5090102030400E8\n";
    run("archive append a", &dir, rows.as_bytes()).with(0);
    let binary = |words: &str| {
        let done = tool(&format!("archive list a --rows binary {words}"), &dir).stdin(Stdio::null()).output().unwrap();
        (done.status.code(), done.stdout)
    };
    let (status, bytes) = binary("--first 41");
    assert_eq!(status, Some(0));
    let telegram = vec![0xD5, 9, 1, 2, 3, 4, 0, 0xE8];
    let row = |number: i64, at: i64, numeric: &[u8], loose: u8| {
        vec![number.to_be_bytes().to_vec(), at.to_be_bytes().to_vec(), numeric.to_vec(), vec![loose], vec![1, 2, 3, 4], telegram.clone()]
    };
    let words = |words: &[u16]| words.iter().flat_map(|w| w.to_be_bytes()).collect::<Vec<_>>();
    let expected = [
        row(41, -946_684_800_000_000, &words(&[0, 0, 0, 0]), 0),
        row(42, 1_000, &words(&[3, 2, 0, 0, 9_466, 8_480, 1]), 1),
        row(43, i64::MAX, &words(&[5, 4, 0, 0, 1_844, 6_744, 737, 955, 1_615]), 0),
    ];
    assert_eq!(copied(&bytes), expected);
    assert_eq!(copied(&binary("--first 41 --after 42").1), expected[2..]);
    assert_eq!(copied(&binary("--after 3").1).len(), 0);
    assert_eq!(out("archive list a --rows months", &dir), "1970-01\t1\n2000-01\t1\nlater\t1\n");
    assert_eq!(out("archive list a --rows months --after 1 --count 1", &dir), "2000-01\t1\n");
    // If it is cut short, it has no trailer, and COPY refuses it.
    let mut spoiled = fs::read(dir.join("a")).unwrap();
    spoiled[30] ^= 1;
    fs::write(dir.join("a"), spoiled).unwrap();
    let (status, bytes) = binary("");
    assert_eq!((status, bytes.len()), (Some(3), 19));
}

#[test]
fn wrong_words() {
    let dir = folder("list_words");
    fs::write(dir.join("a"), "").unwrap();
    for words in ["--rows xml", "--after x", "--after 18446744073709551615", "--first 0", "--first 9999999999999999999", "--count -1", "--after"] {
        run(&format!("archive list a {words}"), &dir, b"").with(2);
    }
    assert_eq!(out("archive list a --rows tsv --after 18446744073709551614 --first 4611686018427387904", &dir), "");
}
