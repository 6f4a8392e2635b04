//! `mooringeye archive`: what each command prints, leaves and refuses.
mod common;
use common::*;
use std::fs;
use std::path::Path;

/// An archive of a log, and its rows as text.
fn archive(dir: &Path, name: &str, lines: usize, seed: u64) -> String {
    let log = log(lines, seed);
    let printed = run(&format!("collect --archive {name}"), dir, log.as_bytes()).with(0).out;
    kept_rows(&log, &printed)
}

/// Changes a byte of a file.
fn spoil(dir: &Path, name: &str, at: usize) {
    let mut bytes = fs::read(dir.join(name)).unwrap();
    bytes[at] ^= 0x40;
    fs::write(dir.join(name), bytes).unwrap();
}

fn out(words: &str, dir: &Path) -> String {
    run(words, dir, b"").with(0).out
}

#[test]
fn verify() {
    let dir = folder("verify");
    let rows = archive(&dir, "a", 5_000, 1).lines().count();
    fs::write(dir.join("empty"), "").unwrap();
    assert_eq!(out("archive verify a empty", &dir), format!("a: {rows} rows, 2048 blocks\nempty: 0 rows, 0 blocks\n"));
    fs::copy(dir.join("a"), dir.join("b")).unwrap();
    spoil(&dir, "b", 512 * 7 + 100);
    let ran = run("archive verify b a none", &dir, b"");
    assert_eq!((ran.status, ran.out.lines().count()), (Some(3), 1), "the others are looked at too");
    ran.says("b: refused with 12: a block of an archive does not match (block 7)").says("cannot open none");
    run("archive verify b", &dir, b"").with(3);
    fs::write(dir.join("b"), [0; 700]).unwrap();
    run("archive verify b", &dir, b"").with(3).says("b has 700 bytes: refused with 16");
}

#[test]
fn list() {
    let dir = folder("list");
    let rows = archive(&dir, "a", 60_000, 2);
    let all: Vec<&str> = rows.lines().collect();
    assert!(all.len() > 15 * 2_060, "more than a piece");
    assert!(out("archive list a", &dir) == rows);
    assert!(out("archive list a a", &dir) == rows.clone() + &rows);

    let time = |row: &str| row.split(' ').next().unwrap().parse::<u64>().unwrap();
    let (from, to) = (time(all[5_000]), time(all[9_000]));
    let between: Vec<&str> = all.iter().copied().filter(|r| (from..=to).contains(&time(r))).collect();
    assert!(out(&format!("archive list a --from {from} --to {to}"), &dir).lines().eq(between));

    let id = |row: &str| row[row.len() - 12..row.len() - 4].to_string();
    let of_two: Vec<&str> = all.iter().copied().filter(|r| ["01020307", "010203C0"].contains(&&id(r)[..])).collect();
    assert!(out("archive list a --txid 01020307 --txid 010203c0", &dir).lines().eq(of_two));

    let (time, word, hex) = (all[0].split(' ').next().unwrap(), all[0].split(' ').nth(1).unwrap(), all[0].split(' ').nth(2).unwrap());
    let csv = out("archive list a --rows csv", &dir);
    assert!(csv.starts_with(&format!("time,answer,txid,telegram\n{time},{word},{},{hex}\n", id(all[0]))), "{}", &csv[..200]);
    assert_eq!(csv.lines().count(), all.len() + 1);
    let json = out("archive list a --rows json", &dir);
    assert!(json.starts_with(&format!("{{\"time\":{time},\"answer\":\"{word}\",\"txid\":\"{}\",\"telegram\":\"{hex}\"}}\n", id(all[0]))));

    // Rows before the block that does not match, whichever piece it is in.
    for block in [0, 3, 2_047, 2_048, 2_060] {
        fs::copy(dir.join("a"), dir.join("b")).unwrap();
        spoil(&dir, "b", 512 * block + 30);
        let ran = run("archive list b", &dir, b"").with(3).says(&format!("(block {block})"));
        assert!(ran.out.lines().eq(all[..15 * block].iter().copied()), "rows before block {block}");
    }
}

#[test]
fn append() {
    let dir = folder("append");
    let rows = archive(&dir, "a", 3_000, 3);
    let said = run("archive append b", &dir, rows.as_bytes()).with(0).out;
    let n = rows.lines().count();
    assert_eq!(said, format!("b: {n} rows appended, {n} rows\n"));
    assert!(fs::read(dir.join("a")).unwrap() == fs::read(dir.join("b")).unwrap());
    // A last line without a newline counts, and a file of another length is filled and grows.
    fs::write(dir.join("c"), [0; 1_024]).unwrap();
    run("archive append c", &dir, rows.trim_end().as_bytes()).with(0);
    assert!(out("archive list c", &dir) == rows);
    // All rows or none.
    let before = fs::read(dir.join("a")).unwrap();
    for (wrong, why) in [
        ("1 KEPT D5090102030400E7", "refused with 2"),
        ("1 COPY D5090102030400E8", "not a time"),
        ("01 KEPT D5090102030400E8", "not a time"),
        ("1 KEPT D5", "refused with 1"),
        ("1 KEPT D5090102030400E8 ", "not a time"),
        ("", "not a time"),
    ] {
        let input = format!("1 KEPT D5090102030400E8\n{wrong}\n2 KEPT D5090102030400E8\n");
        run("archive append a", &dir, input.as_bytes()).with(1).says("line 2 of standard input").says(why).says("nothing is appended");
        assert!(fs::read(dir.join("a")).unwrap() == before);
    }
    run("archive append a", &dir, "x".repeat(100_000).as_bytes()).with(1);
    spoil(&dir, "a", 40);
    run("archive append a", &dir, b"1 KEPT D5090102030400E8\n").with(3).says("(block 0)");
    assert!(!dir.join("a.new").exists());
}

#[test]
fn salvage() {
    let dir = folder("salvage");
    let rows = archive(&dir, "a", 60_000, 4);
    let all: Vec<&str> = rows.lines().collect();
    assert_eq!(out("archive salvage a intact", &dir), format!("intact: {} rows, 0 blocks dropped\n", all.len()));
    assert!(fs::read(dir.join("a")).unwrap() == fs::read(dir.join("intact")).unwrap());
    for block in [5, 6, 2_047, 2_050] {
        spoil(&dir, "a", 512 * block + 200);
    }
    run("archive verify a", &dir, b"").with(3);
    let said = out("archive salvage a b", &dir);
    assert_eq!(said, format!("DROPPED 5\nDROPPED 6\nDROPPED 2047\nDROPPED 2050\nb: {} rows, 4 blocks dropped\n", all.len() - 60));
    let left: Vec<&str> = all.iter().enumerate().filter(|(i, _)| ![5, 6, 2_047, 2_050].contains(&(i / 15))).map(|(_, r)| *r).collect();
    assert!(out("archive list b", &dir).lines().eq(left));
    assert_eq!(fs::metadata(dir.join("a")).unwrap().len(), fs::metadata(dir.join("b")).unwrap().len());
    run("archive salvage a b", &dir, b"").with(1).says("b exists already");
    run("archive salvage a a", &dir, b"").with(1).says("a exists already");
    fs::write(dir.join("odd"), [0; 513]).unwrap();
    run("archive salvage odd c", &dir, b"").with(3).says("refused with 16");
    assert!(!dir.join("c").exists() && !dir.join("c.new").exists());
    // What the library does with all of it in memory.
    fs::write(dir.join("empty"), "").unwrap();
    assert_eq!(out("archive salvage empty e", &dir), "e: 0 rows, 0 blocks dropped\n");
}

#[test]
fn remove() {
    let dir = folder("remove");
    let rows = archive(&dir, "a", 60_000, 5);
    let length = fs::metadata(dir.join("a")).unwrap().len();
    let ids = ["01020301", "01020302", "010203C7"];
    let is_left = |row: &&str| !ids.contains(&&row[row.len() - 12..row.len() - 4]);
    let left: Vec<&str> = rows.lines().filter(is_left).collect();
    let gone = rows.lines().count() - left.len();
    let freed = rows.lines().count().div_ceil(15) - left.len().div_ceil(15);
    assert!(gone > 100);
    let said = out("archive remove a --txid 01020301 01020302 --txid 010203c7", &dir);
    assert_eq!(said, format!("a: {gone} rows removed, {} rows, {freed} blocks freed\n", left.len()));
    assert!(out("archive list a", &dir).lines().eq(left.iter().copied()));
    assert_eq!(fs::metadata(dir.join("a")).unwrap().len(), length);
    let before = fs::read(dir.join("a")).unwrap();
    assert!(out("archive remove a --txid 01020301", &dir).starts_with("a: 0 rows removed"));
    assert!(fs::read(dir.join("a")).unwrap() == before, "a second run changes nothing");
    run(&format!("archive remove a {}", "--txid 00000000 ".repeat(33)), &dir, b"").with(2).says("refused with 10");
    run("archive remove a --txid 0102030", &dir, b"").with(2);
    spoil(&dir, "a", 512 * 9 + 24);
    let spoiled = fs::read(dir.join("a")).unwrap();
    run("archive remove a --txid 01020303", &dir, b"").with(3).says("(block 9)");
    assert!(fs::read(dir.join("a")).unwrap() == spoiled);
    assert_eq!(fs::read_dir(&dir).unwrap().count(), 1);
}

#[test]
fn sheet() {
    let dir = folder("sheet");
    let rows = archive(&dir, "a", 5_000, 6) + &archive(&dir, "b", 7_000, 7);
    // The totals, computed here from the rows as text.
    let mut lines = std::collections::BTreeMap::new();
    for row in rows.lines() {
        let time: u64 = row.split(' ').next().unwrap().parse().unwrap();
        let line = lines.entry(row[row.len() - 12..row.len() - 4].to_string()).or_insert((0, 0, u64::MAX, 0));
        if row.contains("LOOSE") {
            line.1 += 1;
        } else {
            line.0 += 1;
        }
        (line.2, line.3) = (time.min(line.2), time.max(line.3));
    }
    let mut expected = "txid,kept,loose,earliest,latest,share\n".to_string();
    for (id, (kept, loose, earliest, latest)) in &lines {
        expected += &format!("{id},{kept},{loose},{earliest},{latest},\n");
    }
    let sum = |f: fn(&(u64, u64, u64, u64)) -> u64| lines.values().map(f).sum::<u64>();
    let (kept, loose) = (sum(|l| l.0), sum(|l| l.1));
    let (earliest, latest) = (lines.values().map(|l| l.2).min().unwrap(), lines.values().map(|l| l.3).max().unwrap());
    let total = |share: &str| format!("TOTAL,{kept},{loose},{earliest},{latest},{share}\n");
    assert_eq!(out("archive sheet a b --rows csv", &dir), expected.clone() + &total(""));
    assert_eq!(out("archive sheet b a --rows csv", &dir), expected.clone() + &total(""));
    let thousandths = 1000 * (kept + loose) / 12_000;
    assert_eq!(out("archive sheet a b --rows csv --received 12000", &dir), expected.clone() + &total(&format!("0.{thousandths:03}")));
    let table = out("archive sheet a b --received 12000", &dir);
    assert!(table.lines().all(|l| l.len() < 90) && table.ends_with(&format!("0.{thousandths:03}\n")), "{table}");
    run("archive sheet a b --received 0", &dir, b"").with(2).says("refused with 10");
    run(&format!("archive sheet {}", "a ".repeat(65)), &dir, b"").with(2).says("refused with 10");
    run(&format!("archive sheet {}", "a ".repeat(64)), &dir, b"").with(0);
    run("archive sheet a --rows json", &dir, b"").with(2);
    let many: String = (0..257).map(|i| format!("1 KEPT {}\n", out(&format!("build D5 09 {:08X}", i), &dir).trim())).collect();
    run("archive append many", &dir, many.as_bytes()).with(0);
    run("archive sheet many", &dir, b"").with(1).says("refused with 17");
    spoil(&dir, "a", 512);
    run("archive sheet b a", &dir, b"").with(3).says("a: refused with 12").says("(block 1)");
}
