//! What used to lose rows without a message, done to the real tool with real files: each row of the table of what a plant may do, and each sentence
//! of docs/GUIDE.md on crashes and logs, has a test here.
mod common;
use common::*;
use std::fs::{self, File, OpenOptions};
use std::io::{BufRead, BufReader, Read, Write};
use std::os::unix::fs::{chown, MetadataExt, PermissionsExt};
use std::path::Path;
use std::process::{Command, Stdio};
use std::thread::sleep;
use std::time::{Duration, Instant};

const KEPT: &str = "collect --level 1 --state s --archive a";
const LOGGED: &str = "collect --level 1 --state s --archive a --log gateway.log";

/// Lines of a log without its level.
fn lines(count: usize, seed: u64) -> Vec<String> {
    log(count + 1, seed).split_inclusive('\n').skip(1).map(String::from).collect()
}

fn listed(dir: &Path, name: &str) -> Vec<String> {
    run(&format!("archive list {name}"), dir, b"").with(0).out.lines().map(String::from).collect()
}

/// A state from before a batch, and the archive from after it: what a kill between the two leaves.
fn archive_ahead(name: &str) -> (std::path::PathBuf, Vec<String>, Vec<String>) {
    let (dir, lines) = (folder(name), lines(3_000, 41));
    run(KEPT, &dir, lines[..1_000].concat().as_bytes()).with(0);
    let state = fs::read(dir.join("s")).unwrap();
    run(KEPT, &dir, lines[1_000..2_000].concat().as_bytes()).with(0);
    fs::write(dir.join("s"), state).unwrap();
    let rows = listed(&dir, "a");
    (dir, lines, rows)
}

#[test]
fn a_feed_goes_on_from_its_rows() {
    let (dir, lines, rows) = archive_ahead("journal_feed");
    let ran = run(KEPT, &dir, lines[2_000..].concat().as_bytes()).with(0).says("are counted now");
    let now = listed(&dir, "a");
    assert!(now.starts_with(&rows) && now.len() > rows.len());
    assert!(!dir.join("a.aside-1").exists(), "{}", ran.err);
    // The rows that came later are those of a collector that was not stopped.
    let whole = folder("journal_feed_whole");
    run(KEPT, &whole, lines.concat().as_bytes()).with(0);
    assert!(listed(&whole, "a") == now);
}

#[test]
fn without_a_level_leftovers_wait_for_the_first_line() {
    let (dir, lines, rows) = archive_ahead("journal_feed_level");
    run("collect --state s --archive a", &dir, b"").with(2);
    assert!(listed(&dir, "a") == rows);
    run("collect --state s --archive a", &dir, format!("level 1\n{}", lines[2_000..].concat()).as_bytes()).with(0).says("are counted now");
    assert!(listed(&dir, "a").starts_with(&rows));
}

#[test]
fn rows_that_were_appended_are_kept() {
    let (dir, log) = (folder("journal_appended"), log(2_000, 42));
    fs::write(dir.join("gateway.log"), &log).unwrap();
    run(LOGGED, &dir, b"").with(0);
    let rows = listed(&dir, "a");
    let more = "5 KEPT D5090102030400E8\n7 LOOSE D5090102030400E8\n";
    // With a log: what it does not give again is put aside.
    run("archive append a", &dir, more.as_bytes()).with(0);
    run(LOGGED, &dir, b"").with(0).says("2 rows that the state does not count are not in the log. They were moved to a.aside-1.");
    assert!(listed(&dir, "a") == rows);
    assert_eq!(listed(&dir, "a.aside-1").join("\n") + "\n", more);
    // Other rows come instead.
    run("archive append a", &dir, more.as_bytes()).with(0);
    let next = "99999999 D5090102030400E8\n";
    OpenOptions::new().append(true).open(dir.join("gateway.log")).unwrap().write_all(next.as_bytes()).unwrap();
    run(LOGGED, &dir, b"").with(0).says("2 rows that the state does not count are not what came in their place. They were moved to a.aside-2.");
    assert_eq!(listed(&dir, "a").len(), rows.len() + 1);
    assert_eq!(listed(&dir, "a.aside-2").join("\n") + "\n", more);
    // If the state has a position in a log, they wait for that log.
    run("archive append a", &dir, more.as_bytes()).with(0);
    run(KEPT, &dir, b"").with(0);
    assert_eq!(listed(&dir, "a").len(), rows.len() + 3);
    run(LOGGED, &dir, b"").with(0).says("They were moved to a.aside-3.");
    // From a feed: the collector answers LATE, so they are put aside too.
    let dir = folder("journal_appended_feed");
    run(KEPT, &dir, lines(2_000, 42).concat().as_bytes()).with(0);
    run("archive append a", &dir, more.as_bytes()).with(0);
    run(KEPT, &dir, b"").with(0).says("They were moved to a.aside-1.");
    assert_eq!(listed(&dir, "a.aside-1").join("\n") + "\n", more);
}

#[test]
fn two_states_on_one_archive_by_turns() {
    let (dir, lines) = (folder("journal_two_states"), lines(4_000, 43));
    let other = KEPT.replace("--state s", "--state t");
    let mut rows: Vec<String> = Vec::new();
    for (turn, part) in lines.chunks(1_000).enumerate() {
        // What the other one kept is taken in if this one would have kept it too, else put aside; then the other one refuses to continue.
        let ran = run(if turn % 2 == 0 { KEPT } else { &other }, &dir, part.concat().as_bytes());
        assert!(ran.status == Some(0) || turn == 3 && ran.status == Some(3) && ran.err.contains("--adopt-archive"), "{}", ran.err);
        let mut now = listed(&dir, "a");
        for n in (1..).take_while(|n| dir.join(format!("a.aside-{n}")).exists()) {
            now.extend(listed(&dir, &format!("a.aside-{n}")));
        }
        assert!(rows.iter().all(|row| now.contains(row)), "turn {turn}: rows are gone");
        rows = now;
    }
    assert!(rows.len() > 1_500);
}

#[test]
fn a_state_from_a_backup() {
    let (dir, lines) = (folder("journal_backup"), lines(30_000, 44));
    fs::write(dir.join("gateway.log"), lines.concat()).unwrap();
    run(KEPT, &dir, b"").with(0);
    let first: String = lines[..10].concat();
    run(KEPT, &dir, first.as_bytes()).with(0);
    let state = fs::read(dir.join("s")).unwrap();
    run(KEPT, &dir, lines[10..].concat().as_bytes()).with(0);
    let archive = fs::read(dir.join("a")).unwrap();
    fs::write(dir.join("s"), &state).unwrap();
    // The log gives all of them again: nothing is written twice.
    let ran = run(LOGGED, &dir, b"").with(0).says("that the state does not count");
    assert!(fs::read(dir.join("a")).unwrap() == archive, "{}", ran.err);
    assert!(!dir.join("a.aside-1").exists());
}

/// Renames the log, and begins a new one.
fn rotate(dir: &Path, to: &str, text: &str) {
    fs::rename(dir.join("gateway.log"), dir.join(to)).unwrap();
    fs::write(dir.join("gateway.log"), text).unwrap();
}

#[test]
fn the_log_was_rotated() {
    let lines = lines(3_000, 45);
    let whole = folder("journal_rotated_whole");
    run(KEPT, &whole, lines.concat().as_bytes()).with(0);
    for (name, rotated) in [("number", ["gateway.log.2", "gateway.log.1"]), ("date", ["gateway.log-20260116", "gateway.log-20260117"])] {
        let dir = folder(&format!("journal_rotated_{name}"));
        fs::write(dir.join("gateway.log"), lines[..1_000].concat()).unwrap();
        run(LOGGED, &dir, b"").with(0);
        // More lines came before it was rotated; and it was rotated once more.
        OpenOptions::new().append(true).open(dir.join("gateway.log")).unwrap().write_all(lines[1_000..1_500].concat().as_bytes()).unwrap();
        rotate(&dir, rotated[0], &lines[1_500..2_000].concat());
        sleep(Duration::from_millis(20));
        rotate(&dir, rotated[1], &lines[2_000..].concat());
        run(LOGGED, &dir, b"").with(0).says(&format!("continuing with ./{}", rotated[1])).says("continuing with gateway.log");
        assert!(listed(&dir, "a") == listed(&whole, "a"), "{name}");
    }
}

/// Checks that it is refused with status 3 and a message, and that no file is changed.
#[track_caller]
fn is_refused(dir: &Path, words: &str, input: &[u8], says: &str) {
    let files = || ["s", "a"].map(|name| fs::read(dir.join(name)).unwrap());
    let before = files();
    run(words, dir, input).with(3).says(says).says("Nothing was changed");
    assert!(files() == before);
}

#[test]
fn a_log_that_is_not_the_one_that_was_taken() {
    let (dir, lines) = (folder("journal_other_log"), lines(2_000, 46));
    fs::write(dir.join("gateway.log"), lines[..1_000].concat()).unwrap();
    run(LOGGED, &dir, b"").with(0);
    let taken = lines[..1_000].concat().len();
    // Cut, as copytruncate does; cut and grown again; missing.
    let file = OpenOptions::new().write(true).open(dir.join("gateway.log")).unwrap();
    fs::copy(dir.join("gateway.log"), dir.join("gateway.log.1")).unwrap();
    file.set_len(0).unwrap();
    is_refused(&dir, LOGGED, b"", &format!("gateway.log was cut to 0 bytes, but {taken} were read before"));
    fs::write(dir.join("gateway.log"), lines[900..].concat()).unwrap();
    is_refused(&dir, LOGGED, b"", "gateway.log is not the log that was read before: it differs at byte");
    fs::remove_file(dir.join("gateway.log")).unwrap();
    fs::remove_file(dir.join("gateway.log.1")).unwrap();
    fs::write(dir.join("gateway.log"), lines[1_000..].concat()).unwrap();
    is_refused(&dir, LOGGED, b"", "--adopt-log");
    run(&format!("{LOGGED} --adopt-log"), &dir, b"").with(0).says("1000 lines taken");
    let whole = folder("journal_other_log_whole");
    run(KEPT, &whole, lines.concat().as_bytes()).with(0);
    assert!(listed(&dir, "a") == listed(&whole, "a"));
}

#[test]
fn lines_of_a_feed_do_not_move_the_place_in_the_log() {
    let (dir, lines) = (folder("journal_beside"), lines(400, 57));
    fs::write(dir.join("gateway.log"), lines[..200].concat()).unwrap();
    run(LOGGED, &dir, b"").with(0);
    run(KEPT, &dir, b"").with(0);
    run(KEPT, &dir, lines[200..300].concat().as_bytes()).with(0);
    rotate(&dir, "gateway.log.1", &lines[300..].concat());
    run(LOGGED, &dir, b"").with(0).says("300 lines taken").says("continuing with gateway.log");
    let whole = folder("journal_beside_whole");
    run(KEPT, &whole, lines.concat().as_bytes()).with(0);
    assert!(listed(&dir, "a") == listed(&whole, "a"));
}

#[test]
fn a_copy_of_the_log_is_as_good() {
    let (dir, lines) = (folder("journal_copy"), lines(500, 47));
    fs::write(dir.join("gateway.log"), lines[..300].concat()).unwrap();
    run(LOGGED, &dir, b"").with(0);
    fs::rename(dir.join("gateway.log"), dir.join("away")).unwrap();
    fs::write(dir.join("gateway.log"), lines.concat()).unwrap();
    run(LOGGED, &dir, b"").with(0).says("300 lines taken");
    run(LOGGED, &dir, b"").with(0).says("500 lines taken");
}

#[test]
fn a_replayed_log_is_compared() {
    let (dir, lines) = (folder("journal_replay"), lines(1_500, 48));
    run(KEPT, &dir, lines[..1_000].concat().as_bytes()).with(0);
    // Parts of the log in another order, a log whose oldest part is missing, and one with another line.
    let swapped = [&lines[500..1_000], &lines[..500], &lines[1_000..]].concat().concat();
    let oldest_gone = lines[100..].concat();
    let mut other = lines.clone();
    other[999] = other[999].replacen('1', "2", 1);
    let first = lines[..999].concat().len() + lines[999].find('1').unwrap();
    for (log, says) in
        [(swapped, "differs at byte".to_string()), (oldest_gone, "differs at byte".into()), (other.concat(), format!("differs at byte {first}."))]
    {
        is_refused(&dir, &format!("{KEPT} --replay"), log.as_bytes(), &says);
    }
    run(&format!("{KEPT} --replay"), &dir, lines.concat().as_bytes()).with(0).says("1000 lines taken, which are skipped");
}

#[test]
fn a_state_of_version_1_goes_on() {
    let (dir, lines) = (folder("journal_version_1"), lines(600, 49));
    run(KEPT, &dir, lines[..300].concat().as_bytes()).with(0);
    let mut bytes = fs::read(dir.join("s")).unwrap()[..3_584].to_vec();
    bytes[7] = 1;
    bytes[296..511].fill(0);
    bytes[511] = crc8(&bytes[..511]);
    fs::write(dir.join("s"), bytes).unwrap();
    let copy = folder("journal_version_1_log");
    for name in ["s", "a"] {
        fs::copy(dir.join(name), copy.join(name)).unwrap();
    }
    run(&format!("{KEPT} --replay"), &dir, lines.concat().as_bytes()).with(0).says("the skipped lines were not compared");
    fs::write(copy.join("gateway.log"), lines.concat()).unwrap();
    run(LOGGED, &copy, b"").with(0).says("300 lines taken, which are skipped");
    assert!(listed(&dir, "a") == listed(&copy, "a"));
    run(LOGGED, &copy, b"").with(0).says("600 lines taken");
    assert_eq!(fs::read(copy.join("s")).unwrap().len(), 4_096);
}

/// As in document 01: x^8 + x^2 + x + 1, from 0.
fn crc8(bytes: &[u8]) -> u8 {
    bytes.iter().fold(0, |crc, byte| (0..8).fold(crc ^ byte, |c: u8, _| if c & 0x80 != 0 { c << 1 ^ 7 } else { c << 1 }))
}

fn wait_for(what: &str, is_there: impl Fn() -> bool) {
    let start = Instant::now();
    while !is_there() {
        assert!(start.elapsed() < Duration::from_secs(30), "{what} never came");
        sleep(Duration::from_millis(2));
    }
}

#[test]
fn a_log_is_followed_through_rotation() {
    let (dir, lines) = (folder("journal_follow"), lines(1_200, 50));
    fs::write(dir.join("gateway.log"), lines[..300].concat()).unwrap();
    let running = start(tool(&format!("{LOGGED} --follow --out rows.txt"), &dir));
    let rows = |count: usize| wait_for("a row", || fs::read_to_string(dir.join("rows.txt")).is_ok_and(|text| text.lines().count() == count));
    rows(300);
    let mut gateway = OpenOptions::new().append(true).open(dir.join("gateway.log")).unwrap();
    for line in &lines[300..320] {
        gateway.write_all(line.as_bytes()).unwrap();
    }
    rows(320);
    // Half a line is not taken; its end is written after the log was renamed.
    gateway.write_all(&lines[320].as_bytes()[..9]).unwrap();
    rotate(&dir, "gateway.log.1", "");
    sleep(Duration::from_millis(60));
    gateway.write_all(&lines[320].as_bytes()[9..]).unwrap();
    rows(321);
    fs::write(dir.join("gateway.log"), lines[321..].concat()).unwrap();
    rows(1_200);
    running.signal("TERM");
    running.end().with(0).says("continuing with gateway.log");
    let whole = folder("journal_follow_whole");
    let printed = run(KEPT, &whole, lines.concat().as_bytes()).with(0).out;
    assert!(printed.starts_with(&fs::read_to_string(dir.join("rows.txt")).unwrap()));
    assert!(listed(&dir, "a") == listed(&whole, "a"));
}

/// The times from a line's end in the log to its row on standard output, sorted.
fn delays(words: &str, dir: &Path) -> Vec<Duration> {
    fs::write(dir.join("gateway.log"), "1 D5090102030400E8\n").unwrap();
    let mut child = tool(words, dir).stdin(Stdio::null()).stdout(Stdio::piped()).stderr(Stdio::null()).spawn().unwrap();
    let mut rows = BufReader::new(child.stdout.take().unwrap()).lines();
    assert_eq!(rows.next().unwrap().unwrap(), "1 KEPT SEND D5090102030401E9");
    let mut gateway = OpenOptions::new().append(true).open(dir.join("gateway.log")).unwrap();
    let mut delays: Vec<Duration> = (1..=200)
        .map(|n| {
            sleep(Duration::from_millis(1 + n % 5)); // by then the collector waits
            let written = Instant::now();
            gateway.write_all(format!("{} D5090102030400E8\n", 1_000 * n).as_bytes()).unwrap();
            assert_eq!(rows.next().unwrap().unwrap(), format!("{} KEPT SEND D5090102030401E9", 1_000 * n));
            written.elapsed()
        })
        .collect();
    child.kill().unwrap();
    child.wait().unwrap();
    delays.sort();
    delays
}

/// The collector is woken when the log grows. One that checks it every 20 ms takes more than 15 ms here.
#[test]
fn a_line_is_out_soon() {
    let without = delays("collect --level 1 --log gateway.log --follow", &folder("journal_soon"))[100];
    assert!(without < Duration::from_millis(10), "{without:?} at the median");
    // Here it waits for the disk as well.
    let kept = delays(&format!("{LOGGED} --follow"), &folder("journal_soon_kept"))[100];
    assert!(kept < Duration::from_millis(500), "{kept:?} at the median");
    println!("a line is out after {without:?} at the median, with state and archive after {kept:?}");
}

#[test]
fn rows_stand_in_the_out_file_once() {
    let (dir, log) = (folder("journal_out"), log(20_000, 52));
    let whole = folder("journal_out_whole");
    let words = "collect --state s --archive a --out rows.txt --replay";
    run(words, &whole, log.as_bytes()).with(0);
    let expected = fs::read_to_string(whole.join("rows.txt")).unwrap();
    assert_eq!(expected.lines().count(), 19_999);
    let mut random = Random(9);
    loop {
        let mut running = start(tool(words, &dir));
        let feeder = feed(&mut running, &log, random.next(), true);
        sleep(Duration::from_micros(random.below(80_000)));
        let _ = running.child.kill();
        let ran = running.end();
        feeder.join().unwrap();
        assert_eq!(ran.out, "");
        if ran.status == Some(0) {
            break;
        }
    }
    assert!(fs::read_to_string(dir.join("rows.txt")).unwrap() == expected);
    // Rows that the state does not count are cut off; a file that is too short is refused.
    OpenOptions::new().append(true).open(dir.join("rows.txt")).unwrap().write_all(b"1767226157845 KEP").unwrap();
    run(words, &dir, log.as_bytes()).with(0).says("rows.txt: the last 17 bytes are cut, because the state does not count them");
    assert!(!run(words, &dir, log.as_bytes()).with(0).err.contains("are cut"));
    assert!(fs::read_to_string(dir.join("rows.txt")).unwrap() == expected);
    OpenOptions::new().write(true).open(dir.join("rows.txt")).unwrap().set_len(10).unwrap();
    is_refused(&dir, words, log.as_bytes(), "rows.txt has 10 bytes, but the state has written");
    // After the file was moved away, a new one begins.
    fs::rename(dir.join("rows.txt"), dir.join("rows.1")).unwrap();
    run(words, &dir, log.as_bytes()).with(0);
    assert_eq!(fs::read(dir.join("rows.txt")).unwrap(), b"");
}

#[test]
fn closings_stand_in_the_heard_file_once() {
    let (dir, log) = (folder("journal_heard"), log(20_000, 53));
    let whole = folder("journal_heard_whole");
    let words = "collect --state s --archive a --heard heard.csv --replay";
    run(words, &whole, log.as_bytes()).with(0);
    let expected = fs::read_to_string(whole.join("heard.csv")).unwrap();
    let closed = expected.lines().count() - 1;
    assert!(expected.starts_with("opened,txid,level,copies,interrupted\n") && closed > 1_000);
    let mut random = Random(10);
    loop {
        let mut running = start(tool(words, &dir));
        let feeder = feed(&mut running, &log, random.next(), true);
        sleep(Duration::from_micros(random.below(80_000)));
        let _ = running.child.kill();
        let ran = running.end();
        feeder.join().unwrap();
        if ran.status == Some(0) {
            break;
        }
    }
    assert!(fs::read_to_string(dir.join("heard.csv")).unwrap() == expected);
    // Lines of telegrams that the state has not closed, and an incomplete line, are cut off.
    let latest = u64::MAX - 5;
    for behind in ["1767226157845,010203".to_string(), format!("{latest},01020304,0,0,0\n"), format!("{latest},01020304,0,0,0\n\0\0\0\n17")] {
        OpenOptions::new().append(true).open(dir.join("heard.csv")).unwrap().write_all(behind.as_bytes()).unwrap();
        let says = format!("heard.csv: the last {} bytes are cut, because the state does not count them", behind.len());
        run(words, &dir, log.as_bytes()).with(0).says(&says);
        assert!(fs::read_to_string(dir.join("heard.csv")).unwrap() == expected, "{behind:?}");
    }
    // Another file is refused, and is unchanged.
    fs::rename(dir.join("heard.csv"), dir.join("heard.1")).unwrap();
    let diary = "dear diary\n".repeat(9);
    fs::write(dir.join("heard.csv"), &diary).unwrap();
    is_refused(&dir, words, log.as_bytes(), "heard.csv: not the file that this state has written");
    assert!(fs::read_to_string(dir.join("heard.csv")).unwrap() == diary);
    // After the file was moved away, a new one begins; also after that of another collector, which is kept.
    fs::remove_file(dir.join("heard.csv")).unwrap();
    run(words, &dir, log.as_bytes()).with(0);
    assert_eq!(fs::read(dir.join("heard.csv")).unwrap(), b"opened,txid,level,copies,interrupted\n");
    fs::write(dir.join("heard.csv"), &expected).unwrap();
    run(&format!("{words} --new-state --adopt-archive"), &dir, log.as_bytes()).with(0).says("is kept as heard.csv.aside-1");
    assert!([("heard.csv"), ("heard.csv.aside-1")].iter().all(|name| fs::read_to_string(dir.join(name)).unwrap() == expected));
}

/// Telegrams that were open while nobody listened to a feed are marked; with a log nothing is missed.
#[test]
fn interrupted_telegrams_are_marked() {
    let dir = folder("journal_interrupted");
    let feed = "collect --level 0 --state s --heard heard.csv";
    let heard = || fs::read_to_string(dir.join("heard.csv")).unwrap().lines().skip(1).map(String::from).collect::<Vec<_>>();
    run(feed, &dir, b"1000 D5090102030400E8\n1012 D5090102030401E9\n1200 D5090102030400E8\n").with(0);
    assert_eq!(heard(), ["1000,01020304,0,1,0"]);
    run(feed, &dir, b"1210 D5090102030401E9\n1400 D5090102030400E8\n1600 D5090102030400E8\n").with(0);
    assert_eq!(heard()[1..], ["1200,01020304,0,1,1", "1400,01020304,0,0,0"]);
    run("collect --level 0 --state u --heard first.csv", &dir, b"0 D5090102030400E8\n200 D5090102030400E8\n").with(0);
    assert!(fs::read_to_string(dir.join("first.csv")).unwrap().ends_with("\n0,01020304,0,0,0\n"));
    let log = "level 0\n1000 D5090102030400E8\n1012 D5090102030401E9\n1200 D5090102030400E8\n";
    let replay = "collect --state t --heard log.csv --replay";
    run(replay, &dir, log.as_bytes()).with(0);
    run(replay, &dir, format!("{log}1400 D5090102030400E8\n").as_bytes()).with(0);
    let closed = fs::read_to_string(dir.join("log.csv")).unwrap();
    assert!(closed.ends_with("\n1000,01020304,0,1,0\n1200,01020304,0,0,0\n"), "{closed}");
    // Rows of a batch that did not end are taken in, without their copies.
    let (dir, lines) = (folder("journal_heard_taken_in"), lines(2_000, 54));
    let words = format!("{KEPT} --heard heard.csv");
    run(&words, &dir, lines[..1_000].concat().as_bytes()).with(0);
    let state = fs::read(dir.join("s")).unwrap();
    let first = fs::read_to_string(dir.join("heard.csv")).unwrap();
    run(&words, &dir, lines[1_000..].concat().as_bytes()).with(0);
    let before = fs::read_to_string(dir.join("heard.csv")).unwrap();
    fs::write(dir.join("s"), state).unwrap();
    run(&words, &dir, b"").with(0).says("are counted now");
    let after = fs::read_to_string(dir.join("heard.csv")).unwrap();
    let taken_in = after.strip_prefix(&first).expect("lines that count stay");
    assert!(taken_in.lines().count() > 100 && taken_in.lines().all(|l| l.ends_with(",1")), "{taken_in}");
    let opened = |text: &str| text.lines().map(|l| l.rsplitn(3, ',').nth(2).unwrap().to_string()).collect::<Vec<_>>();
    let (before, after) = (opened(&before), opened(&after));
    assert!(after.len() > 100 && before.starts_with(&after), "the same telegrams close, each once");
}

#[test]
fn an_out_file_that_is_rotated() {
    let dir = folder("journal_out_rotated");
    let mut running = start(tool("collect --level 0 --state s --out rows.csv --rows csv", &dir));
    let mut stdin = running.child.stdin.take().unwrap();
    let row = |name: &str, text: &str| wait_for(text, || fs::read_to_string(dir.join(name)).is_ok_and(|t| t.ends_with(text)));
    stdin.write_all(b"1000 D5090102030400E8\n").unwrap();
    row("rows.csv", "1000,KEPT,,D5090102030400E8,,01020304,D5,0\n");
    fs::rename(dir.join("rows.csv"), dir.join("rows.old")).unwrap();
    stdin.write_all(b"1200 D5090102030400E8\n").unwrap();
    row("rows.csv", "1200,KEPT,,D5090102030400E8,,01020304,D5,0\n");
    drop(stdin);
    running.end().with(0).says("rows go to a new file");
    assert!(fs::read_to_string(dir.join("rows.csv")).unwrap().starts_with("time,"));
    assert_eq!(fs::read_to_string(dir.join("rows.old")).unwrap().lines().count(), 2);
}

/// A file has rows of only one format.
#[test]
fn an_out_file_of_another_format() {
    let dir = folder("journal_out_format");
    for (format, other) in [("text", "csv"), ("csv", "json"), ("json", "text")] {
        let words = |rows: &str| format!("collect --state {format}.state --out {format}.rows --rows {rows}");
        run(&words(format), &dir, &sample()).with(0);
        let before = fs::read(dir.join(format!("{format}.rows"))).unwrap();
        let text = format!("{format}.rows does not start as a file of `--rows {other}` does. Name another file.");
        run(&words(other), &dir, b"level 1\n70000 D5080583A1C000C6\n").with(2).says(&text);
        assert_eq!(fs::read(dir.join(format!("{format}.rows"))).unwrap(), before);
        run(&words(format), &dir, b"level 1\n70000 D5080583A1C000C6\n").with(0);
        assert!(fs::read(dir.join(format!("{format}.rows"))).unwrap().len() > before.len());
    }
}

/// Messages on the file of `--heard` do not speak of rows or of `--out`.
#[test]
fn words_for_the_heard_file() {
    let dir = folder("journal_heard_words");
    assert!(Command::new("mkfifo").arg(dir.join("pipe")).status().unwrap().success());
    run("collect --level 0 --state s --heard pipe", &dir, b"").with(2).says("--heard pipe: not a regular file\n");
    run("collect --level 0 --state s --out pipe", &dir, b"").with(2).says("--out pipe: not a regular file; rows for a pipe go to standard output");
    let mut running = start(tool("collect --level 0 --state s --heard heard.csv", &dir));
    let mut stdin = running.child.stdin.take().unwrap();
    stdin.write_all(b"1000 D5090102030400E8\n1200 D5090102030400E8\n").unwrap();
    wait_for("a line", || fs::read_to_string(dir.join("heard.csv")).is_ok_and(|t| t.ends_with("\n1000,01020304,0,0,0\n")));
    fs::rename(dir.join("heard.csv"), dir.join("heard.old")).unwrap();
    stdin.write_all(b"1400 D5090102030400E8\n").unwrap();
    drop(stdin);
    running.end().with(0).says("heard.csv was renamed or removed: lines of --heard go to a new file of that name");
    assert_eq!(fs::read_to_string(dir.join("heard.csv")).unwrap(), "opened,txid,level,copies,interrupted\n1200,01020304,0,0,0\n");
}

/// A collector that has taken a line, with its input.
fn taken_one(dir: &Path) -> (Running, std::process::ChildStdin) {
    let mut running = start(tool("collect --level 0 --state s --archive a", dir));
    let mut stdin = running.child.stdin.take().unwrap();
    stdin.write_all(b"1000 D5090102030400E8\n").unwrap();
    wait_for("the state", || fs::read(dir.join("s")).is_ok_and(|s| s.len() > 15 && s[15] == 1));
    (running, stdin)
}

#[test]
fn an_archive_that_is_touched_meanwhile_is_noticed() {
    for (name, says) in
        [("removed", "was removed or renamed"), ("replaced", "was replaced by another file"), ("cut", "bytes while it was being written")]
    {
        let dir = folder(&format!("journal_{name}"));
        let (running, mut stdin) = taken_one(&dir);
        match name {
            "removed" => fs::remove_file(dir.join("a")).unwrap(),
            "replaced" => {
                fs::copy(dir.join("a"), dir.join("b")).unwrap();
                fs::rename(dir.join("b"), dir.join("a")).unwrap();
            }
            _ => OpenOptions::new().write(true).open(dir.join("a")).unwrap().set_len(512).unwrap(),
        }
        stdin.write_all(b"1200 D5090102030400E8\n").unwrap();
        drop(stdin);
        let ran = running.end().with(3).says(says);
        assert_eq!(ran.out, "1000 KEPT\n", "a row that is not kept is not printed");
    }
}

#[test]
fn a_full_file_may_be_moved_away() {
    let dir = folder("journal_moved");
    let words = "collect --level 1 --state s --archive a-##.arc --blocks 2";
    let lines = lines(400, 53);
    // As many lines as fill a file: the state ends with its last row.
    let rows = |upto: usize| {
        let dir = folder("journal_moved_try");
        run(KEPT, &dir, lines[..upto].concat().as_bytes()).with(0);
        listed(&dir, "a").len()
    };
    let full = (1..400).find(|n| rows(*n) == 30).unwrap();
    run(words, &dir, lines[..full].concat().as_bytes()).with(0).says("RECEIVED");
    fs::rename(dir.join("a-00.arc"), dir.join("packed")).unwrap();
    run(words, &dir, lines[full..].concat().as_bytes()).with(0).says("a-00.arc is full and was moved away");
    let whole = folder("journal_moved_whole");
    run(KEPT, &whole, lines.concat().as_bytes()).with(0);
    fs::rename(dir.join("packed"), dir.join("a-00.arc")).unwrap();
    let names: Vec<String> = (0..).map(|n| format!("a-{n:02}.arc")).take_while(|name| dir.join(name).exists()).collect();
    assert!(listed(&dir, &names.join(" ")) == listed(&whole, "a"));
}

/// What a power cut can leave of a numbered archive that was just begun: a file of any length, with nothing, with anything, or with some of its
/// blocks.
#[test]
fn numbered_files_after_a_power_cut() {
    let lines = lines(400, 54);
    let words = "collect --state s --archive a-##.arc --blocks 2 --replay --level 1";
    let whole = folder("journal_power_whole");
    run(words, &whole, lines.concat().as_bytes()).with(0);
    let mut random = Random(5);
    for cut in 0..114 {
        let dir = folder("journal_power");
        let upto = 1 + random.below(390) as usize;
        run(words, &dir, lines[..upto].concat().as_bytes()).with(0);
        let last = (0..).take_while(|n| dir.join(format!("a-{n:02}.arc")).exists()).last().unwrap();
        let next = fs::read(whole.join(format!("a-{:02}.arc", last + 1))).unwrap_or(vec![0; 1024]);
        let file = dir.join(format!("a-{:02}.arc", last + 1));
        match cut % 4 {
            0 => fs::write(file, b"").unwrap(),
            1 => fs::write(file, &next[..random.below(1 + next.len() as u64) as usize]).unwrap(),
            2 => fs::write(file, (0..1024).map(|_| random.next() as u8).collect::<Vec<_>>()).unwrap(),
            _ => fs::write(file, [&[0; 512], &next[512..]].concat()).unwrap(),
        }
        let ran = run(words, &dir, lines.concat().as_bytes()).with(0);
        for n in 0.. {
            let name = format!("a-{n:02}.arc");
            let (Ok(one), two) = (fs::read(whole.join(&name)), fs::read(dir.join(&name)).unwrap_or_default()) else { break };
            assert!(one == two, "cut {cut}: {name}: {}", ran.err);
        }
    }
}

#[test]
fn blocks_behind_an_unfinished_write_are_copied() {
    let (dir, lines) = (folder("journal_torn"), lines(500, 55));
    run(KEPT, &dir, lines[..100].concat().as_bytes()).with(0);
    let state = fs::read(dir.join("s")).unwrap();
    let counted = listed(&dir, "a").len();
    run(KEPT, &dir, lines[100..].concat().as_bytes()).with(0);
    fs::write(dir.join("s"), state).unwrap();
    let mut bytes = fs::read(dir.join("a")).unwrap();
    bytes[512 * (counted / 15 + 2) + 100] ^= 1; // the second block after the counted ones
    fs::write(dir.join("a"), &bytes).unwrap();
    run(&format!("{KEPT} --replay"), &dir, lines.concat().as_bytes()).with(0).says("were copied to a.torn-1").says("were cleared");
    assert!(run("archive salvage a.torn-1 saved", &dir, b"").with(0).out.contains("1 blocks dropped"));
    let whole = folder("journal_torn_whole");
    run(KEPT, &whole, lines.concat().as_bytes()).with(0);
    assert!(listed(&dir, "a") == listed(&whole, "a"));
}

#[test]
fn a_time_that_is_far_ahead_is_told() {
    let dir = folder("journal_ahead");
    let ran = run("collect --level 0", &dir, b"1000 D5090102030400E8\n86401001 D5090102030400E8\n86401002 00\n").with(0);
    ran.says("a line has the time 86401001, more than a day after the one before it, 1000");
    assert!(!run("collect --level 0", &dir, b"1767226157845 D5090102030400E8\n").with(0).err.contains("more than a day"));
    assert!(!run("collect --level 0", &dir, b"1000 D5090102030400E8\n86401000 D5090102030400E8\n").with(0).err.contains("more than a day"));
}

#[test]
fn names_and_words_of_options() {
    let dir = folder("journal_names");
    for words in ["collect --follow", "collect --adopt-log", "collect --out o", "collect --new-state", "collect --adopt-archive"] {
        run(words, &dir, b"").with(2);
    }
    run("collect --state s --log l --replay", &dir, b"").with(2).says("--replay is for standard input");
    run("collect --state s --out s", &dir, b"").with(2);
    run("collect --level 1 --log none", &dir, b"").with(1).says("cannot open none: No such file");
    assert_eq!(fs::read_dir(&dir).unwrap().count(), 0);
}

fn is_root() -> bool {
    fs::metadata("/proc/self").unwrap().uid() == 0
}

/// The tool as a user who is stopped by permissions: `nobody`, if the tests run as root.
fn as_a_user(words: &str, dir: &Path) -> Ran {
    if !is_root() {
        return run(words, dir, b"");
    }
    // A copy, because `nobody` cannot open every folder.
    let program = dir.join("mooringeye");
    fs::copy(env!("CARGO_BIN_EXE_mooringeye"), &program).unwrap();
    let mut command = Command::new("setpriv");
    command.args(["--reuid=65534", "--regid=65534", "--clear-groups"]).arg(program).args(words.split_ascii_whitespace()).current_dir(dir);
    run_command(command, b"")
}

#[test]
fn a_lock_file_of_another_user() {
    let dir = std::env::temp_dir().join(format!("mooringeye-lock-{}", std::process::id()));
    fs::create_dir(&dir).unwrap();
    if is_root() {
        chown(&dir, Some(65_534), Some(65_534)).unwrap();
    }
    let lock = dir.join("s.lock");
    fs::write(&lock, "").unwrap();
    let mode = |mode| fs::set_permissions(&lock, fs::Permissions::from_mode(mode)).unwrap();
    mode(0o444);
    as_a_user("collect --level 1 --state s", &dir).with(0);
    mode(0o000);
    as_a_user("collect --level 1 --state s", &dir).with(1).says("cannot open the lock file s.lock").says("Change its owner");
    fs::remove_dir_all(&dir).unwrap();
}

/// The content of a pipe whose writer has ended.
fn rest_of(mut pipe: impl Read) -> String {
    let mut text = String::new();
    pipe.read_to_string(&mut text).unwrap();
    text
}

#[test]
fn a_stalled_reader_fuses_no_line() {
    let (dir, log) = (folder("journal_stalled"), log(30_000, 56));
    let whole = folder("journal_stalled_whole");
    let expected = run("collect --state s --archive a", &whole, log.as_bytes()).with(0).out;
    fs::write(dir.join("log"), &log).unwrap();
    // Nobody reads: the pipe is full long before the end, and the collector waits. A signal ends it after its reader had enough time.
    let mut child = tool("collect --state s --archive a", &dir)
        .stdin(File::open(dir.join("log")).unwrap())
        .stdout(Stdio::piped())
        .stderr(Stdio::null())
        .spawn()
        .unwrap();
    wait_for("a state with lines", || fs::read(dir.join("s")).is_ok_and(|s| s.get(14).is_some_and(|n| *n > 0)));
    sleep(Duration::from_millis(500));
    assert!(child.try_wait().unwrap().is_none(), "it waits for its reader");
    assert!(Command::new("kill").arg(child.id().to_string()).status().unwrap().success());
    assert_eq!(child.wait().unwrap().code(), Some(1));
    let first = rest_of(child.stdout.take().unwrap());
    assert!(first.ends_with('\n') && first.len() > 32_768 && expected.starts_with(&first), "whole rows, from the first on");
    // The rows that come after them, in the same file, are whole rows: some are missing, none is there twice and none is joined with another.
    let second = run("collect --state s --archive a --replay", &dir, log.as_bytes()).with(0).out;
    assert!(expected.ends_with(&second) && first.len() + second.len() < expected.len());
    assert!(listed(&dir, "a") == listed(&whole, "a"), "the archive has every row");
}

#[test]
fn a_stalled_reader_does_not_stop_the_out_file() {
    let (dir, log) = (folder("journal_stalled_out"), log(30_000, 58));
    // A full pipe: a write to it waits for ever.
    let (reader, mut writer) = std::io::pipe().unwrap();
    writer.write_all(&[b'x'; 65_536]).unwrap();
    fs::write(dir.join("log"), &log).unwrap();
    let mut command = tool("collect --state s --archive a --out rows.txt --quiet", &dir);
    let mut child = command.stdin(File::open(dir.join("log")).unwrap()).stdout(writer).spawn().unwrap();
    let started = Instant::now();
    while child.try_wait().unwrap().is_none() {
        assert!(started.elapsed() < Duration::from_secs(60), "it waits for a reader of rows that go to a file");
        sleep(Duration::from_millis(10));
    }
    assert!(child.wait().unwrap().success());
    drop(command);
    assert_eq!(fs::read_to_string(dir.join("rows.txt")).unwrap().lines().count(), 29_999);
    assert!(rest_of(reader).bytes().all(|c| c == b'x'));
}
