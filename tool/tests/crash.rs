//! A collector that is killed at random moments, meets a full disk or finds a torn block: at the end, state and archive are byte for byte those of an
//! undisturbed run, and every row that was printed is in the archive.
//!
//! MOORINGEYE_KILLS says how often it is killed; 20 if it is not set.
mod common;
use common::*;
use std::fs;
use std::path::{Path, PathBuf};
use std::thread::sleep;
use std::time::Duration;

/// A log, and the result of an undisturbed run.
struct Whole {
    log: String,
    dir: PathBuf,
    words: String,
    printed: Vec<String>,
}

impl Whole {
    fn of(name: &str, lines: usize, seed: u64, options: &str) -> Whole {
        let dir = folder(&format!("crash_{name}_whole"));
        let words = format!("collect --state s {options}");
        let log = log(lines, seed);
        let ran = run(&words, &dir, log.as_bytes()).with(0);
        Whole { printed: ran.out.lines().map(String::from).collect(), log, dir, words }
    }

    /// How many rows of the archive are among the first `printed` rows.
    fn stored(&self, printed: usize) -> usize {
        let is_stored = |row: &&String| matches!(row.split(' ').nth(1), Some("KEPT" | "LOOSE"));
        self.printed[..printed].iter().filter(is_stored).count()
    }

    fn files(dir: &Path) -> Vec<(String, Vec<u8>)> {
        let entries = fs::read_dir(dir).unwrap().map(|e| e.unwrap().path());
        let mut files: Vec<_> = entries.map(|p| (p.file_name().unwrap().to_str().unwrap().to_string(), fs::read(p).unwrap())).collect();
        files.sort();
        files
    }

    /// State and archives in another folder are byte for byte those of the undisturbed run.
    #[track_caller]
    fn is_same(&self, dir: &Path) {
        let (mine, other) = (Whole::files(&self.dir), Whole::files(dir));
        let names = |files: &[(String, Vec<u8>)]| files.iter().map(|f| f.0.clone()).collect::<Vec<_>>();
        assert_eq!(names(&mine), names(&other));
        for ((name, one), (_, two)) in mine.iter().zip(&other) {
            assert!(one == two, "{name} differs, from byte {:?} on", one.iter().zip(two).position(|(a, b)| a != b));
        }
    }

    /// What a disturbed run printed is what the undisturbed one prints, from the line of the state on. Returns up to which row.
    #[track_caller]
    fn printed_to(&self, ran: &Ran) -> usize {
        let Some(at) = ran.err.find(" lines taken") else {
            assert_eq!(ran.out, "");
            return 0;
        };
        let taken: usize = ran.err[..at].rsplit(' ').next().unwrap().parse().unwrap();
        // The first line has the level, and no row.
        let from = taken.saturating_sub(1);
        let rows: Vec<&str> = ran.out.split_inclusive('\n').filter(|row| row.ends_with('\n')).map(str::trim_end).collect();
        assert!(self.printed[from..].iter().zip(&rows).all(|(a, b)| a == b), "rows differ behind row {from}");
        from + rows.len()
    }

    /// Every row that a disturbed run printed is in the archive. Returns whether it found rows that its state did not count, 0 or 1.
    #[track_caller]
    fn survived(&self, dir: &Path, ran: &Ran) -> usize {
        self.has_rows(dir, self.stored(self.printed_to(ran)));
        usize::from(ran.err.contains("that the state does not count"))
    }

    /// The first rows of the archive of a disturbed run are those of the undisturbed one.
    #[track_caller]
    fn has_rows(&self, dir: &Path, rows: usize) {
        let mut left = rows;
        for (name, whole) in Whole::files(&self.dir).iter().filter(|f| f.0.starts_with('a')) {
            let other = fs::read(dir.join(name)).unwrap_or_default();
            let here = left.min((0..whole.len() / 512).map(|k| usize::from(whole[512 * k + 4])).sum());
            for i in 0..here {
                let at = 512 * (i / 15) + 24 + 32 * (i % 15);
                assert!(other.len() >= at + 32 && whole[at..at + 32] == other[at..at + 32], "row {i} of {name} was printed and is not there");
            }
            left -= here;
        }
        assert_eq!(left, 0);
    }
}

/// How often a run was killed, and how often the archive was then ahead of the state.
#[derive(Default)]
struct Count {
    kills: usize,
    ahead: usize,
}

/// Starts the tool again and again, and kills it at a random moment each time, until it was killed often enough or has ended.
fn killed(whole: &Whole, name: &str, kills: usize, seed: u64) -> Count {
    let dir = folder(&format!("crash_{name}"));
    let words = format!("{} --replay", whole.words);
    let mut random = Random(seed);
    let mut count = Count::default();
    loop {
        let mut running = start(tool(&words, &dir));
        let feeder = feed(&mut running, &whole.log, random.next(), true);
        if count.kills < kills {
            sleep(Duration::from_micros(random.below(60_000)));
            let _ = running.child.kill();
        }
        let ran = running.end();
        feeder.join().unwrap();
        count.ahead += whole.survived(&dir, &ran);
        if ran.status.is_some() {
            assert_eq!(ran.status, Some(0), "{}", ran.err);
            whole.is_same(&dir);
            return count;
        }
        count.kills += 1;
    }
}

fn kills() -> usize {
    std::env::var("MOORINGEYE_KILLS").map_or(20, |n| n.parse().unwrap())
}

/// Kills it this many times, over as many logs as necessary.
fn killed_in_all(name: &str, options: &str, lines: usize) {
    let (mut all, mut logs) = (Count::default(), 0);
    while all.kills < kills() {
        let whole = Whole::of(name, lines, logs, options);
        let more = killed(&whole, name, kills() - all.kills, 100 + logs);
        (all.kills, all.ahead) = (all.kills + more.kills, all.ahead + more.ahead);
        logs += 1;
    }
    println!("{name}: {} kills over {logs} logs of {lines} lines, after {} of them the archive was ahead of the state", all.kills, all.ahead);
    assert!(all.kills < 100 || all.ahead > 0, "no kill came between archive and state");
}

#[test]
fn killed_in_batches() {
    killed_in_all("batch", "--archive a", 20_000);
}

#[test]
fn killed_row_by_row() {
    killed_in_all("row", "--archive a --sync row", 600);
}

#[test]
fn killed_while_files_are_rotated() {
    killed_in_all("rotation", "--archive a-###.arc --blocks 3", 8_000);
}

#[test]
fn killed_while_small_files_are_rotated() {
    killed_in_all("small", "--archive a-####.arc --blocks 2", 8_000);
}

/// Rows in the archive, as `archive list` prints them.
fn listed(dir: &Path) -> String {
    run("archive list a", dir, b"").with(0).out
}

/// A feed that cannot be read again: what was in the archive at a kill stays there, and it includes what was printed.
#[test]
fn killed_without_a_log() {
    let (mut random, mut kills_done, mut taken_in) = (Random(55), 0, 0);
    let lines: Vec<String> = log(400_000, 21).lines().skip(1).map(String::from).collect();
    let dir = folder("crash_live");
    let (mut at, mut printed) = (0, 0);
    while kills_done < kills() && at + 6_000 < lines.len() {
        let before = if dir.join("a").exists() { listed(&dir) } else { String::new() };
        let part = lines[at..at + 6_000].join("\n") + "\n";
        at += 6_000;
        let mut running = start(tool("collect --level 1 --state s --archive a", &dir));
        let feeder = feed(&mut running, &part, random.next(), false);
        sleep(Duration::from_micros(random.below(60_000)));
        let _ = running.child.kill();
        let ran = running.end();
        drop(feeder.join().unwrap());
        let after = if dir.join("a").exists() { listed(&dir) } else { String::new() };
        assert!(after.starts_with(&before), "rows that stood there are gone");
        printed += ran.out.split_inclusive('\n').filter(|row| row.ends_with('\n') && (row.contains(" KEPT") || row.contains(" LOOSE"))).count();
        assert!(after.lines().count() >= printed, "a printed row is not there");
        taken_in += usize::from(ran.err.contains("are counted now"));
        kills_done += 1;
    }
    let before = listed(&dir);
    run("collect --level 1 --state s --archive a", &dir, b"").with(0);
    assert!(listed(&dir) == before);
    assert!(!dir.join("a.aside-1").exists(), "all leftovers were taken in");
    println!("live: {kills_done} kills, after {taken_in} of them rows were taken in");
    assert!(kills_done < 100 || taken_in > 0, "no kill came between archive and state");
}

/// Renames the log and the rotated ones, and begins a new one.
fn rotate(dir: &Path, text: &str) {
    for n in (1..9).rev() {
        let _ = fs::rename(dir.join(format!("gateway.log.{n}")), dir.join(format!("gateway.log.{}", n + 1)));
    }
    fs::rename(dir.join("gateway.log"), dir.join("gateway.log.1")).unwrap();
    fs::write(dir.join("gateway.log"), text).unwrap();
}

/// A log that is followed, rotated this often while the tool is down, and rotated while it runs.
fn killed_while_the_log_is_rotated(name: &str, rotations: usize) {
    let whole = Whole::of(name, 9_000, 31, "--archive a");
    let dir = folder(&format!("crash_{name}"));
    let lines: Vec<&str> = whole.log.split_inclusive('\n').collect();
    let mut parts = lines.chunks(9_000 / 8).map(|part| part.concat());
    fs::write(dir.join("gateway.log"), parts.next().unwrap()).unwrap();
    let mut random = Random(name.len() as u64);
    let words = "collect --level 1 --state s --archive a --log gateway.log";
    'all: loop {
        let mut running = start(tool(&format!("{words} --follow"), &dir));
        while !dir.join("s").exists() {
            sleep(Duration::from_millis(1)); // a collector without a position begins with the log that is there
        }
        sleep(Duration::from_micros(random.below(60_000)));
        if let Some(text) = if random.below(2) == 0 { parts.next() } else { None } {
            rotate(&dir, &text);
            sleep(Duration::from_micros(random.below(60_000)));
        }
        let _ = running.child.kill();
        let ran = running.end();
        assert!(!ran.err.contains("differs"), "{}", ran.err);
        for _ in 0..rotations {
            let Some(text) = parts.next() else { break 'all };
            rotate(&dir, &text);
        }
    }
    let ran = run(words, &dir, b"").with(0);
    assert!(!dir.join("a.aside-1").exists(), "{}", ran.err);
    assert!(fs::read(dir.join("a")).unwrap() == fs::read(whole.dir.join("a")).unwrap());
    let (mine, other) = (fs::read(dir.join("s")).unwrap(), fs::read(whole.dir.join("s")).unwrap());
    // All except the position in the log: lines, archive, its last block, and the image.
    assert!(mine[..296] == other[..296] && mine[512..3_584] == other[512..3_584]);
}

#[test]
fn the_log_rotated_while_down() {
    killed_while_the_log_is_rotated("log", 1);
}

#[test]
fn the_log_rotated_twice_while_down() {
    killed_while_the_log_is_rotated("log_twice", 2);
}

#[test]
fn a_full_disk() {
    let whole = Whole::of("full", 60_000, 11, "--archive a");
    let length = fs::metadata(whole.dir.join("a")).unwrap().len();
    assert!(length > 1 << 20, "the archive has to grow twice");
    let dir = folder("crash_full");
    // No room for the archive, or only for its first part: then it fails when the file has to grow.
    for (limit, words) in [(1_000, "cannot write"), (500_000, "cannot write a: File too large"), (1_500_000, "cannot write a: File too large")] {
        let words_of_tool = format!("{} --replay", whole.words);
        let mut running = start(limited(&format!("--fsize={limit}"), &words_of_tool, &dir));
        let feeder = feed(&mut running, &whole.log, limit, true);
        let ran = running.end().with(1).says(words).says("File too large");
        feeder.join().unwrap();
        whole.survived(&dir, &ran);
    }
    run(&format!("{} --replay", whole.words), &dir, whole.log.as_bytes()).with(0);
    whole.is_same(&dir);
}

/// A limit of the file size inside a block stops its write there. Returns whether the block was left torn, and whether it was mended.
fn torn_at(whole: &Whole, dir: &Path, at: usize) -> (bool, bool) {
    let words = format!("{} --replay", whole.words);
    let mut running = start(limited(&format!("--fsize={at}"), &words, dir));
    let feeder = feed(&mut running, &whole.log, at as u64, true);
    let ran = running.end().with(1).says("cannot write a: File too large");
    feeder.join().unwrap();
    let is_torn = run("archive verify a", dir, b"").status == Some(3);
    let rows = whole.stored(whole.printed_to(&ran));
    let again = run(&words, dir, whole.log.as_bytes()).with(0);
    whole.has_rows(dir, rows);
    whole.is_same(dir);
    (is_torn, again.err.contains("was torn. It was repaired"))
}

#[test]
fn a_write_that_stops_in_a_new_block() {
    let whole = Whole::of("torn_new", 3_000, 12, "--archive a");
    for i in 0..20 {
        let dir = folder("crash_torn_new");
        // The file already has its final length, so the limit stops a write and not its growth.
        fs::write(dir.join("a"), vec![0; 1 << 20]).unwrap();
        let (is_torn, is_mended) = torn_at(&whole, &dir, 512 * (20 + i) + 7 + 24 * i);
        assert!(is_torn && !is_mended, "no row of it is counted");
    }
}

#[test]
fn a_write_that_stops_in_a_block_with_counted_rows() {
    let whole = Whole::of("torn_counted", 3_000, 16, "--archive a");
    let mut mended = 0;
    for i in 0..20 {
        let dir = folder("crash_torn_counted");
        let cut = whole.log.match_indices('\n').nth(400 + 61 * i).unwrap().0 + 1;
        run(&whole.words, &dir, &whole.log.as_bytes()[..cut]).with(0);
        let rows: usize = fs::read(dir.join("a")).unwrap().chunks(512).map(|b| usize::from(b[4])).sum();
        if rows.is_multiple_of(15) {
            continue; // the next row begins a block
        }
        let (is_torn, is_mended) = torn_at(&whole, &dir, 512 * (rows / 15) + 7 + 24 * i);
        assert_eq!(is_torn, is_mended, "what is torn is mended");
        mended += usize::from(is_mended);
    }
    println!("torn: {mended} blocks with counted rows mended");
    assert!(mended > 10, "{mended} blocks with counted rows were torn and mended");
}

#[test]
fn a_block_that_a_power_cut_spoiled() {
    let whole = Whole::of("power", 3_000, 13, "--archive a");
    let words = format!("{} --replay", whole.words);
    let cut = whole.log.match_indices('\n').nth(1_200).unwrap().0 + 1;
    let mut random = Random(77);
    for _ in 0..20 {
        let dir = folder("crash_power");
        run(&whole.words, &dir, &whole.log.as_bytes()[..cut]).with(0);
        let mut bytes = fs::read(dir.join("a")).unwrap();
        let rows: usize = bytes.chunks(512).map(|b| usize::from(b[4])).sum();
        // The block with the last row, and the blocks after it, have any content.
        let last = 512 * ((rows - 1) / 15);
        let from = last + random.below(512) as usize;
        let to = from + 1 + random.below(3_000) as usize;
        bytes[from..to].iter_mut().for_each(|b| *b = random.next() as u8);
        fs::write(dir.join("a"), &bytes).unwrap();
        let ran = run(&words, &dir, whole.log.as_bytes()).with(0);
        assert!(ran.err.contains("repaired") || ran.err.contains("cleared"), "{}", ran.err);
        whole.is_same(&dir);
    }
}

/// A damaged state is refused and unchanged; after a new start from the log, with the archive moved away, everything is right.
#[test]
fn a_state_that_is_damaged() {
    let whole = Whole::of("state", 3_000, 14, "--archive a");
    let cut = whole.log.match_indices('\n').nth(1_700).unwrap().0 + 1;
    for damage in ["cut short", "flipped", "empty", "a folder"] {
        let dir = folder("crash_state");
        run(&whole.words, &dir, &whole.log.as_bytes()[..cut]).with(0);
        let (state, mut bytes) = (dir.join("s"), fs::read(dir.join("s")).unwrap());
        match damage {
            "cut short" => bytes.truncate(2_048),
            "flipped" => bytes[1_100] ^= 0x01,
            _ => bytes.clear(),
        }
        fs::remove_file(&state).unwrap();
        if damage == "a folder" {
            fs::create_dir(&state).unwrap();
        } else {
            fs::write(&state, &bytes).unwrap();
        }
        let archive = fs::read(dir.join("a")).unwrap();
        run(&format!("{} --replay", whole.words), &dir, whole.log.as_bytes()).with(3).says(if damage == "a folder" {
            "s: not a regular file"
        } else {
            "s: damaged"
        });
        assert!(state.is_dir() || fs::read(&state).unwrap() == bytes, "the state stays");
        assert!(fs::read(dir.join("a")).unwrap() == archive, "the archive stays");
        fs::remove_file(dir.join("a")).unwrap();
        if damage == "a folder" {
            fs::remove_dir(&state).unwrap();
            fs::write(&state, "").unwrap();
        }
        run(&format!("{} --new-state --replay", whole.words), &dir, whole.log.as_bytes()).with(0).says("kept as s.aside-1");
        fs::rename(dir.join("s.aside-1"), folder("crash_state_aside").join("s")).unwrap();
        whole.is_same(&dir);
    }
}
