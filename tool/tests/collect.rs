//! `mooringeye collect`: what it prints and how it ends.
mod common;
use common::*;
use std::fs;
use std::io::{Read, Write};
use std::os::unix::fs::PermissionsExt;
use std::path::Path;
use std::process::Stdio;
use std::thread::sleep;
use std::time::{Duration, Instant};

#[test]
fn prints_what_the_second_program_prints() {
    let dir = folder("sample");
    assert_eq!(run("collect", &dir, &sample()).with(0).out, sample_expected());
    assert_eq!(run("collect --level 1", &dir, &sample()).with(0).out, sample_expected());
    let ran = run("collect --state s --archive a --sync row", &dir, &sample()).with(0);
    assert_eq!(ran.out, sample_expected());
    let listed = run("archive list a", &dir, b"").with(0).out;
    assert_eq!(listed, kept_rows(&String::from_utf8(sample()).unwrap(), &sample_expected()));
}

#[test]
fn without_the_level_line() {
    let dir = folder("no_level_line");
    let log = sample();
    let rest = &log[b"level 1\n".len()..];
    assert_eq!(run("collect --level 1", &dir, rest).with(0).out, sample_expected());
    run("collect", &dir, rest).with(2).says("level");
    run("collect", &dir, b"").with(2).says("level");
    run("collect", &dir, b"level 3\n").with(2);
    run("collect", &dir, b"level 1\r\n").with(2).says("CR LF");
    run("collect --level 2", &dir, &log).with(2).says("level 1");
    assert_eq!(run("collect --level 0", &dir, b"").with(0).out, "RECEIVED 0 KEPT 0 COPIES 0 LOOSE 0 DAMAGED 0 LATE 0\n");
}

#[test]
fn csv_and_json() {
    let dir = folder("formats");
    let log = b"level 1\n1000 D5090102030400E8\n1012 d5090102030401e9\n1102 D5090102030400E7\n?\n1103 \n";
    let csv = run("collect --rows csv", &dir, log).with(0).out;
    assert_eq!(
        csv,
        "time,answer,refusal,telegram,send,txid,rorg,level\n1000,KEPT,,D5090102030400E8,D5090102030401E9,01020304,D5,0\n\
         1012,COPY,,D5090102030401E9,,01020304,D5,1\n1102,REFUSED,2,D5090102030400E7,,,,\n,BAD,,,,,,\n1103,REFUSED,1,,,,,\n"
    );
    let json = run("collect --rows json", &dir, log).with(0).out;
    let lines: Vec<&str> = json.lines().collect();
    let first = r#"{"time":1000,"answer":"KEPT","telegram":"D5090102030400E8","send":"D5090102030401E9","txid":"01020304","rorg":"D5","level":0}"#;
    assert_eq!(lines[0], first);
    assert_eq!(lines[2], r#"{"time":1102,"answer":"REFUSED","refusal":2,"telegram":"D5090102030400E7"}"#);
    assert_eq!((lines[3], lines.len()), (r#"{"answer":"BAD"}"#, 5));
}

#[test]
fn wrong_usage() {
    let dir = folder("usage");
    for words in [
        "",
        "other",
        "collect --level 3",
        "collect --level",
        "collect extra",
        "collect --rows xml",
        "collect --sync never",
        "collect --replay",
        "collect --fresh",
        "collect --begin",
        "collect --archive a#",
        "collect --archive a --blocks 3",
        "collect --blocks 3",
        "collect --archive a# --blocks 0",
        "collect --state s --state t",
        "collect --state s --archive s",
        "archive",
        "archive other",
        "archive verify",
        "archive list --from x a",
        "archive remove a",
        "plan",
        "read",
        "read 0",
    ] {
        run(words, &dir, b"").with(2);
    }
    for words in ["--help", "collect --help", "archive --help", "archive list --help", "plan --help", "site --help", "read --help", "build --help"] {
        assert!(run(words, &dir, b"").with(0).out.starts_with("usage: mooringeye"));
    }
    assert_eq!(fs::read_dir(&dir).unwrap().count(), 0, "wrong usage leaves nothing behind");
}

#[test]
fn unfinished_last_line() {
    let dir = folder("unfinished");
    let ran = run("collect --level 0 --state s", &dir, b"1000 D5090102030400E8\n1200 D509010203").with(0);
    assert_eq!(ran.out, "1000 KEPT\nRECEIVED 1 KEPT 1 COPIES 0 LOOSE 0 DAMAGED 0 LATE 0\n");
    ran.says("in the middle of line 2, which is not counted: 1200 D509010203");
    // The whole line comes with the log.
    let ran = run("collect --level 0 --state s --replay", &dir, b"1000 D5090102030400E8\n1200 D5090102030400E8\n").with(0);
    assert!(ran.out.starts_with("1200 KEPT\nRECEIVED 2"));
    ran.says("1 lines taken");
}

#[test]
fn carriage_returns_are_told_once() {
    let dir = folder("cr");
    let ran = run("collect --level 0", &dir, b"1 00\r\n2 00\r\n3 00\n").with(0);
    assert!(ran.out.starts_with("BAD\nBAD\n3 REFUSED 1\n"));
    assert_eq!(ran.err.matches("CR LF").count(), 1);
}

#[test]
fn long_lines_are_bad() {
    let dir = folder("long_lines");
    let mut input = b"1 ".to_vec();
    input.extend(vec![b'0'; 3_000_000]);
    input.extend(b"\n2 00\n\n");
    assert_eq!(run("collect --level 0", &dir, &input).with(0).out.lines().collect::<Vec<_>>()[..3], ["BAD", "2 REFUSED 1", "BAD"]);
}

/// Reads until there are this many lines.
fn lines_of(from: &mut impl Read, count: usize) -> String {
    let (mut all, mut byte) = (Vec::new(), [0]);
    while all.iter().filter(|c| **c == b'\n').count() < count {
        assert_eq!(from.read(&mut byte).unwrap(), 1, "{}", String::from_utf8_lossy(&all));
        all.push(byte[0]);
    }
    String::from_utf8(all).unwrap()
}

#[test]
fn a_row_is_out_as_soon_as_its_line_is_in() {
    let dir = folder("live");
    let mut child =
        tool("collect --level 0 --state s --archive a", &dir).stdin(Stdio::piped()).stdout(Stdio::piped()).stderr(Stdio::null()).spawn().unwrap();
    let (mut stdin, mut stdout) = (child.stdin.take().unwrap(), child.stdout.take().unwrap());
    for i in 0..20 {
        let time = 1000 + 200 * i;
        write!(stdin, "{time} D50901020304").unwrap();
        stdin.flush().unwrap();
        sleep(Duration::from_millis(2));
        stdin.write_all(b"00E8\n").unwrap();
        assert_eq!(lines_of(&mut stdout, 1), format!("{time} KEPT\n"));
        assert_eq!(run("archive list a", &dir, b"").with(0).out.lines().count(), i + 1, "a printed row stands in the archive");
    }
    drop(stdin);
    assert!(child.wait().unwrap().success());
}

#[test]
fn signals_end_it_in_order() {
    for name in ["TERM", "INT", "HUP"] {
        let dir = folder(&format!("signal_{name}"));
        let mut running = start(tool("collect --level 0 --state s --archive a", &dir));
        let mut stdin = running.child.stdin.take().unwrap();
        stdin.write_all(b"1000 D5090102030400E8\n1200 D50901").unwrap();
        wait_for(|| fs::read(dir.join("s")).is_ok_and(|s| s.len() > 15 && s[15] == 1));
        running.signal("USR1");
        sleep(Duration::from_millis(50));
        running.signal(name);
        let ran = running.end().with(0).says(&format!("SIG{name}")).says("in the middle of line 2").says("RECEIVED 1 KEPT 1");
        assert_eq!(ran.err.matches("RECEIVED 1").count(), 2, "on request and at the end: {}", ran.err);
        assert_eq!(ran.out, "1000 KEPT\n");
        run("collect --level 0 --state s --archive a", &dir, b"").with(0).says("1 lines taken").says("a has 1 rows");
    }
}

fn wait_for(is_there: impl Fn() -> bool) {
    let start = Instant::now();
    while !is_there() {
        assert!(start.elapsed() < Duration::from_secs(20), "it never came");
        sleep(Duration::from_millis(2));
    }
}

#[test]
fn a_signal_while_nobody_reads() {
    let dir = folder("nobody_reads");
    let mut child = tool("collect --level 0 --state s", &dir).stdin(Stdio::piped()).stdout(Stdio::piped()).stderr(Stdio::piped()).spawn().unwrap();
    let mut stdin = child.stdin.take().unwrap();
    let feeder = std::thread::spawn(move || {
        let _ = (0..).try_for_each(|i| writeln!(stdin, "{} D5090102030400E8", 200 * i));
        // until nobody takes it
    });
    // A pipe holds about 5,000 of these rows; then the state does not change any more.
    let taken = || fs::read(dir.join("s")).ok().and_then(|state| Some(u64::from_be_bytes(state.get(8..16)?.try_into().unwrap()))).unwrap_or(0);
    wait_for(|| {
        let before = taken();
        sleep(Duration::from_millis(300));
        before > 3_000 && taken() == before
    });
    let kill = std::process::Command::new("kill").arg(child.id().to_string()).status().unwrap();
    assert!(kill.success());
    let start = Instant::now();
    let _output = child.stdout.take();
    let out = child.wait_with_output().unwrap();
    feeder.join().unwrap();
    assert!(start.elapsed() < Duration::from_secs(15));
    let said = String::from_utf8(out.stderr).unwrap();
    assert!(out.status.code() == Some(1) && said.contains("nobody reads standard output"), "{said}");
    run("collect --level 0 --state s", &dir, b"").with(0);
}

#[test]
fn a_signal_at_any_moment() {
    let dir = folder("any_moment");
    let log = log(20_000, 5);
    let whole = run("collect --state whole --archive whole.arc", &dir, log.as_bytes()).with(0);
    let mut random = Random(9);
    let mut printed = String::new();
    for attempt in 0..=30 {
        let mut running = start(tool("collect --state s --archive a --replay", &dir));
        let is_last = attempt == 30;
        let feeder = feed(&mut running, &log, random.next(), is_last);
        if !is_last {
            sleep(Duration::from_micros(random.below(20_000)));
            running.signal(["TERM", "INT", "HUP"][attempt % 3]);
        }
        let ran = running.end();
        feeder.join().unwrap();
        // Before the handlers are set, a signal ends it at once; then nothing was taken.
        let is_in_order = ran.status == Some(0) && (is_last || ran.err.contains("stopped normally"));
        assert!(is_in_order || ran.status.is_none() && ran.out.is_empty(), "{}", ran.err);
        printed += &ran.out;
    }
    assert!(printed == whole.out, "an orderly end loses and repeats no row");
    assert!(fs::read(dir.join("a")).unwrap() == fs::read(dir.join("whole.arc")).unwrap());
}

#[test]
fn one_writer() {
    let dir = folder("two");
    let mut first = start(tool("collect --level 0 --state s --archive a", &dir));
    let mut stdin = first.child.stdin.take().unwrap();
    stdin.write_all(b"1000 D5090102030400E8\n").unwrap();
    wait_for(|| fs::read(dir.join("s")).is_ok_and(|s| s.len() > 15 && s[15] == 1));
    run("collect --level 0 --state s", &dir, b"").with(1).says("another process is writing s");
    run("collect --level 0 --archive a", &dir, b"").with(1).says("another process is writing a");
    run("collect --level 0 --state other --archive a", &dir, b"").with(1).says("another process is writing a");
    run("archive append a", &dir, b"").with(1).says("another process is writing a");
    run("archive remove a --txid 01020304", &dir, b"").with(1).says("another process is writing a");
    assert_eq!(run("archive list a", &dir, b"").with(0).out, "1000 KEPT D5090102030400E8\n");
    drop(stdin);
    first.end().with(0);
    run("collect --level 0 --state s --archive a", &dir, b"").with(0).says("1 lines taken");
}

#[test]
fn failing_inputs_and_outputs() {
    let dir = folder("failing");
    let with = |stdin: Stdio, stdout: Stdio, words: &str| {
        let out = tool(words, &dir).stdin(stdin).stdout(stdout).stderr(Stdio::piped()).spawn().unwrap().wait_with_output().unwrap();
        (out.status.code(), String::from_utf8(out.stderr).unwrap())
    };
    let sample = || Stdio::from(fs::File::open(root().join("samples/plant.txt")).unwrap());
    let full = || Stdio::from(fs::OpenOptions::new().write(true).open("/dev/full").unwrap());
    let (status, said) = with(Stdio::from(fs::File::open(&dir).unwrap()), Stdio::null(), "collect --level 0");
    assert_eq!((status, said.contains("cannot read standard input: Is a directory")), (Some(1), true), "{said}");
    let (status, said) = with(sample(), full(), "collect");
    assert_eq!((status, said.contains("cannot write standard output: No space left")), (Some(1), true), "{said}");
    for words in ["archive sheet a", "archive verify a", "archive list a", "plan standard 0 1000", "read D5090102030400E8", "--help"] {
        run("collect --archive a", &dir, &common::sample()).with(0);
        let (status, said) = with(Stdio::null(), full(), words);
        assert_eq!((status, said.contains("cannot write standard output")), (Some(1), true), "{words}: {said}");
    }
    // A reader that ends at once: more is printed than a pipe holds.
    fs::write(dir.join("log"), log(20_000, 8)).unwrap();
    let mut child =
        tool("collect", &dir).stdin(fs::File::open(dir.join("log")).unwrap()).stdout(Stdio::piped()).stderr(Stdio::piped()).spawn().unwrap();
    drop(child.stdout.take());
    let out = child.wait_with_output().unwrap();
    assert_eq!(out.status.code(), Some(1));
    assert!(String::from_utf8(out.stderr).unwrap().contains("Broken pipe"));
}

#[test]
fn closed_descriptors() {
    let dir = folder("closed");
    let shell = |script: &str| {
        let mut command = std::process::Command::new("bash");
        command.args(["-c", script, "bash", env!("CARGO_BIN_EXE_mooringeye")]).current_dir(&dir);
        run_command(command, b"")
    };
    shell("\"$1\" collect --level 0 --state s --archive a <&-").with(1).says("cannot read standard input: Bad file descriptor");
    shell("echo '1000 D5090102030400E8' | \"$1\" collect --level 0 --state s --archive a >&-")
        .with(1)
        .says("cannot write standard output: Bad file descriptor");
    shell("echo '1000 D5090102030400E8' | \"$1\" collect --level 0 --state s --archive a 2>&-").with(0);
    assert_eq!(run("archive list a", &dir, b"").with(0).out.lines().count(), 1);
}

#[test]
fn descriptors_that_do_not_block() {
    let dir = folder("nonblocking");
    let script = "import os, subprocess, sys, time
r, w = os.pipe(); s, t = os.pipe()
os.set_blocking(r, False); os.set_blocking(t, False)
p = subprocess.Popen([sys.argv[1], 'collect', '--level', '0'], stdin=r, stdout=t); os.close(r); os.close(t)
time.sleep(0.1)
for i in range(3000): os.write(w, b'%d D5090102030400E8\\n' % (1000 + 200 * i))
os.close(w); time.sleep(0.3)
out = open(s, 'rb').read()
assert out.count(b'KEPT\\n') == 3000, out.count(b'KEPT\\n')
sys.exit(p.wait())";
    let mut command = std::process::Command::new("python3");
    command.args(["-c", script, env!("CARGO_BIN_EXE_mooringeye")]).current_dir(&dir);
    run_command(command, b"").with(0);
}

#[test]
fn links_and_permissions_stay() {
    let dir = folder("links");
    fs::create_dir(dir.join("real")).unwrap();
    run("collect --state real/s --archive real/a", &dir, &sample()).with(0);
    for name in ["s", "a"] {
        fs::set_permissions(dir.join("real").join(name), fs::Permissions::from_mode(0o640)).unwrap();
        std::os::unix::fs::symlink(Path::new("real").join(name), dir.join(name)).unwrap();
    }
    run("collect --level 1 --state s --archive a", &dir, b"99999999 D5090102030400E8\n").with(0).says("326 lines taken");
    run("archive append a", &dir, b"1 KEPT D5090102030400E8\n").with(0);
    run("archive remove a --txid 01020304", &dir, b"").with(0);
    for name in ["s", "a"] {
        assert!(fs::symlink_metadata(dir.join(name)).unwrap().is_symlink());
        assert_eq!(fs::metadata(dir.join("real").join(name)).unwrap().permissions().mode() & 0o777, 0o640);
    }
    assert!(run("archive verify real/a", &dir, b"").with(0).out.contains("159 rows"));
}

#[test]
fn files_that_cannot_be_had() {
    let dir = folder("unreadable");
    run("collect --level 0 --state no/such", &dir, b"").with(1).says("no/such");
    run("collect --level 0 --archive no/such", &dir, b"").with(1).says("cannot open no/such: No such file or directory");
    fs::create_dir(dir.join("d")).unwrap();
    run("collect --level 0 --archive d", &dir, b"").with(1).says("cannot open d: Is a directory");
    run("archive verify none", &dir, b"").with(1).says("cannot open none: No such file");
    run("archive verify d", &dir, b"").with(1).says("d");
    fs::write(dir.join("s"), "x").unwrap();
    fs::set_permissions(dir.join("s"), fs::Permissions::from_mode(0o000)).unwrap();
    let ran = run("collect --level 0 --state s", &dir, b"");
    assert!(matches!(ran.status, Some(1 | 3)), "1 for a user who may not read it, and 3 for one who may: {}", ran.err);
}

#[test]
fn damaged_states_are_refused_and_stay() {
    let dir = folder("damaged_states");
    run("collect --state s --archive a", &dir, &sample()).with(0);
    let good = fs::read(dir.join("s")).unwrap();
    let mut flipped = good.clone();
    flipped[2_000] ^= 0x10;
    let mut header = good.clone();
    header[15] ^= 1;
    for (bytes, why) in [
        (&good[..3_000], "3000 bytes"),
        (&[], "0 bytes"),
        (&flipped, "not those of a state"),
        (&header, "not those of a state"),
        (&[0; 4_096], "not those of a state"),
    ] {
        fs::write(dir.join("s"), bytes).unwrap();
        run("collect --state s --archive a --replay", &dir, &sample()).with(3).says(why).says("--new-state");
        assert_eq!(fs::read(dir.join("s")).unwrap(), bytes, "it stays as it is");
    }
    fs::write(dir.join("s"), [&good[..], &[0]].concat()).unwrap();
    run("collect --state s --archive a", &dir, b"").with(3).says("4097 bytes");
    run("collect --level 1 --state s --archive a --fresh", &dir, b"").with(0).says("kept as s.aside-1");
    run("collect --level 1 --state s --archive a --new-state", &dir, b"").with(0).says("kept as s.aside-2");
    // A path that is not a file is neither read nor renamed.
    fs::create_dir(dir.join("d")).unwrap();
    for words in ["", "--fresh", "--new-state"] {
        run(&format!("collect --level 1 --state d --archive a {words}"), &dir, b"").with(3).says("d: not a regular file");
        assert!(dir.join("d").is_dir() && !dir.join("d.aside-1").exists());
    }
    run("collect --state s --archive a --replay", &dir, &sample()).with(0).says("a has 159 rows");
    assert!(run("archive verify a", &dir, b"").with(0).out.starts_with("a: 318 rows"));
}

#[test]
fn replay_skips_what_was_taken() {
    let dir = folder("replay");
    let log = log(5_000, 1);
    let whole = run("collect --state whole --archive whole.arc", &dir, log.as_bytes()).with(0);
    let cut = log.match_indices('\n').nth(1_699).unwrap().0 + 1;
    let first = run("collect --state s --archive a", &dir, &log.as_bytes()[..cut]).with(0);
    let again = run("collect --state s --archive a --replay", &dir, log.as_bytes()).with(0).says("1700 lines taken, which are skipped");
    assert_eq!(again.out.lines().count() + first.out.lines().count(), whole.out.lines().count() + 1);
    assert!(whole.out.ends_with(&again.out));
    assert!(fs::read(dir.join("a")).unwrap() == fs::read(dir.join("whole.arc")).unwrap());
    // A log that ends before what was taken is not this log.
    run("collect --level 1 --state s --archive a --replay", &dir, &log.as_bytes()[..cut]).with(1).says("the input ended 3300 lines before the 5000");
    // A log in two inputs, each with a level line.
    let dir = folder("two_inputs");
    run("collect --state s", &dir, b"level 0\n1000 D5090102030400E8\n").with(0);
    run("collect --state s", &dir, b"level 0\n1200 D5090102030400E8\n").with(0).says("2 lines taken");
    run("collect --state s --replay", &dir, b"level 0\n1000 D5090102030400E8\nlevel 0\n1200 D5090102030400E8\n").with(0).says("RECEIVED 2 KEPT 2");
}

#[test]
fn archives_that_are_not_the_states() {
    let dir = folder("other_archive");
    run("collect --state s --archive a", &dir, &sample()).with(0);
    run("collect --level 1 --state s --archive b", &dir, b"").with(2).says("the state belongs to the archive a");
    run("collect --level 1 --state s", &dir, b"").with(2).says("the state belongs to the archive a");
    assert!(!dir.join("b").exists());
    let good = fs::read(dir.join("a")).unwrap();
    // Rows that were removed, a missing file, and another file of that name.
    run("archive remove a --txid 01814D10", &dir, b"").with(0);
    run("collect --level 1 --state s --archive a", &dir, b"").with(3).says("--adopt-archive");
    fs::remove_file(dir.join("a")).unwrap();
    run("collect --level 1 --state s --archive a", &dir, b"").with(3).says("a is missing, but the state counts 159 rows");
    assert!(!dir.join("a").exists());
    run("collect --level 1 --archive a", &dir, log(5_000, 3).as_bytes()).with(0);
    run("collect --level 1 --state s --archive a", &dir, b"").with(3).says("does not have row 159 as the state counted it");
    run("collect --level 1 --state s --archive a --begin", &dir, b"").with(0);
    run("collect --level 1 --state s --archive a", &dir, b"").with(0);
    // Damage in a block that the state counts.
    fs::write(dir.join("a"), &good).unwrap();
    let mut damaged = good.clone();
    damaged[600] ^= 1;
    fs::write(dir.join("b"), damaged).unwrap();
    run("collect --level 1 --archive b", &dir, b"").with(3).says("refused with 12").says("(block 1)");
    fs::write(dir.join("b"), &good[..1_000]).unwrap();
    run("collect --level 1 --archive b", &dir, b"").with(3).says("refused with 16");
}

#[test]
fn rotation() {
    let dir = folder("rotation");
    let log = log(4_000, 2);
    let printed = run("collect --state s --archive plant-##.arc --blocks 20", &dir, log.as_bytes()).with(0).out;
    let mut files: Vec<_> =
        fs::read_dir(&dir).unwrap().map(|e| e.unwrap().file_name().into_string().unwrap()).filter(|n| n.ends_with("arc")).collect();
    files.sort();
    assert!(files.len() > 5, "{files:?}");
    let listed = run(&format!("archive list {}", files.join(" ")), &dir, b"").with(0).out;
    assert!(listed == kept_rows(&log, &printed));
    for name in &files[..files.len() - 1] {
        assert_eq!(run(&format!("archive verify {name}"), &dir, b"").with(0).out, format!("{name}: 300 rows, 20 blocks\n"));
    }
    // It continues in the last file; old ones may have been moved away.
    fs::remove_file(dir.join(&files[0])).unwrap();
    run("collect --level 1 --state s --archive plant-##.arc --blocks 20", &dir, b"9999999 A500000000010203040FBE\n")
        .with(0)
        .says(&files[files.len() - 1]);
    run("collect --level 1 --archive plant-##.arc --blocks 20", &dir, b"").with(0).says(&files[files.len() - 1]);
}
