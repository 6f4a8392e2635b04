//! Large files, pipes, readers that go away, BAD lines and `--quiet`.
mod common;
use common::*;
use std::fs::{self, File};
use std::io::Read;
use std::os::unix::fs::{FileExt, MetadataExt};
use std::path::Path;
use std::process::{Command, Stdio};
use std::time::{Duration, Instant};

#[test]
fn more_blocks_than_an_archive_has() {
    let dir = folder("large");
    // Sparse: it uses no disk space.
    File::create(dir.join("a")).unwrap().set_len(((1 << 32) + 1) * 512).unwrap();
    for words in ["verify a", "list a", "salvage a b", "sheet a", "append a", "remove a --txid 01020304", "picture a"] {
        let started = Instant::now();
        let text = "a: not an archive: 2199023256064 bytes, but an archive has at most 2^32 blocks of 512 bytes. It was not read.";
        run(&format!("archive {words}"), &dir, b"").with(3).says(text);
        assert!(started.elapsed() < Duration::from_secs(10), "{words}");
    }
    assert!(!dir.join("b").exists());
}

/// An archive of the largest number of blocks, of which the first few have rows and the rest is a hole: every command answers as for a short one, and
/// at once.
#[test]
fn zeros_at_the_end_of_a_sparse_archive() {
    let dir = folder("large_sparse");
    let names = ["short", "long"];
    for name in names {
        fs::create_dir(dir.join(name)).unwrap();
        run("collect --archive a", &dir.join(name), &sample()).with(0);
    }
    let length = (1 << 32) * 512;
    File::options().write(true).open(dir.join("long/a")).unwrap().set_len(length).unwrap();
    let started = Instant::now();
    let both = |words: &str, input: &[u8]| names.map(|name| run(words, &dir.join(name), input).with(0).out);
    let [short, long] = both("archive verify a", b"");
    assert_eq!((short.as_str(), long.as_str()), ("a: 159 rows, 2048 blocks\n", "a: 159 rows, 4294967296 blocks\n"));
    let same = |words: &str, input: &[u8]| {
        let [short, long] = both(words, input);
        assert_eq!(short, long, "{words}");
    };
    same("archive list a", b"");
    same("archive list a --after 100", b"");
    same("archive sheet a", b"");
    same("archive picture a", b"");
    same("archive salvage a saved", b"");
    same("archive append a", b"100000 KEPT D5090102030400E8\n");
    same("archive remove a --txid 01814D10", b"");
    same("collect --level 1 --state s --archive a", b"200000 D5090102030400E8\n");
    same("collect --level 1 --state s --archive a", b"300000 D5090102030400E8\n");
    for name in ["a", "saved"] {
        let metadata = fs::metadata(dir.join("long").join(name)).unwrap();
        assert_eq!(metadata.len(), length, "{name} keeps its length");
        assert!(metadata.blocks() < 10_000, "{name} takes no room for zeros");
    }
    same("archive list a", b"");
    assert!(started.elapsed() < Duration::from_secs(30));
    // A block after the hole is found at its position.
    let far = File::options().write(true).open(dir.join("short/a")).unwrap();
    far.set_len(1 << 30).unwrap();
    far.write_all_at(&[1; 512], (1 << 30) - 512).unwrap();
    run("archive verify a", &dir.join("short"), b"").with(3).says("(block 2097151)");
}

/// What a command shows on a terminal, if it is stopped for a second in the middle.
fn on_terminal(command: &str, dir: &Path) -> String {
    let mut child = Command::new("script");
    child.args(["--quiet", "--flush", "--command", command, "/dev/null"]).current_dir(dir).env("TERM", "dumb");
    let running = start(child);
    let script = running.child.id().to_string();
    let signal = |name: &str, to: &str| _ = Command::new("kill").args([name, to]).status().unwrap();
    std::thread::sleep(Duration::from_millis(60));
    let child = fs::read_to_string(format!("/proc/{script}/task/{script}/children")).unwrap();
    signal("-STOP", child.trim());
    std::thread::sleep(Duration::from_millis(1_200));
    // `script` stops with its child.
    signal("-CONT", child.trim());
    signal("-CONT", &script);
    running.end().out
}

#[test]
fn progress_on_a_terminal() {
    let dir = folder("large_progress");
    // A hole with a block after it: it is read to its end, which takes a while, and uses no disk space.
    let file = File::create(dir.join("a")).unwrap();
    file.set_len(1 << 30).unwrap();
    file.write_all_at(&[1; 512], (1 << 30) - 512).unwrap();
    let program = env!("CARGO_BIN_EXE_mooringeye");
    for words in ["verify a", "list a", "salvage a b", "sheet a"] {
        let shown = on_terminal(&format!("exec {program} archive {words}"), &dir);
        let line = shown.split('\r').find(|l| l.contains(" MB/s")).unwrap_or_else(|| panic!("{words}: {shown:?}"));
        assert!(line.starts_with("a: ") && line.contains(" of 1074 MB, up to ") && line.contains(" s left"), "{words}: {line:?}");
        assert!(shown.contains("\r\x1b[K"), "it goes away: {shown:?}");
    }
    assert!(!on_terminal(&format!("exec {program} archive verify a --quiet"), &dir).contains("MB/s"));
    // A log that is read again, while the reader of the rows is slow.
    fs::write(dir.join("log"), log(60_000, 8)).unwrap();
    for words in ["--log log", "--replay <log"] {
        let command = format!("{program} collect --level 1 --state s --archive c {words} | (sleep 1.5; cat >rows)");
        let _ = fs::remove_file(dir.join("s"));
        let mut shell = Command::new("script");
        shell.args(["--quiet", "--flush", "--command", &command, "/dev/null"]).current_dir(&dir);
        let shown = run_command(shell, b"").out;
        let line = shown.split('\r').find(|l| l.contains(" MB/s")).unwrap_or_else(|| panic!("{words}: {shown:?}"));
        assert!(line.contains(" of 2 MB, ") && line.contains(" rows, ") && line.contains(" s left"), "{words}: {line:?}");
        assert!(shown.contains("\r\x1b[Kmooringeye: ") || shown.contains("\x1b[K\r\x1b[K"), "messages stand on lines of their own: {shown:?}");
    }
    // Rows that go to a file are not on the terminal.
    let fed = "(head -n 100 log; sleep 1.2; tail -n +101 log)";
    let mut shell = Command::new("script");
    let command = format!("{fed} | {program} collect --level 1 --state t --out rows.txt --replay");
    shell.args(["--quiet", "--flush", "--command", &command, "/dev/null"]).current_dir(&dir);
    let shown = run_command(shell, b"").out;
    assert!(shown.split('\r').any(|l| l.starts_with("the input: ") && l.contains(" rows, ") && l.contains(" MB/s")), "{shown:?}");
    // If the rows are printed on the terminal, there is no progress.
    assert!(!on_terminal(&format!("exec {program} collect --level 1 --log log"), &dir).contains("MB/s"));
}

#[test]
fn pipes_are_no_archives() {
    let dir = folder("large_pipe");
    assert!(Command::new("mkfifo").arg(dir.join("pipe")).status().unwrap().success());
    for words in ["list pipe", "verify pipe", "sheet pipe", "picture pipe", "salvage pipe b", "list ."] {
        run(&format!("archive {words}"), &dir, b"")
            .with(1)
            .says("it is not a file. An archive is a regular file; write what a pipe gives to one first.");
    }
}

#[test]
fn a_reader_that_goes_away() {
    let dir = folder("large_head");
    let log = log(20_000, 5);
    run("collect --archive a", &dir, log.as_bytes()).with(0);
    for words in ["archive list a", "archive list a --rows json", "archive picture a --to 1030000"] {
        let mut child = tool(words, &dir).stdin(Stdio::null()).stdout(Stdio::piped()).stderr(Stdio::piped()).spawn().unwrap();
        let mut front = [0; 10];
        child.stdout.take().unwrap().read_exact(&mut front).unwrap();
        let done = child.wait_with_output().unwrap();
        assert_eq!((done.status.code(), done.stderr.len()), (Some(0), 0), "{words}");
    }
    // If nobody reads the rows of a collector, it has failed.
    fs::write(dir.join("log"), &log).unwrap();
    let mut child = tool("collect", &dir).stdin(File::open(dir.join("log")).unwrap()).stdout(Stdio::piped()).stderr(Stdio::piped()).spawn().unwrap();
    drop(child.stdout.take());
    assert_eq!(child.wait().unwrap().code(), Some(1));
}

#[test]
fn bad_lines_are_told() {
    let dir = folder("large_bad");
    let told = |err: &str| err.lines().filter(|l| l.contains(" is BAD: ")).map(String::from).collect::<Vec<_>>();
    for rows in ["text", "csv", "json"] {
        let ran = run(&format!("collect --rows {rows}"), &dir, b"level 1\n1 D5080583A1C000C6\nnoise \x1b\n2 D5080583A1C000C6\n3 x\n").with(0);
        assert_eq!(told(&ran.err), ["mooringeye: line 3 is BAD: noise \\u{1b}", "mooringeye: line 5 is BAD: 3 x"], "{rows}");
        assert!(!ran.err.contains("were BAD"));
    }
    let many = format!("level 1\n{}", "noise\n1 D5080583A1C000C6\n".repeat(2_000));
    for sync in ["batch", "row"] {
        let ran = run(&format!("collect --sync {sync}"), &dir, many.as_bytes())
            .with(0)
            .says("mooringeye: 2000 lines were BAD. The first 10 are listed above.\n");
        let expected: Vec<String> = (0..10).map(|i| format!("mooringeye: line {} is BAD: noise", 2 + 2 * i)).collect();
        assert_eq!(told(&ran.err), expected);
    }
    // The number of a line is that of the input, also if lines are skipped.
    run("collect --state s", &dir, b"level 1\n1 D5080583A1C000C6\n").with(0);
    let ran = run("collect --state s --replay", &dir, b"level 1\n1 D5080583A1C000C6\nnoise\n").with(0);
    assert_eq!(told(&ran.err), ["mooringeye: line 3 is BAD: noise"]);
}

#[test]
fn quiet() {
    let dir = folder("large_quiet");
    let loud = run("collect --state s --archive a", &dir, &sample()).with(0);
    let ran = run("collect --state t --archive b --quiet", &dir, &sample()).with(0);
    assert!(!loud.err.is_empty());
    assert_eq!((ran.out, ran.err.as_str()), (loud.out, ""));
    fs::write(dir.join("c"), [1; 512]).unwrap();
    run("archive verify c --quiet", &dir, b"").with(3).says("c: ");
    run("archive verify c none --quiet", &dir, b"").with(3).says("cannot open none");
}
