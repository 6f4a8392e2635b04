//! What the tests of the tool have in common: running it, folders of their own, and logs.
#![allow(dead_code)] // each test file uses a part of it
use std::fs;
use std::io::{Read, Write};
use std::path::{Path, PathBuf};
use std::process::{Child, ChildStdin, Command, Stdio};
use std::thread::{self, JoinHandle};
use std::time::Duration;

/// The root of the repository.
pub fn root() -> PathBuf {
    Path::new(env!("CARGO_MANIFEST_DIR")).join("..")
}

pub fn sample() -> Vec<u8> {
    fs::read(root().join("samples/plant.txt")).unwrap()
}

pub fn sample_expected() -> String {
    fs::read_to_string(root().join("samples/plant.expected")).unwrap()
}

/// An empty folder for a test.
pub fn folder(name: &str) -> PathBuf {
    let path = Path::new(env!("CARGO_TARGET_TMPDIR")).join(name);
    let _ = fs::remove_dir_all(&path);
    fs::create_dir_all(&path).unwrap();
    path
}

/// How a run ended, and what it printed.
pub struct Ran {
    /// None if a signal ended it.
    pub status: Option<i32>,
    pub out: String,
    pub err: String,
}

impl Ran {
    /// The same, after a check that it ended with this status.
    #[track_caller]
    pub fn with(self, status: i32) -> Ran {
        assert_eq!(self.status, Some(status), "standard error: {}", self.err);
        self
    }

    #[track_caller]
    pub fn says(self, text: &str) -> Ran {
        assert!(self.err.contains(text), "'{text}' is not in: {}", self.err);
        self
    }
}

/// The tool with these words, in a folder.
pub fn tool(words: &str, folder: &Path) -> Command {
    let mut command = Command::new(env!("CARGO_BIN_EXE_mooringeye"));
    command.args(words.split_ascii_whitespace()).current_dir(folder);
    command
}

/// The same under a limit, such as `--fsize=1000`.
pub fn limited(limit: &str, words: &str, folder: &Path) -> Command {
    let mut command = Command::new("prlimit");
    command.arg(limit).arg(env!("CARGO_BIN_EXE_mooringeye")).args(words.split_ascii_whitespace()).current_dir(folder);
    command
}

/// A tool that runs, with its output and its standard error read by threads.
pub struct Running {
    pub child: Child,
    out: JoinHandle<Vec<u8>>,
    err: JoinHandle<Vec<u8>>,
}

fn all(mut from: impl Read + Send + 'static) -> JoinHandle<Vec<u8>> {
    thread::spawn(move || {
        let mut all = Vec::new();
        from.read_to_end(&mut all).unwrap();
        all
    })
}

pub fn start(mut command: Command) -> Running {
    let mut child = command.stdin(Stdio::piped()).stdout(Stdio::piped()).stderr(Stdio::piped()).spawn().unwrap();
    let (out, err) = (all(child.stdout.take().unwrap()), all(child.stderr.take().unwrap()));
    Running { child, out, err }
}

impl Running {
    /// Sends a signal by its name.
    pub fn signal(&self, name: &str) {
        let sent = Command::new("kill").args([&format!("-{name}"), &self.child.id().to_string()]).status().unwrap();
        assert!(sent.success());
    }

    pub fn end(mut self) -> Ran {
        drop(self.child.stdin.take());
        let status = self.child.wait().unwrap();
        let text = |thread: JoinHandle<Vec<u8>>| String::from_utf8(thread.join().unwrap()).unwrap();
        Ran { status: status.code(), out: text(self.out), err: text(self.err) }
    }
}

/// Feeds a log in small parts, with pauses, so that there are many batches. After it the input ends, or stays open.
pub fn feed(running: &mut Running, log: &str, seed: u64, ends: bool) -> JoinHandle<Option<ChildStdin>> {
    let mut stdin = running.child.stdin.take().unwrap();
    let log = log.as_bytes().to_vec();
    thread::spawn(move || {
        let mut random = Random(seed);
        let mut rest = &log[..];
        while !rest.is_empty() {
            let (part, behind) = rest.split_at(rest.len().min(1 + random.below(2_000) as usize));
            if stdin.write_all(part).is_err() {
                return None;
            }
            rest = behind;
            if random.below(4) == 0 {
                thread::sleep(Duration::from_micros(random.below(300)));
            }
        }
        (!ends).then_some(stdin)
    })
}

/// Runs a command on an input to its end.
pub fn run_command(command: Command, input: &[u8]) -> Ran {
    let mut running = start(command);
    let mut stdin = running.child.stdin.take().unwrap();
    let input = input.to_vec();
    let feeder = thread::spawn(move || {
        let _ = stdin.write_all(&input); // a tool that ends early closes it
    });
    let ran = running.end();
    feeder.join().unwrap();
    ran
}

pub fn run(words: &str, folder: &Path, input: &[u8]) -> Ran {
    run_command(tool(words, folder), input)
}

/// A fixed-seed generator (splitmix64).
pub struct Random(pub u64);

impl Random {
    pub fn next(&mut self) -> u64 {
        self.0 = self.0.wrapping_add(0x9E37_79B9_7F4A_7C15);
        let mut z = self.0;
        z = (z ^ (z >> 30)).wrapping_mul(0xBF58_476D_1CE4_E5B9);
        z = (z ^ (z >> 27)).wrapping_mul(0x94D0_49BB_1331_11EB);
        z ^ (z >> 31)
    }

    pub fn below(&mut self, n: u64) -> u64 {
        self.next() % n
    }
}

/// A telegram of one of 200 transmitters, at a level, as hexadecimal digits.
fn telegram(random: &mut Random, level: u8) -> String {
    let mut bytes = vec![0xA5];
    bytes.extend((0..4).map(|_| random.next() as u8 & 3));
    bytes.extend([1, 2, 3, random.below(200) as u8, level]);
    bytes.push(bytes.iter().fold(0, |sum: u8, b| sum.wrapping_add(*b)));
    bytes.iter().map(|b| format!("{b:02X}")).collect()
}

/// A log with a first line `level 1`, new telegrams, copies, crowds, damaged, late and BAD lines.
pub fn log(lines: usize, seed: u64) -> String {
    let mut random = Random(seed);
    let mut text = "level 1\n".to_string();
    let mut now = 1_000_000;
    let mut latest = telegram(&mut random, 0);
    for i in 1..lines {
        // Sometimes so many receptions come at once that some are LOOSE.
        now += if i % 1_000 < 100 { 0 } else { random.below(40) };
        let line = match random.below(100) {
            0 => "gateway restarted".to_string(),
            1 => format!("{} {latest}", now - 500),
            2 => format!("{now} {}00", &latest[..20]),
            3..40 => format!("{now} {latest}"),
            _ => {
                let level = random.below(3) as u8;
                latest = telegram(&mut random, level);
                format!("{now} {latest}")
            }
        };
        text.push_str(&line);
        text.push('\n');
    }
    text
}

/// The rows for an archive of a log, as `archive list` prints them, made from its rows as `collect` prints them.
pub fn kept_rows(log: &str, printed: &str) -> String {
    let lines = log.lines().skip(1).zip(printed.lines());
    let mut out = String::new();
    for (line, row) in lines {
        let mut words = row.split(' ').skip(1);
        if let Some(word @ ("KEPT" | "LOOSE")) = words.next() {
            let (time, bytes) = line.split_once(' ').unwrap();
            out += &format!("{time} {word} {}\n", bytes.to_uppercase());
        }
    }
    out
}
