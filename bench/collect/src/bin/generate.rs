//! Writes an input of `collect`: `generate sparse|crowded|year LINES`. It is the same on every run.

use collect_rust::hash::renew;
use std::fmt::Write as _;
use std::io::{self, BufWriter, Write};

/// A fixed-seed generator (splitmix64).
struct Random(u64);

impl Random {
    fn next(&mut self) -> u64 {
        self.0 = self.0.wrapping_add(0x9E37_79B9_7F4A_7C15);
        let mut z = self.0;
        z = (z ^ (z >> 30)).wrapping_mul(0xBF58_476D_1CE4_E5B9);
        z = (z ^ (z >> 27)).wrapping_mul(0x94D0_49BB_1331_11EB);
        z ^ (z >> 31)
    }

    fn below(&mut self, n: usize) -> usize {
        (self.next() % n as u64) as usize
    }

    fn pick<T: Copy>(&mut self, from: &[T]) -> T {
        from[self.below(from.len())]
    }
}

/// How crowded the air is.
struct Traffic {
    /// The ms between two lines are one of these.
    gaps: &'static [u64],
    /// How many of a hundred lines are new telegrams; the others are copies.
    fresh: usize,
    /// A copy is of one of this many new telegrams.
    recent: usize,
}

/// Three telegrams are open most of the time.
const SPARSE: Traffic = Traffic {
    gaps: &[2, 5, 10, 15, 28],
    fresh: 33,
    recent: 2,
};
/// 100 new telegrams in 100 ms, so 64 are always open.
const CROWDED: Traffic = Traffic {
    gaps: &[0, 0, 1, 1],
    fresh: 50,
    recent: 60,
};

/// A valid subtelegram of common lengths, plain or addressed, by sum or by CRC.
fn telegram(random: &mut Random) -> Vec<u8> {
    let rorg = random.pick(&[0xD5, 0xF6, 0xA5, 0xA5, 0xD2, 0xD1]);
    let data = match rorg {
        0xD5 | 0xF6 => 1,
        0xA5 => 4,
        _ => 1 + random.below(9),
    };
    let addressed = random.below(10) == 0;
    let mut bytes = if addressed {
        vec![0xA6, rorg]
    } else {
        vec![rorg]
    };
    let rest = data + if addressed { 8 } else { 4 };
    bytes.extend((0..rest).map(|_| random.next() as u8));
    bytes.extend([random.pick(&[0x00, 0x80]), 0]);
    renew(&mut bytes);
    bytes
}

fn at_level(mut bytes: Vec<u8>, level: u8) -> Vec<u8> {
    let status = bytes.len() - 2;
    bytes[status] |= level;
    renew(&mut bytes);
    bytes
}

/// A line at the present time; sometimes damaged, late or BAD.
fn line(random: &mut Random, now: u64, mut bytes: Vec<u8>) -> String {
    let (mut time, mut bad) = (now, "");
    match random.below(100) {
        0 => time -= 150,
        1 => bad = "?",
        2 | 3 => bytes[3] ^= 0x10,
        _ => {}
    }
    let mut text = format!("{time} {bad}");
    for byte in bytes {
        write!(text, "{byte:02X}").unwrap();
    }
    text
}

/// The first time of a log, in ms.
const START: u64 = 1_767_225_600_000;

fn generate(traffic: &Traffic, lines: usize, out: &mut impl Write) -> io::Result<()> {
    let mut random = Random(0x636F_6C6C_6563_7401);
    let mut now = START;
    let mut recent: Vec<Vec<u8>> = (0..traffic.recent).map(|_| telegram(&mut random)).collect();
    for i in 1..lines {
        now += random.pick(traffic.gaps);
        let at = if random.below(100) < traffic.fresh {
            let at = i % traffic.recent;
            recent[at] = telegram(&mut random);
            at
        } else {
            random.below(traffic.recent)
        };
        let heard = at_level(recent[at].clone(), random.pick(&[0, 0, 1, 2]));
        writeln!(out, "{}", line(&mut random, now, heard))?;
    }
    Ok(())
}

/// A plant's year has 9,800,000 telegrams and 31,400,000 receptions: a telegram every 3.2 s,
/// received 3.2 times within 40 ms.
fn generate_year(lines: usize, out: &mut impl Write) -> io::Result<()> {
    let mut random = Random(0x636F_6C6C_6563_7402);
    let mut sent = START;
    // The receptions to come of the telegrams that were sent, in order of time.
    let mut to_come: Vec<(u64, Vec<u8>)> = Vec::new();
    for _ in 1..lines {
        while to_come.first().is_none_or(|(time, _)| sent <= *time) {
            let telegram = telegram(&mut random);
            to_come.push((sent, telegram.clone()));
            for _ in 1..random.pick(&[2, 3, 3, 4, 4]) {
                let copy = at_level(telegram.clone(), random.pick(&[0, 0, 1]));
                to_come.push((sent + 1 + random.below(40) as u64, copy));
            }
            to_come.sort_by_key(|(time, _)| *time);
            sent += random.below(6_400) as u64;
        }
        let (now, heard) = to_come.remove(0);
        writeln!(out, "{}", line(&mut random, now, heard))?;
    }
    Ok(())
}

fn main() -> io::Result<()> {
    let words: Vec<String> = std::env::args().skip(1).collect();
    let words: Vec<&str> = words.iter().map(String::as_str).collect();
    let [traffic @ ("sparse" | "crowded" | "year"), lines] = words[..] else {
        eprintln!("generate sparse|crowded|year LINES");
        std::process::exit(2);
    };
    let lines = lines.parse().expect("a number of lines");
    let mut out = BufWriter::new(io::stdout().lock());
    writeln!(out, "level 2")?;
    match traffic {
        "sparse" => generate(&SPARSE, lines, &mut out)?,
        "crowded" => generate(&CROWDED, lines, &mut out)?,
        _ => generate_year(lines, &mut out)?,
    }
    out.flush()
}
