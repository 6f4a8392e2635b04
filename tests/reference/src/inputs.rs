//! Inputs of `collect` (document 01, "Cases", the program's text), each a file in the data of the
//! crate collect_runs: first lines and last lines, lines of every BAD kind among right ones, lines
//! longer than any chunk, garbage, the sample, and a long random run.

use crate::collect;
use crate::hex::hex;
use crate::random::Random;
use crate::sample;
use crate::subtelegram::{renew_hash, ADDRESSED, LONGEST};
use crate::telegrams::{at_level, hashed, random_kind, valid, with_bit};

/// A right telegram of document 01.
const TELEGRAM: &str = "D5090102030400E8";
/// Where long lines and garbage end: programs read in chunks, and the length of most chunks is a
/// power of two up to this.
const BLOCK: usize = 65_536;

pub const NAMES: [&str; 9] = [
    "bad_level",
    "no_line",
    "last_line",
    "bad_lines",
    "long_lines",
    "garbage",
    "garbage_first",
    "plant",
    "random",
];

/// The input of that name.
pub fn stdin(name: &str) -> Option<Vec<u8>> {
    Some(match name {
        "bad_level" => format!("level 3\n1000 {TELEGRAM}\n").into_bytes(),
        "no_line" => Vec::new(),
        "last_line" => format!("level 2\n1000 {TELEGRAM}\n1101 {TELEGRAM}").into_bytes(),
        "bad_lines" => bad_lines(),
        "long_lines" => long_lines(),
        "garbage" => garbage(),
        "garbage_first" => garbage_first(),
        "plant" => sample::plant().into_bytes(),
        "random" => random(),
        _ => return None,
    })
}

/// What `collect` prints for each of them, under a line with its name.
pub fn stdout() -> String {
    NAMES
        .iter()
        .map(|name| format!("== {name}\n{}", collect::run(&stdin(name).expect(name))))
        .collect()
}

/// Lines, each with the row that it gets at setting 2. `%` means the right telegram. Only the rows
/// for 1000, 1101 and the last time open anything.
const LINES: &[(&str, &str)] = &[
    // Nothing, or no space.
    ("", "BAD"),
    (" ", "BAD"),
    ("\r", "BAD"),
    ("\0", "BAD"),
    ("0", "BAD"),
    ("1000", "BAD"),
    ("%", "BAD"),
    (" %", "BAD"),
    // No bytes, and times with few digits.
    ("0 ", "0 REFUSED 1"),
    ("0 00", "0 REFUSED 1"),
    ("00 00", "BAD"),
    ("01 00", "BAD"),
    ("1 00", "1 REFUSED 1"),
    ("10 00", "10 REFUSED 1"),
    // Either case.
    ("1000 %", "1000 KEPT SEND D5090102030401E9"),
    ("1001 d5090102030400e8", "1001 COPY"),
    ("1002 d5090102030401E9", "1002 COPY"),
    ("1002 aABbcCDdeEFf", "1002 REFUSED 1"),
    // Wrong times.
    ("01003 %", "BAD"),
    ("-1 %", "BAD"),
    ("+1003 %", "BAD"),
    ("1003.0 %", "BAD"),
    ("1,003 %", "BAD"),
    ("1_003 %", "BAD"),
    ("1e3 %", "BAD"),
    ("0x3EB %", "BAD"),
    ("100/ %", "BAD"),
    ("100: %", "BAD"),
    ("3EB %", "BAD"),
    ("\u{FF11}003 %", "BAD"),
    ("\u{FEFF}1003 %", "BAD"),
    // Spaces.
    ("1003%", "BAD"),
    ("1003  %", "BAD"),
    (" 1003 %", "BAD"),
    ("1003 % ", "BAD"),
    ("1003 D5090102 030400E8", "BAD"),
    ("1003 D5 09 01 02 03 04 00 E8", "BAD"),
    ("1003\t%", "BAD"),
    ("1003 %\t", "BAD"),
    ("1003\u{A0}%", "BAD"),
    ("1003 %\r", "BAD"),
    ("1003\r %", "BAD"),
    ("1003 %\u{0B}", "BAD"),
    // NUL bytes.
    ("1003 %\0", "BAD"),
    ("\x001003 %", "BAD"),
    ("1003\0%", "BAD"),
    ("1003 \0%", "BAD"),
    ("1003 D509\0\0", "BAD"),
    // Characters that are not digits, and an odd number of digits.
    ("1003 D", "BAD"),
    ("1003 %0", "BAD"),
    ("1003 D5090102030400E", "BAD"),
    ("1003 D5090102030400/8", "BAD"),
    ("1003 D5090102030400:8", "BAD"),
    ("1003 D5090102030400@8", "BAD"),
    ("1003 D5090102030400G8", "BAD"),
    ("1003 D5090102030400`8", "BAD"),
    ("1003 D5090102030400g8", "BAD"),
    ("1003 D5090102030400E-", "BAD"),
    ("1003 0xD5090102030400E8", "BAD"),
    ("1003 \u{C4}\u{D6}", "BAD"),
    // Words.
    ("level 1", "BAD"),
    ("level 2", "BAD"),
    ("BAD", "BAD"),
    ("1003 COPY", "BAD"),
    ("RECEIVED 0 KEPT 0 COPIES 0 LOOSE 0 DAMAGED 0 LATE 0", "BAD"),
    // 2^64 - 1 and above.
    ("18446744073709551614 00", "18446744073709551614 REFUSED 1"),
    ("18446744073709551615 00", "18446744073709551615 REFUSED 1"),
    ("18446744073709551616 00", "BAD"),
    ("18446744073709551619 00", "BAD"),
    ("18446744073709551620 00", "BAD"),
    ("18446744073709552000 00", "BAD"),
    ("20000000000000000000 00", "BAD"),
    ("99999999999999999999 00", "BAD"),
    ("018446744073709551615 00", "BAD"),
    ("184467440737095516160 00", "BAD"),
    ("340282366920938463463374607431768211456 00", "BAD"),
    // Nothing above has closed what was opened at 1000, or moved the clock past 1002.
    ("1001 %", "1001 REFUSED 7"),
    ("1100 D5090102030401E9", "1100 COPY"),
    ("1101 %", "1101 KEPT SEND D5090102030401E9"),
    (
        "18446744073709551615 %",
        "18446744073709551615 KEPT SEND D5090102030401E9",
    ),
    ("18446744073709551615 %", "18446744073709551615 COPY"),
    ("18446744073709551614 %", "18446744073709551614 REFUSED 7"),
    ("0 %", "0 REFUSED 7"),
];

/// Times, and how many digits follow them, with the row.
const LENGTHS: &[(&str, usize, &str)] = &[
    ("0", 126, "0 REFUSED 1"),
    ("0", 128, "0 REFUSED 1"),
    ("0", 129, "BAD"),
    ("0", 130, "BAD"),
    ("0", 256, "BAD"),
    ("0", 512, "BAD"),
    (
        "18446744073709551615",
        128,
        "18446744073709551615 REFUSED 1",
    ),
    ("18446744073709551615", 129, "BAD"),
    ("18446744073709551615", 130, "BAD"),
];

/// The lines above, and one that is a time of 300 digits.
fn bad_lines() -> Vec<u8> {
    let mut text = b"level 2\n".to_vec();
    for (line, _) in LINES {
        text.extend(line.replace('%', TELEGRAM).as_bytes());
        text.push(b'\n');
    }
    for (time, digits, _) in LENGTHS {
        text.extend(format!("{time} {}\n", "0".repeat(*digits)).as_bytes());
    }
    text.extend(format!("{} {TELEGRAM}\n", "1".repeat(300)).as_bytes());
    text
}

/// Repeats the pattern up to the end of block number `blocks`.
fn fill(text: &mut Vec<u8>, pattern: &[u8], blocks: usize) {
    let n = blocks * BLOCK - text.len();
    text.extend(pattern.iter().cycle().take(n));
}

/// Two lines of about 200 KB and a last one of more than 1.2 MB without a newline, with right ones
/// between them. After the end of a block, a long line continues with what would be a right line.
fn long_lines() -> Vec<u8> {
    let mut text = format!("level 2\n1000 {TELEGRAM}\n1001 ").into_bytes();
    fill(&mut text, b"D5", 3);
    text.extend(format!("1001 {TELEGRAM}\n1002 {TELEGRAM}\n").as_bytes());
    fill(&mut text, b"7", 6);
    text.extend(format!("1003 {TELEGRAM}\n1101 {TELEGRAM}\n").as_bytes());
    fill(&mut text, format!("1102 {TELEGRAM}\0").as_bytes(), 25);
    text.extend(format!("1202 {TELEGRAM}").as_bytes());
    text
}

/// 64 KB of any bytes, a right line after every 4 KB.
fn garbage() -> Vec<u8> {
    let mut random = Random::new(0x6761_7262_6167_6501);
    let mut text = b"level 2\n".to_vec();
    for i in 0..16 {
        text.extend(random.bytes(BLOCK / 16));
        text.extend(format!("\n{} {TELEGRAM}\n", 1000 + 30 * i).as_bytes());
    }
    text
}

/// A first line of a block of any bytes but newlines, then what would be a right input.
fn garbage_first() -> Vec<u8> {
    let mut random = Random::new(0x6761_7262_6167_6502);
    let mut text = random.bytes(BLOCK);
    for byte in &mut text {
        if *byte == b'\n' {
            *byte = 0;
        }
    }
    text[BLOCK - 1] = b'\n';
    text.extend(format!("level 2\n1000 {TELEGRAM}\n").as_bytes());
    text
}

/// A telegram that the check nearly always refuses: cut short, joined with another, one bit wrong,
/// or addressed inside addressed, of any length, and with a wrong HASH too.
fn damaged(random: &mut Random, bytes: &[u8]) -> Vec<u8> {
    match random.below(4) {
        0 => bytes[..random.range(0, bytes.len() - 1)].to_vec(),
        1 => [bytes, bytes, bytes].concat(),
        2 => {
            let mut other = bytes.to_vec();
            let at = random.below(bytes.len());
            other[at] ^= 1 << random.below(8);
            other
        }
        _ => {
            let (n, kind) = (random.range(8, 21), random_kind(random));
            let mut other = hashed(random, n, &[ADDRESSED, ADDRESSED], kind);
            other[n - 1] ^= random.pick(&[0, 0, 1]);
            other
        }
    }
}

/// Nearly always another telegram: one bit different, also one of the upper ones of STATUS, or
/// longer by a zero before STATUS.
fn near(random: &mut Random, bytes: &[u8]) -> Vec<u8> {
    let status = bytes.len() - 2;
    match random.below(4) {
        0 => with_bit(bytes, status, random.range(4, 7)),
        1 if bytes.len() < LONGEST => {
            let mut other = bytes.to_vec();
            other.insert(status, 0);
            renew_hash(&mut other);
            other
        }
        _ => with_bit(bytes, random.below(status), random.below(8)),
    }
}

/// With one character inserted, removed or exchanged: BAD, or another right line, which must not be
/// later, because all lines after it would then be late.
fn edited(random: &mut Random, line: &str) -> Vec<u8> {
    let mut line = line.as_bytes().to_vec();
    let at = random.below(line.len());
    let character = random.pick(b" afAF-+.gG/:@`\r\t\0\xFF");
    match random.below(4) {
        0 => line.insert(at, character),
        1 => line[at] = character,
        2 => line.insert(0, random.pick(b"0 -+\0")),
        _ => {
            line.remove(at);
        }
    }
    line
}

/// The digits in either case.
fn digits(random: &mut Random, bytes: &[u8]) -> String {
    let text = hex(bytes);
    match random.below(10) {
        0 => text.to_lowercase(),
        1 => text[..8.min(text.len())].to_lowercase() + &text[8.min(text.len())..],
        _ => text,
    }
}

/// Some line at the present time or near it.
fn random_line(random: &mut Random, pool: &[Vec<u8>], now: u64) -> Vec<u8> {
    let at = random.below(pool.len());
    let level = random.pick(&[0, 0, 0, 0, 1, 1, 2, 3, 8, 9, 15]);
    let heard = at_level(&pool[at], level);
    let (mut time, mut bytes) = (now, heard.clone());
    let kind = random.below(100);
    match kind {
        0..=5 => bytes = damaged(random, &heard),
        6..=9 => time = now.saturating_sub(random.pick(&[1, 1, 2, 50, 100, 101, 5000])),
        10..=14 => bytes = near(random, &heard),
        15 => {
            let n = random.range(0, 64);
            bytes = random.bytes(n);
        }
        _ => {}
    }
    let line = format!("{time} {}", digits(random, &bytes));
    if (16..=18).contains(&kind) {
        edited(random, &line)
    } else {
        line.into_bytes()
    }
}

/// How many ms are between two lines: from crowded to sparse.
const GAPS: [&[u64]; 4] = [
    &[0, 0, 0, 1],
    &[0, 1, 1, 2, 5],
    &[0, 3, 10, 20, 40, 60],
    &[1, 20, 99, 100, 101, 102, 250],
];
/// How many different telegrams there are.
const POOLS: [usize; 5] = [130, 3, 300, 12, 70];

/// 60 parts of 500 lines: each of the gaps with each of the pools three times; the last one reaches
/// the greatest time.
fn random() -> Vec<u8> {
    let mut random = Random::new(0x7261_6E64_6F6D_0001);
    let mut text = b"level 2\n".to_vec();
    let mut now = 0;
    for stretch in 0..60 {
        let pool: Vec<Vec<u8>> = (0..POOLS[stretch % 5])
            .map(|_| valid(&mut random))
            .collect();
        if stretch == 59 {
            now = u64::MAX - 20_000;
        }
        for _ in 0..500 {
            now = now.saturating_add(random.pick(GAPS[stretch % 4]));
            text.extend(random_line(&mut random, &pool, now));
            text.push(b'\n');
        }
    }
    text
}

#[cfg(test)]
mod tests {
    use super::*;
    use crate::collect;

    fn run(name: &str) -> String {
        collect::run(&stdin(name).unwrap())
    }

    #[test]
    fn names() {
        for name in NAMES {
            assert!(stdin(name).is_some(), "{name}");
            assert!(stdin(name) == stdin(name), "{name}");
        }
        assert!(stdin("").is_none());
    }

    #[test]
    fn first_line_bad() {
        for name in ["bad_level", "no_line", "garbage_first"] {
            assert_eq!(run(name), "BAD\n", "{name}");
        }
        assert_eq!(stdin("garbage_first").unwrap()[BLOCK - 1], b'\n');
    }

    #[test]
    fn last_line() {
        assert_eq!(
            run("last_line"),
            "1000 KEPT SEND D5090102030401E9\n1101 KEPT SEND D5090102030401E9\n\
             RECEIVED 2 KEPT 2 COPIES 0 LOOSE 0 DAMAGED 0 LATE 0\n"
        );
    }

    /// The rows written by hand next to the lines are those that are printed.
    #[test]
    fn rows_of_bad_lines() {
        let mut rows: Vec<&str> = LINES.iter().map(|&(_, row)| row).collect();
        rows.extend(LENGTHS.iter().map(|&(_, _, row)| row));
        rows.push("BAD");
        let output = run("bad_lines");
        let printed: Vec<&str> = output.lines().collect();
        assert_eq!(printed[..rows.len()], rows);
        assert_eq!(
            printed[rows.len()..],
            ["RECEIVED 20 KEPT 3 COPIES 4 LOOSE 0 DAMAGED 10 LATE 3"]
        );
    }

    #[test]
    fn rows_of_long_lines() {
        let input = stdin("long_lines").unwrap();
        let lengths: Vec<usize> = input.split(|&c| c == b'\n').map(<[u8]>::len).collect();
        assert!(lengths[2] > 190_000 && lengths[4] > 190_000 && lengths[6] > 1_200_000);
        assert_eq!(lengths.len(), 7);
        assert_eq!(
            run("long_lines"),
            "1000 KEPT SEND D5090102030401E9\nBAD\n1002 COPY\nBAD\n\
             1101 KEPT SEND D5090102030401E9\nBAD\n\
             RECEIVED 3 KEPT 2 COPIES 1 LOOSE 0 DAMAGED 0 LATE 0\n"
        );
    }

    /// Every right line among the garbage has its row.
    #[test]
    fn rows_of_garbage() {
        let input = stdin("garbage").unwrap();
        assert!(input.contains(&0) && input.len() > BLOCK);
        let output = run("garbage");
        assert!(output.matches("BAD\n").count() > 200);
        assert!(
            output.ends_with("\nRECEIVED 16 KEPT 8 COPIES 8 LOOSE 0 DAMAGED 0 LATE 0\n"),
            "{output}"
        );
    }

    #[test]
    fn kinds_of_rows_in_the_random_run() {
        let output = run("random");
        for (kind, least) in [
            (" KEPT SEND ", 3000),
            (" KEPT\n", 1000),
            (" COPY\n", 5000),
            (" LOOSE\n", 1000),
            (" REFUSED 1\n", 500),
            (" REFUSED 2\n", 300),
            (" REFUSED 3\n", 100),
            (" REFUSED 7\n", 500),
            (" REFUSED 13\n", 300),
            ("BAD\n", 500),
            ("18446744073709551615 COPY\n", 10),
        ] {
            let count = output.matches(kind).count();
            assert!(count >= least, "{kind:?}: {count}");
        }
        assert_eq!(output.lines().count(), 30_001);
    }
}
