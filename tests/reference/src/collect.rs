//! The program `collect` (document 01, "Cases", the program's text).

use crate::clerk::{Answer, Clerk};
use crate::hex::{hex, unhex};
use crate::repeater::sent_for;
use std::fmt::Write;

/// The largest number of bytes of a reception in a line.
const MOST: usize = 64;

/// A decimal 64-bit number without leading zeros.
fn time(text: &[u8]) -> Option<u64> {
    if text.is_empty() || (text[0] == b'0' && text.len() > 1) {
        return None;
    }
    let mut value: u64 = 0;
    for &c in text {
        if !c.is_ascii_digit() {
            return None;
        }
        value = value.checked_mul(10)?.checked_add(u64::from(c - b'0'))?;
    }
    Some(value)
}

/// Time, one space, 0 to 64 bytes.
pub fn reception(line: &[u8]) -> Option<(u64, Vec<u8>)> {
    let space = line.iter().position(|&c| c == b' ')?;
    let time = time(&line[..space])?;
    let bytes = unhex(&line[space + 1..])?;
    (bytes.len() <= MOST).then_some((time, bytes))
}

pub fn setting(line: Option<&[u8]>) -> Option<u8> {
    match line? {
        b"level 0" => Some(0),
        b"level 1" => Some(1),
        b"level 2" => Some(2),
        _ => None,
    }
}

pub fn run(input: &[u8]) -> String {
    // Lines end with a newline; the last one may have none.
    let text = input.strip_suffix(b"\n").unwrap_or(input);
    let mut lines = text.split(|&c| c == b'\n').filter(|_| !input.is_empty());
    let Some(setting) = setting(lines.next()) else {
        return "BAD\n".to_string();
    };
    let mut clerk = Clerk::new();
    let mut out = String::new();
    for line in lines {
        let Some((time, bytes)) = reception(line) else {
            out.push_str("BAD\n");
            continue;
        };
        let answer = clerk.take(time, &bytes);
        let sent = sent_for(setting, answer, &bytes);
        match answer {
            Answer::Kept if !sent.is_empty() => writeln!(out, "{time} KEPT SEND {}", hex(&sent)),
            Answer::Kept => writeln!(out, "{time} KEPT"),
            Answer::Copy => writeln!(out, "{time} COPY"),
            Answer::Loose => writeln!(out, "{time} LOOSE"),
            Answer::Refused(number) => writeln!(out, "{time} REFUSED {number}"),
        }
        .unwrap();
    }
    let totals = clerk.totals();
    writeln!(
        out,
        "RECEIVED {} KEPT {} COPIES {} LOOSE {} DAMAGED {} LATE {}",
        totals.received, totals.kept, totals.copies, totals.loose, totals.damaged, totals.late
    )
    .unwrap();
    out
}

#[cfg(test)]
mod tests {
    use super::*;

    #[test]
    fn sample_run() {
        let input = "level 1\n1000 D5090102030400E8\n1012 D5090102030401E9\n\
                     1101 D5090102030400E8\n1102 D5090102030400E7\n1090 D5090102030400E8\n";
        let output = "1000 KEPT SEND D5090102030401E9\n1012 COPY\n\
                      1101 KEPT SEND D5090102030401E9\n1102 REFUSED 2\n1090 REFUSED 7\n\
                      RECEIVED 5 KEPT 2 COPIES 1 LOOSE 0 DAMAGED 1 LATE 1\n";
        assert_eq!(run(input.as_bytes()), output);
        assert_eq!(run(input.trim_end().as_bytes()), output);
    }

    #[test]
    fn bad_first_line() {
        for input in [
            "",
            "\n",
            "level 3\n1 00\n",
            "level 01\n",
            " level 1\n",
            "level 1 \n",
            "level 1\r\n",
            "Level 1\n",
            "1000 D5090102030400E8\n",
        ] {
            assert_eq!(run(input.as_bytes()), "BAD\n", "{input:?}");
        }
        let none = "RECEIVED 0 KEPT 0 COPIES 0 LOOSE 0 DAMAGED 0 LATE 0\n";
        assert_eq!(run(b"level 0\n"), none);
        assert_eq!(run(b"level 2"), none);
    }

    #[test]
    fn later_lines() {
        let long = "0".repeat(128);
        let cases = [
            ("", "BAD"),
            ("5", "BAD"),
            ("5 ", "5 REFUSED 1"),
            ("5  00", "BAD"),
            (" 5 00", "BAD"),
            ("05 00", "BAD"),
            ("00 00", "BAD"),
            ("+5 00", "BAD"),
            ("-5 00", "BAD"),
            ("5 0", "BAD"),
            ("5 0G", "BAD"),
            ("5 00 ", "BAD"),
            ("5 00\r", "BAD"),
            ("5\t00", "BAD"),
            ("level 1", "BAD"),
            ("18446744073709551616 00", "BAD"),
            ("18446744073709551615 00", "18446744073709551615 REFUSED 1"),
            ("0 d5090102030402eA", "0 KEPT"),
            ("1 D5090102030400E8", "1 COPY"),
        ];
        for (line, row) in cases {
            let out = run(format!("level 2\n{line}\n").as_bytes());
            let expected = if row == "1 COPY" {
                "1 KEPT SEND D5090102030401E9"
            } else {
                row
            };
            assert_eq!(out.lines().next(), Some(expected), "{line:?}");
        }
        let all: String = cases.iter().map(|(line, _)| format!("{line}\n")).collect();
        let rows: String = cases.iter().map(|(_, row)| format!("{row}\n")).collect();
        assert_eq!(
            run(format!("level 2\n{all}").as_bytes()),
            format!("{rows}RECEIVED 4 KEPT 1 COPIES 1 LOOSE 0 DAMAGED 2 LATE 0\n")
        );
        assert!(run(format!("level 0\n7 {long}\n").as_bytes()).starts_with("7 REFUSED 1\n"));
        assert!(run(format!("level 0\n7 {long}00\n").as_bytes()).starts_with("BAD\n"));
    }
}
