//! BAD lines: reports the first ten with their numbers and texts, and how many there were.
use crate::failure::tell;

/// This many are reported one by one.
const MOST: u64 = 10;
/// This many characters of a line are shown.
const SHOWN: usize = 80;

#[derive(Default)]
pub struct BadLines {
    count: u64,
    /// Whether a line that ends in CR LF was reported.
    told_cr: bool,
}

impl BadLines {
    /// Takes `count` lines with their rows, in any format, of which `bad` are BAD. The first line has this number. Only as many lines are read as
    /// must be reported.
    pub fn take(&mut self, first: u64, (lines, rows): (&[u8], &[u8]), count: u64, bad: u64) {
        let told = bad.min(MOST.saturating_sub(self.count));
        self.count += bad;
        let parts = |text| <[u8]>::split(text, |c: &u8| *c == b'\n');
        let each = (first..).zip(parts(lines).zip(parts(rows)));
        for (number, (line, _)) in each.filter(|(_, (_, row))| is_bad(row)).take(told as usize) {
            tell(format!("line {number} is BAD: {}", shown(line)));
            self.look_for_cr(number, line);
        }
        // If more than half are BAD, all of them may end in CR LF.
        if told < bad && !self.told_cr && 2 * bad > count {
            (first..).zip(parts(lines)).take_while(|(number, line)| !self.look_for_cr(*number, line)).for_each(drop);
        }
    }

    /// Reports once that a line ends in CR LF; returns whether it did.
    pub fn look_for_cr(&mut self, number: u64, line: &[u8]) -> bool {
        if !self.told_cr && line.ends_with(b"\r") {
            self.told_cr = true;
            tell(format!("line {number} ends in CR LF: a carriage return is not a hexadecimal digit, so such lines are BAD"));
        }
        self.told_cr
    }

    /// Reports how many there were, if not all were reported.
    pub fn end(&self) {
        if self.count > MOST {
            tell(format!("{} lines were BAD. The first {MOST} are listed above.", self.count));
        }
    }
}

/// Whether a row, as text, CSV or JSON, is that of a BAD line.
fn is_bad(row: &[u8]) -> bool {
    row == b"BAD" || row == b",BAD,,,,,," || row == b"{\"answer\":\"BAD\"}"
}

/// The front of a line, with characters escaped that can't be printed.
pub fn shown(line: &[u8]) -> String {
    let text: String = String::from_utf8_lossy(&line[..line.len().min(SHOWN)]).escape_default().collect();
    text + if line.len() > SHOWN { ".." } else { "" }
}

#[cfg(test)]
mod tests {
    use super::*;

    #[test]
    fn rows() {
        for row in ["BAD", ",BAD,,,,,,", "{\"answer\":\"BAD\"}"] {
            assert!(is_bad(row.as_bytes()));
        }
        for row in ["", "1 KEPT", "1,KEPT,,D5,,,,", "BADE"] {
            assert!(!is_bad(row.as_bytes()));
        }
        assert_eq!(shown(b"a\x1b\r"), "a\\u{1b}\\r");
        assert_eq!(shown(&[b'x'; 81]), "x".repeat(80) + "..");
    }
}
