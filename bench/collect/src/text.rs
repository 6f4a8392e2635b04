//! The lines that `collect` reads and writes (document 01, "Cases").

use crate::collector::{Answer, Totals};

/// The largest number of bytes of a reception in a line.
pub const MAX_BYTES: usize = 64;
/// The longest right line: 20 digits, a space, 64 bytes of two digits.
pub const MAX_LINE: usize = 20 + 1 + 2 * MAX_BYTES;

/// The value of each character as a hexadecimal digit; 0xFF if it is not one.
const NIBBLES: [u8; 256] = nibbles();
/// The two digits of each byte.
const HEX: [[u8; 2]; 256] = pairs(16, b"0123456789ABCDEF");
/// The two digits of each number below 100.
const DECIMAL: [[u8; 2]; 100] = pairs(10, b"0123456789");

const fn nibbles() -> [u8; 256] {
    let mut table = [0xFF; 256];
    let mut i = 0;
    while i < 16 {
        table[b"0123456789ABCDEF"[i] as usize] = i as u8;
        table[b"0123456789abcdef"[i] as usize] = i as u8;
        i += 1;
    }
    table
}

const fn pairs<const N: usize>(base: usize, digits: &[u8]) -> [[u8; 2]; N] {
    let mut table = [[0; 2]; N];
    let mut i = 0;
    while i < N {
        table[i] = [digits[i / base], digits[i % base]];
        i += 1;
    }
    table
}

/// The setting in a first line.
pub fn setting(line: &[u8]) -> Option<u8> {
    match line {
        [b'l', b'e', b'v', b'e', b'l', b' ', digit @ b'0'..=b'2'] => Some(digit - b'0'),
        _ => None,
    }
}

/// The content of a right line.
pub struct Reception {
    pub time: u64,
    pub count: usize,
    /// How long the line is, its newline included.
    pub used: usize,
}

/// Reads the line at the start of the text, which includes its newline; its bytes go to `bytes`.
pub fn reception(text: &[u8], bytes: &mut [u8; MAX_BYTES]) -> Option<Reception> {
    let (time, width) = time(text)?;
    let digits = text[width..].strip_prefix(b" ")?;
    let mut count = 0;
    for (byte, pair) in bytes.iter_mut().zip(digits.chunks_exact(2)) {
        let high = NIBBLES[usize::from(pair[0])];
        let low = NIBBLES[usize::from(pair[1])];
        if (high | low) & 0xF0 != 0 {
            break;
        }
        *byte = high << 4 | low;
        count += 1;
    }
    (digits.get(2 * count) == Some(&b'\n')).then_some(Reception {
        time,
        count,
        used: width + 1 + 2 * count + 1,
    })
}

/// The number at the start of the text, and how many digits it has.
fn time(text: &[u8]) -> Option<(u64, usize)> {
    let mut value: u64 = 0;
    let mut width = 0;
    for character in text {
        let digit = character.wrapping_sub(b'0');
        if digit > 9 {
            break;
        }
        value = value.checked_mul(10)?.checked_add(u64::from(digit))?;
        width += 1;
    }
    (width == 1 || width > 1 && text[0] != b'0').then_some((value, width))
}

/// The row of a reception, with the bytes that are sent for it, if any.
pub fn row(out: &mut Vec<u8>, time: u64, answer: Answer, sent: Option<&mut [u8]>) {
    number(out, time);
    match answer {
        Answer::Kept => {
            out.extend_from_slice(b" KEPT");
            if let Some(bytes) = sent {
                out.extend_from_slice(b" SEND ");
                for &byte in bytes.iter() {
                    out.extend_from_slice(&HEX[usize::from(byte)]);
                }
            }
            out.push(b'\n');
        }
        Answer::Copy => out.extend_from_slice(b" COPY\n"),
        Answer::Loose => out.extend_from_slice(b" LOOSE\n"),
        Answer::Refused(refusal) => {
            out.extend_from_slice(b" REFUSED ");
            number(out, u64::from(refusal));
            out.push(b'\n');
        }
    }
}

pub fn bad(out: &mut Vec<u8>) {
    out.extend_from_slice(b"BAD\n");
}

pub fn totals(out: &mut Vec<u8>, totals: &Totals) {
    for (word, value) in [
        ("RECEIVED ", totals.received),
        (" KEPT ", totals.kept),
        (" COPIES ", totals.copies),
        (" LOOSE ", totals.loose),
        (" DAMAGED ", totals.damaged),
        (" LATE ", totals.late),
    ] {
        out.extend_from_slice(word.as_bytes());
        number(out, value);
    }
    out.push(b'\n');
}

fn number(out: &mut Vec<u8>, mut value: u64) {
    let mut digits = [0; 20];
    let mut at = digits.len();
    while value >= 10 {
        at -= 2;
        digits[at..at + 2].copy_from_slice(&DECIMAL[(value % 100) as usize]);
        value /= 100;
    }
    if value > 0 || at == digits.len() {
        at -= 1;
        digits[at] = b'0' + value as u8;
    }
    out.extend_from_slice(&digits[at..]);
}
