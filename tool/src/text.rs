//! Numbers and bytes as text. The library reads hexadecimal digits.
pub use mooringeye::bytes_of_hex;

const HEX: &[u8; 16] = b"0123456789ABCDEF";

/// The two digits of each byte, and of each number below 100.
const PAIRS: [[u8; 2]; 256] = pairs(16);
const TENS: [[u8; 2]; 100] = pairs(10);

const fn pairs<const N: usize>(base: usize) -> [[u8; 2]; N] {
    let mut table = [[0; 2]; N];
    let mut i = 0;
    while i < N {
        table[i] = [HEX[i / base], HEX[i % base]];
        i += 1;
    }
    table
}

/// Two digits for each byte.
#[inline]
pub fn put_hex(out: &mut Vec<u8>, bytes: &[u8]) {
    for byte in bytes {
        out.extend_from_slice(&PAIRS[usize::from(*byte)]);
    }
}

pub fn put_number(out: &mut Vec<u8>, mut value: u64) {
    let mut digits = [0; 20];
    let mut at = digits.len();
    while value >= 10 {
        at -= 2;
        digits[at..at + 2].copy_from_slice(&TENS[(value % 100) as usize]);
        value /= 100;
    }
    if value > 0 || at == digits.len() {
        at -= 1;
        digits[at] = HEX[value as usize];
    }
    out.extend_from_slice(&digits[at..]);
}

/// An identity: eight hexadecimal digits.
pub fn identity(text: &str) -> Option<u32> {
    let bytes: [u8; 4] = bytes_of_hex(text)?.try_into().ok()?;
    Some(u32::from_be_bytes(bytes))
}

/// Whether a text begins like a file that gzip, bzip2, xz or zstd packed.
pub fn is_packed(text: &[u8]) -> bool {
    [&b"\x1F\x8B"[..], b"BZh", b"\xFD7zXZ", b"\x28\xB5\x2F\xFD"].iter().any(|mark| text.starts_with(mark))
}

/// A decimal number without leading zeros or signs.
pub fn number(text: &str) -> Option<u64> {
    let is_plain = text.bytes().all(|c| c.is_ascii_digit()) && (text.len() == 1 || !text.starts_with('0'));
    is_plain.then(|| text.parse().ok()).flatten()
}

#[cfg(test)]
mod tests {
    use super::*;

    #[test]
    fn numbers() {
        for value in [0, 9, 10, 99, 100, 12_345, u64::MAX] {
            let mut out = Vec::new();
            put_number(&mut out, value);
            assert_eq!(out, value.to_string().as_bytes());
            assert_eq!(number(&value.to_string()), Some(value));
        }
        for text in ["", "00", "01", "+1", "-1", "1 ", "18446744073709551616"] {
            assert_eq!(number(text), None);
        }
    }

    #[test]
    fn bytes() {
        let mut out = Vec::new();
        put_hex(&mut out, &[0x00, 0x9A, 0xFF]);
        assert_eq!(out, b"009AFF");
        assert_eq!(bytes_of_hex("009afF"), Some(vec![0x00, 0x9A, 0xFF]));
        assert_eq!(bytes_of_hex(""), Some(vec![]));
        assert_eq!((bytes_of_hex("0"), bytes_of_hex("0G"), bytes_of_hex("0 ")), (None, None, None));
        assert_eq!((identity("0102030a"), identity("01020304 "), identity("010203")), (Some(0x0102_030A), None, None));
    }
}
