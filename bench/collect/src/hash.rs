//! HASH of a subtelegram (document 01, "Subtelegram").

/// The remainder of each byte times x^8 by x^8 + x^2 + x + 1.
const REMAINDERS: [u8; 256] = remainders();

const fn remainders() -> [u8; 256] {
    let mut table = [0; 256];
    let mut i = 0;
    while i < 256 {
        let mut value = i as u8;
        let mut bit = 0;
        while bit < 8 {
            value = (value << 1) ^ if value & 0x80 == 0 { 0 } else { 0x07 };
            bit += 1;
        }
        table[i] = value;
        i += 1;
    }
    table
}

#[inline]
pub fn sum(bytes: &[u8]) -> u8 {
    bytes.iter().fold(0, |sum, &byte| sum.wrapping_add(byte))
}

#[inline]
pub fn crc(bytes: &[u8]) -> u8 {
    bytes
        .iter()
        .fold(0, |crc, &byte| REMAINDERS[usize::from(crc ^ byte)])
}

/// The HASH that goes with these bytes, the last of which is STATUS.
#[inline]
pub fn hash(bytes: &[u8]) -> u8 {
    match bytes.last() {
        Some(status) if status & 0x80 != 0 => crc(bytes),
        _ => sum(bytes),
    }
}

/// Sets the last byte to the HASH of those before it.
pub fn renew(bytes: &mut [u8]) {
    if let Some((last, before)) = bytes.split_last_mut() {
        *last = hash(before);
    }
}
