//! The two hashes (document 01, "Subtelegram"; 001, 3.3.2 and 3.3.3).

/// The low eight bits of the sum of all bytes.
pub fn sum(bytes: &[u8]) -> u8 {
    let total: u64 = bytes.iter().map(|&b| u64::from(b)).sum();
    (total % 256) as u8
}

/// Start at 0; for each byte, XOR it in, multiply by x^8 and take the remainder by
/// x^8 + x^2 + x + 1, by long division bit by bit.
pub fn crc(bytes: &[u8]) -> u8 {
    let mut remainder: u8 = 0;
    for &byte in bytes {
        let mut product: u16 = u16::from(remainder ^ byte) << 8;
        for power in (8..16).rev() {
            if product & (1 << power) != 0 {
                product ^= 0x107 << (power - 8);
            }
        }
        remainder = product as u8;
    }
    remainder
}

/// The HASH that STATUS selects: bit 7 clear, the sum; set, the CRC.
pub fn hash(status: u8, bytes: &[u8]) -> u8 {
    if status & 0x80 == 0 {
        sum(bytes)
    } else {
        crc(bytes)
    }
}

#[cfg(test)]
mod tests {
    use super::*;
    use crate::random::Random;

    /// The whole message as one polynomial times x^8, divided once.
    fn crc_at_once(bytes: &[u8]) -> u8 {
        let mut bits: Vec<u8> = Vec::new();
        for &b in bytes.iter().chain(&[0u8]) {
            for i in (0..8).rev() {
                bits.push((b >> i) & 1);
            }
        }
        for i in 0..bytes.len() * 8 {
            if bits[i] == 1 {
                for (offset, generator) in [1, 0, 0, 0, 0, 0, 1, 1, 1].iter().enumerate() {
                    bits[i + offset] ^= generator;
                }
            }
        }
        bits[bytes.len() * 8..]
            .iter()
            .fold(0, |value, bit| value * 2 + bit)
    }

    #[test]
    fn crc_cases() {
        assert_eq!(crc(&[0x01]), 0x07);
        assert_eq!(crc(&[0x80]), 0x89);
        assert_eq!(crc(&[0x01, 0x02]), 0x1B);
        assert_eq!(crc(&[]), 0x00);
    }

    #[test]
    fn crc_is_one_long_division() {
        let mut random = Random::new(1);
        for n in 0..200 {
            let bytes = random.bytes(n);
            assert_eq!(crc(&bytes), crc_at_once(&bytes));
        }
    }
}
