//! Subtelegrams of ERP1.
use crate::raw;
use crate::refusal::{done, Refusal};
use std::fmt;

/// CRC-8 with x^8 + x^2 + x + 1 from 0.
///
/// ```
/// assert_eq!(mooringeye::crc8(&[0x01, 0x02]), 0x1B);
/// ```
pub fn crc8(bytes: &[u8]) -> u8 {
    raw::crc8(bytes)
}

/// The check of a subtelegram: its length, HASH, and what an addressed one holds.
///
/// ```
/// use mooringeye::{check, Refusal};
///
/// let right = [0xD5, 0x09, 0x01, 0x02, 0x03, 0x04, 0x00, 0xE8];
/// assert_eq!(check(&right), Ok(()));
/// let wrong = [0xD5, 0x09, 0x01, 0x02, 0x03, 0x04, 0x00, 0xE7];
/// assert_eq!(check(&wrong), Err(Refusal::Sum));
/// ```
pub fn check(bytes: &[u8]) -> Result<(), Refusal> {
    done(raw::check(bytes))
}

/// A valid subtelegram, 8 to 21 bytes.
///
/// ```
/// use mooringeye::Telegram;
///
/// # fn main() -> Result<(), mooringeye::Refusal> {
/// let t = Telegram::new(&[0xA5, 0, 0, 0, 8, 1, 2, 3, 4, 0, 0xB7])?;
/// let addressed = t.encapsulate([0xF1, 0xF2, 0xF3, 0xF4])?;
/// assert_eq!(addressed.as_bytes()[15], 0x27);
/// assert_eq!(addressed.decapsulate()?, t);
///
/// let sent = t.repeat(1)?.expect("setting 1 repeats level 0");
/// assert_eq!(sent.as_bytes()[9..], [0x01, 0xB8]);
/// assert!(sent.is_same(&t));
/// # Ok(())
/// # }
/// ```
#[derive(Clone, Copy, PartialEq, Eq, Hash)]
pub struct Telegram {
    frame: [u8; raw::FRAME],
}

impl Telegram {
    /// The most bytes of a subtelegram.
    pub const MAX_LEN: usize = 21;

    /// The telegram of these bytes; refused for what the check says.
    pub fn new(bytes: &[u8]) -> Result<Telegram, Refusal> {
        check(bytes)?;
        Ok(Telegram::of(bytes))
    }

    /// The telegram of these fields. Refused: [`Refusal::Argument`] for DATA not 1 to 14 bytes or RORG 0xA6, [`Refusal::TooLong`].
    pub fn build(fields: &Fields) -> Result<Telegram, Refusal> {
        let bytes = fields.to_bytes();
        Telegram::written(|out, length| raw::build(&bytes, out, length))
    }

    /// All its bytes, HASH among them.
    pub fn as_bytes(&self) -> &[u8] {
        &self.frame[1..1 + usize::from(self.frame[0])]
    }

    /// Its fields.
    pub fn fields(&self) -> Fields {
        Fields::from_bytes(&self.read())
    }

    /// Its fields as the library writes them.
    fn read(&self) -> [u8; raw::FIELDS] {
        let mut bytes = [0; raw::FIELDS];
        done(raw::read(self.as_bytes(), &mut bytes)).expect("a telegram is valid");
        bytes
    }

    /// Who sent it.
    ///
    /// ```
    /// let telegram = mooringeye::Telegram::new(&[0xD5, 0x09, 1, 2, 3, 4, 0, 0xE8]).unwrap();
    /// assert_eq!(telegram.txid(), [1, 2, 3, 4]);
    /// ```
    pub fn txid(&self) -> [u8; 4] {
        Fields::id(&self.read(), Fields::TXID)
    }

    /// This telegram addressed to a DESTID. Refused: [`Refusal::Nested`] where it is addressed, [`Refusal::TooLong`].
    pub fn encapsulate(&self, destid: [u8; 4]) -> Result<Telegram, Refusal> {
        Telegram::written(|out, length| raw::encapsulate(self.as_bytes(), u32::from_be_bytes(destid), out, length))
    }

    /// What this addressed telegram carries. Refused: [`Refusal::NotAddressed`].
    pub fn decapsulate(&self) -> Result<Telegram, Refusal> {
        Telegram::written(|out, length| raw::decapsulate(self.as_bytes(), out, length))
    }

    /// What a repeater set to 0 (off), 1 or 2 sends for it, if anything. Refused: [`Refusal::Argument`] for another setting.
    pub fn repeat(&self, setting: u8) -> Result<Option<Telegram>, Refusal> {
        let mut frame = [0; raw::FRAME];
        done(raw::repeat(setting, self.as_bytes(), &mut frame))?;
        Ok(Telegram::of_frame(frame))
    }

    /// Whether the two are the same telegram: equal but for HASH and the level.
    pub fn is_same(&self, other: &Telegram) -> bool {
        raw::same(self.as_bytes(), other.as_bytes())
    }

    /// The telegram in a frame that the library wrote; none for no bytes.
    pub(crate) fn of_frame(frame: [u8; raw::FRAME]) -> Option<Telegram> {
        (frame[0] != 0).then_some(Telegram { frame })
    }

    fn of(bytes: &[u8]) -> Telegram {
        Telegram { frame: frame(bytes) }
    }

    fn written(call: impl FnOnce(&mut [u8], &mut usize) -> u8) -> Result<Telegram, Refusal> {
        let mut out = [0; Telegram::MAX_LEN];
        let mut length = 0;
        done(call(&mut out, &mut length))?;
        Ok(Telegram::of(&out[..length]))
    }
}

/// Bytes as a frame. If there are more than it holds, it gets a length that no telegram has, and the first of the bytes.
pub(crate) fn frame(bytes: &[u8]) -> [u8; raw::FRAME] {
    let mut frame = [0; raw::FRAME];
    frame[0] = u8::try_from(bytes.len()).unwrap_or(u8::MAX);
    for (to, from) in frame[1..].iter_mut().zip(bytes) {
        *to = *from;
    }
    frame
}

impl AsRef<[u8]> for Telegram {
    fn as_ref(&self) -> &[u8] {
        self.as_bytes()
    }
}

impl fmt::Debug for Telegram {
    fn fmt(&self, f: &mut fmt::Formatter<'_>) -> fmt::Result {
        write!(f, "Telegram({self})")
    }
}

/// Its bytes as upper-case hexadecimal digits.
impl fmt::Display for Telegram {
    fn fmt(&self, f: &mut fmt::Formatter<'_>) -> fmt::Result {
        self.as_bytes().iter().try_for_each(|b| write!(f, "{b:02X}"))
    }
}

/// The fields of a subtelegram.
///
/// ```
/// use mooringeye::{Fields, Telegram};
///
/// # fn main() -> Result<(), mooringeye::Refusal> {
/// let fields = Fields { rorg: 0xD5, data: vec![0x09], destid: None, txid: [1, 2, 3, 4], status: 0x80 };
/// let t = Telegram::build(&fields)?;
/// assert_eq!(t.to_string(), "D50901020304 80FE".replace(' ', ""));
/// assert_eq!(t.fields(), fields);
/// # Ok(())
/// # }
/// ```
#[derive(Clone, Debug, PartialEq, Eq, Hash)]
pub struct Fields {
    /// RORG; of an addressed telegram the inner one.
    pub rorg: u8,
    /// DATA: 1 to 14 bytes, or 1 to 9 where it is addressed.
    pub data: Vec<u8>,
    /// To whom it is addressed, in the order of transmission; none for a plain telegram.
    pub destid: Option<[u8; 4]>,
    /// The transmitter, in the order of transmission.
    pub txid: [u8; 4],
    /// STATUS.
    pub status: u8,
}

impl Fields {
    /// How often it was sent on: 0 for an original.
    ///
    /// ```
    /// let telegram = mooringeye::Telegram::new(&[0xD5, 0x09, 1, 2, 3, 4, 1, 0xE9]).unwrap();
    /// assert_eq!(telegram.fields().level(), 1);
    /// ```
    pub fn level(&self) -> u8 {
        self.status & 15
    }

    // If a length does not fit a byte, the telegram cannot be built.
    fn to_bytes(&self) -> [u8; raw::FIELDS] {
        let mut bytes = [0; raw::FIELDS];
        bytes[0] = self.rorg;
        bytes[1] = u8::try_from(self.data.len()).unwrap_or(u8::MAX);
        bytes[2] = u8::from(self.destid.is_some());
        bytes[3] = self.status;
        bytes[4..8].copy_from_slice(&self.destid.unwrap_or_default());
        bytes[8..12].copy_from_slice(&self.txid);
        for (to, from) in bytes[12..].iter_mut().zip(&self.data) {
            *to = *from;
        }
        bytes
    }

    /// Where an ID is in these bytes.
    const DESTID: usize = 4;
    const TXID: usize = 8;

    fn id(bytes: &[u8; raw::FIELDS], at: usize) -> [u8; 4] {
        [bytes[at], bytes[at + 1], bytes[at + 2], bytes[at + 3]]
    }

    fn from_bytes(bytes: &[u8; raw::FIELDS]) -> Fields {
        Fields {
            rorg: bytes[0],
            data: bytes[12..12 + usize::from(bytes[1])].to_vec(),
            destid: (bytes[2] != 0).then(|| Fields::id(bytes, Fields::DESTID)),
            txid: Fields::id(bytes, Fields::TXID),
            status: bytes[3],
        }
    }
}

#[cfg(test)]
mod tests {
    use super::*;

    fn fields(data: usize, destid: Option<[u8; 4]>) -> Fields {
        Fields { rorg: 0xD2, data: vec![7; data], destid, txid: [1, 2, 3, 4], status: 0 }
    }

    #[test]
    fn lengths_of_data() {
        for n in [1, 14] {
            assert_eq!(Telegram::build(&fields(n, None)).unwrap().as_bytes().len(), n + 7);
        }
        for n in [0, 15, 255, 256, 300] {
            assert_eq!(Telegram::build(&fields(n, None)), Err(Refusal::Argument));
        }
        assert_eq!(Telegram::build(&fields(9, Some([9; 4]))).unwrap().as_bytes().len(), 21);
        assert_eq!(Telegram::build(&fields(10, Some([9; 4]))), Err(Refusal::TooLong));
    }

    #[test]
    fn refusals_of_addressing() {
        let plain = Telegram::build(&fields(9, None)).unwrap();
        let addressed = plain.encapsulate([0; 4]).unwrap();
        assert_eq!(plain.decapsulate(), Err(Refusal::NotAddressed));
        assert_eq!(addressed.encapsulate([0; 4]), Err(Refusal::Nested));
        assert_eq!(Telegram::build(&fields(10, None)).unwrap().encapsulate([0; 4]), Err(Refusal::TooLong));
        assert_eq!(plain.repeat(3), Err(Refusal::Argument));
        assert_eq!(plain.repeat(0), Ok(None));
    }

    #[test]
    fn lengths_of_bytes() {
        assert_eq!(check(&[]), Err(Refusal::Length));
        assert_eq!(check(&[0; 7]), Err(Refusal::Length));
        assert_eq!(check(&[0; 22]), Err(Refusal::Length));
        assert_eq!(check(&vec![0; 1 << 20]), Err(Refusal::Length));
        assert_eq!(crc8(&[]), 0);
    }
}
