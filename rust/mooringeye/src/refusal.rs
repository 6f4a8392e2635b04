//! Why a call is refused.
use std::error::Error;
use std::fmt;

macro_rules! refusals {
    ($($name:ident = $number:literal, $text:literal;)*) => {
        /// Why a call is refused, with the number that documents 01 and 02 give it.
        ///
        /// ```
        /// use mooringeye::{Refusal, Telegram};
        ///
        /// let refusal = Telegram::new(&[0xD5, 0x09]).unwrap_err();
        /// assert_eq!(refusal, Refusal::Length);
        /// assert_eq!(refusal.number(), 1);
        /// assert_eq!(refusal.to_string(), "refused with 1: the length is wrong");
        /// ```
        #[derive(Clone, Copy, Debug, PartialEq, Eq, Hash, PartialOrd, Ord)]
        #[repr(u8)]
        pub enum Refusal {
            $(#[doc = $text] $name = $number,)*
        }

        impl Refusal {
            /// Every refusal, in order of its number.
            pub const ALL: &'static [Refusal] = &[$(Refusal::$name),*];

            /// The refusal with this number; `None` for 0 and for a number that no call answers.
            pub fn from_number(number: u8) -> Option<Refusal> {
                match number {
                    $($number => Some(Refusal::$name),)*
                    _ => None,
                }
            }

            fn text(self) -> &'static str {
                match self {
                    $(Refusal::$name => $text,)*
                }
            }
        }
    };
}

refusals! {
    Length = 1, "the length is wrong";
    Sum = 2, "HASH is wrong, the sum";
    Nested = 3, "addressed inside addressed, or encapsulating an addressed one";
    NotAddressed = 4, "removal asked of a plain telegram";
    TooLong = 5, "an addressed telegram of over 21 bytes";
    ShortOutput = 6, "the output is too short for the result";
    Late = 7, "the clock went back";
    Full = 8, "2^64 - 1 receptions are counted";
    NoPlan = 9, "no lawful plan";
    Argument = 10, "an argument is out of its range";
    NotAccepted = 11, "the state or the image is not accepted";
    Mismatch = 12, "a block of an archive does not match";
    Crc = 13, "HASH is wrong, the CRC";
    ReservedAddress = 14, "the address control of an ERP2 telegram is reserved";
    Misfit = 15, "the fields of an ERP2 telegram do not fit its length";
    Size = 16, "not whole blocks, or over 2^32 of them";
    Transmitters = 17, "a 257th transmitter of a report";
    Unlawful = 18, "the slot plan of a repeater of a site is not lawful";
    Overlap = 19, "transmissions of two repeaters of a site overlap";
    WrongSize = 255, "a slice does not have the size that the call asks for";
}

impl Refusal {
    /// The papers' number; 255 is the interface's own.
    pub fn number(self) -> u8 {
        self as u8
    }
}

impl fmt::Display for Refusal {
    fn fmt(&self, f: &mut fmt::Formatter<'_>) -> fmt::Result {
        write!(f, "refused with {}: {}", self.number(), self.text())
    }
}

impl Error for Refusal {}

/// A refusal of a call on an archive, with the position of the block that does not match for [`Refusal::Mismatch`]; of
/// [`Block::put_rows`](crate::Block::put_rows) with the place of the row that the check refuses; else 0.
///
/// ```
/// use mooringeye::{Archive, Refusal};
///
/// let mut bytes = [0; 1024];
/// bytes[600] = 1;
/// let refused = Archive::open(&mut bytes).unwrap_err();
/// assert_eq!((refused.why, refused.position), (Refusal::Mismatch, 1));
/// ```
#[derive(Clone, Copy, Debug, PartialEq, Eq, Hash)]
pub struct Refused {
    /// Why.
    pub why: Refusal,
    /// The position of the first block that does not match, or the place of the first row that the check refuses, from 0.
    pub position: usize,
}

impl fmt::Display for Refused {
    fn fmt(&self, f: &mut fmt::Formatter<'_>) -> fmt::Result {
        self.why.fmt(f)?;
        if self.why == Refusal::Mismatch {
            write!(f, " (block {})", self.position)?;
        }
        Ok(())
    }
}

impl Error for Refused {}

/// The result of a number: 0 is done.
pub(crate) fn done(number: u8) -> Result<(), Refusal> {
    match number {
        0 => Ok(()),
        n => Err(Refusal::from_number(n).expect("the library answers the numbers of its header")),
    }
}

/// The same for a call on an archive.
pub(crate) fn done_at(number: u8, position: usize) -> Result<(), Refused> {
    done(number).map_err(|why| Refused { why, position })
}

#[cfg(test)]
mod tests {
    use super::*;

    #[test]
    fn numbers_go_both_ways() {
        for n in 0..=255 {
            match Refusal::from_number(n) {
                Some(r) => assert_eq!(r.number(), n),
                None => assert!(n == 0 || (20..255).contains(&n)),
            }
        }
        assert_eq!(Refusal::ALL.len(), 20);
    }
}
